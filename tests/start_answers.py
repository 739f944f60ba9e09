#!/usr/bin/env python3
"""Compares what cord_answers answers with what it answered at the start (c89b5a8), the state before the pass for speed:

- with one program, the cases of tests/data/start_answers.txt, which the start's build printed;
- with a second one, built at the start, so many seeds of each group, or of the groups that are named.

An answer has to be the start's, but for frames: of a frame or a key its reads of the file have to be some of the start's, whole and in their order; a
frame is the start's where the start showed one. Where the start told a fault, a frame may be shown, or the same fault told; another one only where the
read that failed at the start is left out, since the start never came to what is read behind it. A run is compared up to the start's first fault of a frame.
A case of the data that is known to be otherwise has the word DIFFERS on its first line, and fails once it is as at the start. Behind these cases each
allocation of some runs of frames is refused, by tests/refuse.c, where there is gcc: what is told is then the same up to a line that tells `memory`, or the
program ends without an answer. (The start's allocations are others, so no two builds are compared there.)

Usage: tests/start_answers.py PROGRAM [OLD_PROGRAM SEEDS [GROUP]...]
       tests/start_answers.py record OLD_PROGRAM PROGRAM    writes the data anew, by the start's build, and marks where PROGRAM answers otherwise
The last line says how many cases were compared; the status is not 0 where one failed.
"""

import os
import re
import shutil
import subprocess
import sys
import tempfile

sys.dont_write_bytecode = True
from second_checker import TOP

DATA = f"{TOP}/tests/data/start_answers.txt"
# The groups, with how many cases of each stand in the data, and further seeds: files over which a build failed anew, or told another fault.
GROUPS = {"joins": 60, "rows": 25, "images": 40, "numbers": 40, "places": 60, "frames": 120}
FURTHER = {"frames": (249, 320, 506, 1104, 6377, 7177, 7684, 7840, 8047, 9385)}
MARK = "DIFFERS "
FIRST_LINE = "# What cord_answers printed, built at c89b5a840511846e1a8afc02840af187766f6ca8 with this crate laid over it: tests/start_answers.py record"
HEAD = re.compile(r"(DIFFERS )?(%s) (\d+):" % "|".join(GROUPS))
TURN = re.compile(r"(frame|key [0-9a-f]{2}(?: times \d+)?)((?: \d\S*)*) -> (.*)")
FRAME = re.compile(r"[0-9a-f]{16}")
MEMORY = re.compile(r".* -> (memory|source memory|Memory)")
CHUNK = 50
# Runs of frames of which each allocation is refused.
REFUSED = (3, 11, 14, 20, 22)


def cases_in(text):
    """The cases of what was printed: the group, the seed, whether it is marked, and the lines without the mark."""
    cases = []
    for line in text.splitlines():
        head = HEAD.match(line)
        if head:
            cases.append((head[2], int(head[3]), bool(head[1]), [line.removeprefix(MARK)]))
        elif cases:
            cases[-1][3].append(line)
    return cases


def printed(program, group, seed, count):
    """The cases of a group that a program prints, by their seeds, and how it ended if it failed."""
    ran = subprocess.run([program, group, str(seed), str(count)], stdout=subprocess.PIPE, stderr=subprocess.PIPE, text=True)
    fault = f"status {ran.returncode}: {ran.stderr.strip()}" if ran.returncode else ""
    return {case[1]: case[3] for case in cases_in(ran.stdout)}, fault


def printed_all(program, group, seeds):
    """The same of these seeds, each row of them by one run."""
    cases, faults = {}, []
    rows = []
    for seed in seeds:
        if rows and rows[-1][-1] + 1 == seed:
            rows[-1].append(seed)
        else:
            rows.append([seed])
    for row in rows:
        found, fault = printed(program, group, row[0], len(row))
        cases |= found
        faults.append(fault)
    return cases, " ".join(filter(None, faults))


def is_part(few, all_of_them):
    """Whether these are some of those, in their order."""
    left = iter(all_of_them)
    return all(one in left for one in few)


def places(reads):
    """Where the reads began. One that came short is gone on with by others, which have a + each."""
    return [re.match(r"\d+", read)[0] for read in reads if "+" not in read]


def turn_fault(old, new):
    """What is wrong with a line of a run, beside the start's."""
    was, now = TURN.fullmatch(old), TURN.fullmatch(new)
    if not was or not now or was[1] != now[1]:
        return "another line"
    had, has = was[2].split(), now[2].split()
    has_failed = was[1] == "frame" and not FRAME.fullmatch(was[3])
    left_out = has_failed and not set(places(had)[-1:]) & set(places(has))
    if was[3] != now[3] and not left_out and not (has_failed and FRAME.fullmatch(now[3])):
        return f"{now[3]} in place of {was[3]}"
    if not has_failed and not is_part(has, had):
        return "a read that the start did not make"
    return ""


def run_fault(old, new):
    """What is wrong with a run of frames and keys, beside the start's."""
    if old[:1] != new[:1]:
        return "another input"
    for k, was in enumerate(old[1:], 1):
        fault = turn_fault(was, new[k]) if k < len(new) else "the run ends early"
        if fault:
            return f"turn {k}: {fault}\n  start: {was}\n  now:   {new[k] if k < len(new) else ''}"
    return ""


def fault_of(group, old, new):
    """What is wrong with a case, beside the start's."""
    if group == "frames":
        return run_fault(old, new)
    if old == new:
        return ""
    k = next((k for k, (a, b) in enumerate(zip(old, new)) if a != b), min(len(old), len(new)))
    return f"line {k}\n  start: {''.join(old[k:k + 1])}\n  now:   {''.join(new[k:k + 1])}"


class Tally:
    def __init__(self):
        self.same, self.marked, self.failed = 0, 0, 0

    def compare(self, group, seed, is_marked, old, new, ended):
        fault = fault_of(group, old, new) if new is not None else f"no answer, {ended}"
        if fault and is_marked:
            self.marked += 1
            print(f"known to be other: {group} {seed}")
        elif fault or is_marked:
            self.failed += 1
            print(f"FAILED: {group} {seed}: {fault or 'it is as at the start: take the mark away'}")
        else:
            self.same += 1

    def end(self):
        print(f"{self.same} as at the start, {self.marked} known to be other, {self.failed} failed")
        return 1 if self.failed or not self.same else 0


def compare_data(program):
    with open(DATA) as file:
        cases = cases_in(file.read())
    tally = Tally()
    for group in GROUPS:
        kept = [case for case in cases if case[0] == group]
        found, ended = printed_all(program, group, [case[1] for case in kept])
        for _, seed, is_marked, old in kept:
            tally.compare(group, seed, is_marked, old, found.get(seed), ended)
    refuse_each(program, tally)
    return tally.end()


def refused_run(program, library, seed, number, counted):
    """The lines of a run of frames of which an allocation is refused, whether it ended well, and how many allocations there were."""
    env = {"LD_PRELOAD": library, "REFUSE_AT": str(number), "REFUSE_COUNTED": counted}
    ran = subprocess.run([program, "frames", str(seed), "1"], stdout=subprocess.PIPE, stderr=subprocess.DEVNULL, text=True, env=env)
    with open(counted) as file:
        return ran.stdout.splitlines(), ran.returncode == 0, int(file.read())


def is_refused_well(told, is_well, whole):
    """Whether a run of which an allocation was refused told the same up to a line that tells `memory`, or nothing and failed."""
    if told == whole:
        return True
    if not told:
        return not is_well
    k = next((k for k, (a, b) in enumerate(zip(told, whole)) if a != b), min(len(told), len(whole)))
    return k < len(told) and MEMORY.fullmatch(told[k]) is not None


def refuse_each(program, tally):
    """Refuses each allocation of some runs of frames."""
    if not shutil.which("gcc"):
        print("LEFT OUT: refused allocations of frames: there is no gcc here")
        return
    with tempfile.TemporaryDirectory() as folder:
        library, counted = f"{folder}/refuse.so", f"{folder}/counted"
        subprocess.run(["gcc", "-O2", "-shared", "-fPIC", "-o", library, f"{TOP}/tests/refuse.c"], check=True)
        for seed in REFUSED:
            whole, _, count = refused_run(program, library, seed, 0, counted)
            for number in range(1, count + 1):
                told, is_well, _ = refused_run(program, library, seed, number, counted)
                if not is_refused_well(told, is_well, whole):
                    tally.failed += 1
                    print(f"FAILED: frames {seed}, with allocation {number} refused: {told}")
            print(f"frames {seed}: {count} allocations refused")


def compare_builds(program, old_program, seeds, groups):
    tally = Tally()
    for group in groups:
        for first in range(0, seeds, CHUNK):
            count = min(CHUNK, seeds - first)
            was, old_end = printed(old_program, group, first, count)
            now, ended = printed(program, group, first, count)
            for seed in range(first, first + count):
                tally.compare(group, seed, False, was.get(seed, [old_end]), now.get(seed), ended)
    return tally.end()


def record(old_program, program):
    with open(DATA, "w") as file:
        file.write(f"{FIRST_LINE}\n")
        for group, count in GROUPS.items():
            seeds = [*range(count), *FURTHER.get(group, ())]
            was, ended = printed_all(old_program, group, seeds)
            now, _ = printed_all(program, group, seeds)
            if ended or len(was) != len(seeds):
                sys.exit(f"{group}: {len(was)} cases, {ended}")
            for seed in seeds:
                mark = MARK if fault_of(group, was[seed], now.get(seed, [])) else ""
                file.write(mark + "\n".join(was[seed]) + "\n")
    return 0


def main(words):
    if words[:1] == ["record"] and len(words) == 3:
        return record(*map(os.path.abspath, words[1:]))
    if len(words) == 1:
        return compare_data(os.path.abspath(words[0]))
    if len(words) >= 3:
        return compare_builds(*map(os.path.abspath, words[:2]), int(words[2]), words[3:] or list(GROUPS))
    sys.exit(__doc__)


sys.exit(main(sys.argv[1:]))
