"""What the comparisons of two built checkouts share: runs by turns, medians with their ratio, and which rows lost time."""

import os
import statistics
import sys
import time
from dataclasses import dataclass
from typing import Callable

# A row lost time, where it took more than a twentieth longer.
MOST = 1.05


@dataclass
class Row:
    """A name, and what is run of a checkout: it answers what came of it, and how many seconds that took."""

    name: str
    run: Callable[[str], tuple[object, float]]


def timed(call):
    """What a call answers, and how many seconds it takes."""
    start = time.perf_counter()
    answer = call()
    return answer, time.perf_counter() - start


def program(checkout, crate):
    """The program of a crate of a built checkout."""
    path = os.path.join(os.path.abspath(checkout), "crates", crate, "out", crate)
    if not os.access(path, os.X_OK):
        sys.exit(f"there is no program {path}: `rt run` in that crate's folder builds it")
    return path


def medians(row, old, new, turns):
    """The median of both, by turns. It stops where the two answer something else."""
    times = {old: [], new: []}
    answers = []
    for turn in range(turns):
        for checkout in (old, new) if turn % 2 == 0 else (new, old):
            answer, seconds = row.run(checkout)
            times[checkout].append(seconds)
            if answer not in answers:
                answers.append(answer)
            if len(answers) > 1:
                sys.exit(f"{row.name}: the outputs differ: {answers}")
    return statistics.median(times[old]), statistics.median(times[new])


def compare(rows, old, new, turns):
    """Prints a line for each row, and answers those that lost time."""
    print("| Job | Seconds in the old | Seconds in the new | Old over new |")
    print("|---|---|---|---|")
    lost = []
    for row in rows:
        before, now = medians(row, old, new, turns)
        print(f"| {row.name} | {before:.3f} | {now:.3f} | {before / now:.2f} |", flush=True)
        if now > MOST * before:
            lost.append(row)
    return lost


def main(usage, rows_of, defaults):
    """Compares, by the words OLD NEW and at most as many numbers as there are defaults, the last of which is how many turns. Behind the word
    --lost the rows that lost time are run again, and those that lost in both runs are an error."""
    words = sys.argv[1:]
    strict = words[:1] == ["--lost"]
    old, new, *numbers = words[strict:] if len(words) >= 2 + strict else sys.exit(usage)
    if old == new or len(numbers) > len(defaults):
        sys.exit(usage)
    *given, turns = numbers + defaults[len(numbers) :]
    lost = compare(rows_of(*given), old, new, int(turns))
    if strict and lost:
        print("\nWhat lost time is run again:\n", flush=True)
        lost = compare(lost, old, new, int(turns))
        if lost:
            sys.exit("more than a twentieth lost in two runs: " + ", ".join(row.name for row in lost))
