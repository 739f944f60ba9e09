#!/usr/bin/env python3
"""Fuzzes the built cordkit with images, guided by the second checker: an input is kept where it takes a branch of that program which none before
it took, or where it is answered in a new way; what was kept is damaged and joined to make more. Each input goes to both, and every answer
of cordkit has to be the second checker's (tests/damaged_images.py tells what is compared). The branches are those of python's own
instructions, so each part of a condition counts.

The inputs that reach something stand in tests/reached_images, a line an input: the image and its sources, in hex. Where the fuzzer finds more
of them it writes the file anew, with as few and as short inputs as it can.

Usage: tests/fuzz_images.py MINUTES [PROGRAM [SEED]]; with no minutes it runs what is kept. The last line is 'N passed, M failed'.
"""

import collections
import multiprocessing
import os
import random
import sys
import tempfile
import time
from typing import NamedTuple, Tuple

from second_checker import PROGRAM, TOP, verify
from made_images import made
import damaged_images

KEPT = os.path.join(TOP, "tests/reached_images")
LONGEST_KEPT, LONGEST_INPUT = 300_000, 6_000
SECONDS_OF_A_ROUND = 20
SIZES = [verify.HEADER_SIZE, verify.SOURCE_SIZE, verify.NODE_SIZE, verify.REVISION_SIZE, verify.SPLICE_SIZE, verify.ROW_SIZE]


class Input(NamedTuple):
    image: bytes
    sources: Tuple[bytes, ...]

    def spelled(self):
        return ";".join(text.hex() for text in (self.image, *self.sources))

    def size(self):
        return len(self.spelled()) + 1


def spelled_input(line):
    image, *sources = [bytes.fromhex(text) for text in line.split(";")]
    return Input(image, tuple(sources))


# ---- What an input reaches


def reached(given):
    """What an input reaches: the branches that the second checker takes, and the kind of its answer."""
    taken = set()

    def enter(frame, *_):
        if frame.f_code.co_filename != verify.__file__:
            return None
        code, last = (frame.f_code.co_name, frame.f_code.co_firstlineno), frame.f_lasti
        frame.f_trace_lines, frame.f_trace_opcodes = False, True

        def step(frame, event, _):
            nonlocal last
            if event == "opcode":
                taken.add((*code, last, frame.f_lasti))
                last = frame.f_lasti
            return step

        return step

    sys.settrace(enter)
    try:
        line = verify.line(given.image, list(given.sources))
    finally:
        sys.settrace(None)
    taken.add(damaged_images.named(line, given.image))
    return taken


# ---- Inputs made of others


def sections_of(image):
    """The records of an image, section by section, or nothing where its header does not say how long it is."""
    try:
        header = verify.header_of(image)
    except verify.Refused:
        return None
    sizes, sections, start = header.sections(), [], 0
    if sum(sizes) != len(image):
        return None
    for size, record in zip(sizes, [*SIZES, max(sizes[-1], 1)]):
        sections.append([image[place : place + record] for place in range(start, start + size, record)])
        start += size
    sections[-1] = sections[-1] or [b""]
    return sections


def joined(first, second, chance):
    """Sections of one of two images, or of both one behind the other, counted anew."""
    ways = [lambda a, b: a, lambda a, b: a, lambda a, b: b, lambda a, b: a + b]
    sections = [first[0], *(chance.choice(ways)(a, b) for a, b in zip(first[1:], second[1:]))]
    return [[damaged_images.counted(sections)], *sections[1:]]


def with_bytes(image, chance):
    """The image with some bytes changed, taken away or put in."""
    image = bytearray(image)
    for _ in range(chance.choice([1, 1, 2, 5])):
        place = chance.randrange(len(image) + 1)
        change = chance.randrange(4)
        if change == 0:
            del image[place : place + chance.randrange(9)]
        elif change == 1:
            image[place:place] = bytes(chance.randrange(256) for _ in range(chance.randrange(1, 9)))
        else:
            image[place : place + 1] = bytes([chance.choice([0, 1, 255, chance.randrange(256)])])
    return bytes(image)


def changed(kept, chance):
    """An input that is made of one that was kept, or of two."""
    image, sources = chance.choice(kept)
    sections = sections_of(image)
    if sections is None or chance.random() < 0.05:
        return Input(with_bytes(image, chance), sources)
    if chance.random() < 0.15:
        other = sections_of(chance.choice(kept).image)
        sections = joined(sections, other, chance) if other else sections
    if chance.random() < 0.05:
        sources = tuple(damaged_images.other_sources(sources, chance))
    return Input(damaged_images.damaged(sections, chance), sources)


def made_inputs(seed):
    """Images that chance makes, of which no one is long."""
    for number in range(seed, seed + 400):
        image = made(random.Random(number))
        data = b"".join(b"".join(section) for section in image.sections())
        if len(data) <= LONGEST_INPUT:
            yield Input(data, tuple(image.sources))


def worked_inputs():
    """The worked images, each with a source of the length that it states, or with none."""
    for folder in ("tests/vectors", "tests/vectors/version2"):
        for name in sorted(os.listdir(os.path.join(TOP, folder))):
            if name.endswith(".hex"):
                with open(os.path.join(TOP, folder, name), encoding="ascii") as file:
                    data = bytes.fromhex(file.read())
                if len(data) <= LONGEST_INPUT:
                    yield Input(data, ())


# ---- Rounds


def tried(program, folder, given, chance):
    """What is wrong with the program's answers for an input, or nothing."""
    _, fault = damaged_images.answers(program, folder, given.image, list(given.sources), chance, False)
    return f"{fault}: {given.spelled()}" if fault else None


def round_of(words):
    """Tries inputs for some seconds: how many, those that reached something new, and what was wrong."""
    program, kept, known, seed, seconds = words
    chance, known, more, found, count = random.Random(seed), set(known), [], [], 0
    waiting = list(made_inputs(seed)) if not seed % 5 else []
    end = time.monotonic() + seconds
    with tempfile.TemporaryDirectory() as folder:
        while time.monotonic() < end:
            given = waiting.pop() if waiting else changed(kept + more, chance)
            if len(given.image) > LONGEST_INPUT:
                continue
            taken = reached(given)
            fault = tried(program, folder, given, chance)
            count += 1
            found += [fault] if fault else []
            if not taken <= known:
                known |= taken
                more.append(given)
    return count, more, found


def fewest(inputs):
    """Short inputs that reach all that these do, none of which could be left out, and what they reach."""
    reaches = {given: reached(given) for given in sorted(set(inputs), key=Input.size)}
    known, chosen = set(), []
    for given, taken in reaches.items():
        if not taken <= known:
            known |= taken
            chosen.append(given)
    times = collections.Counter(branch for given in chosen for branch in reaches[given])
    for given in list(chosen):
        if all(times[branch] > 1 for branch in reaches[given]):
            chosen.remove(given)
            times.subtract(reaches[given])
    return chosen, known


def read_kept():
    if not os.path.exists(KEPT):
        return []
    with open(KEPT, encoding="ascii") as file:
        return [spelled_input(line) for line in file.read().splitlines()]


def write_kept(inputs):
    spelled = sorted(given.spelled() for given in inputs)
    with open(KEPT, "w", encoding="ascii") as file:
        file.write("".join(f"{line}\n" for line in spelled))


def run_kept(program, kept):
    """What is wrong with the answers for the inputs that were kept."""
    with tempfile.TemporaryDirectory() as folder:
        found = [tried(program, folder, given, random.Random(0)) for given in kept]
    return [fault for fault in found if fault]


def fuzz(program, kept, minutes, seed):
    """Rounds for so many minutes: how many inputs were tried, those that reach something, and what was wrong."""
    end, count, found, processes = time.monotonic() + 60 * minutes, 0, [], os.cpu_count()
    start = kept or list(worked_inputs())
    known = set().union(*(reached(given) for given in start))
    with multiprocessing.Pool(processes) as pool:
        while time.monotonic() < end:
            rounds = [(program, start, known, seed + k, SECONDS_OF_A_ROUND) for k in range(processes)]
            for tries, more, faults in pool.imap_unordered(round_of, rounds):
                count, found = count + tries, found + faults
                for given in more:
                    taken = reached(given)
                    if not taken <= known:
                        known |= taken
                        start.append(given)
            seed += processes
    return count, start, found


def main():
    minutes = float(sys.argv[1]) if len(sys.argv) > 1 else 10
    program = sys.argv[2] if len(sys.argv) > 2 else PROGRAM
    seed = int(sys.argv[3]) if len(sys.argv) > 3 else random.randrange(1 << 30)
    kept = read_kept()
    count, found = len(kept), run_kept(program, kept)
    if minutes > 0:
        print(f"seed {seed}")
        tries, inputs, faults = fuzz(program, kept, minutes, seed)
        count, found = count + tries, found + faults
        needed, known = fewest(inputs)
        print(f"{tries} inputs; {len(needed)} of {sum(map(Input.size, needed))} bytes in hex reach {len(known)} branches and answers")
        if sum(map(Input.size, needed)) <= LONGEST_KEPT:
            write_kept(needed)
    for fault in found:
        print(fault)
    print(f"{count - len(found)} passed, {len(found)} failed")
    return len(found) != 0


if __name__ == "__main__":
    sys.exit(main())
