#!/usr/bin/env python3
"""Has the built cordkit tell where the bytes of texts come from, and compares whole outputs with lists of origins, which are written from docs/FORMAT.md
and docs/SCRIPTS.md alone: of each byte of a text the revision that put it in, its place there, and what it is, each command by slices of lists, and the runs
by comparing neighbours. It is tried of each revision, and of starts and counts that chance chooses, over the images of scripts that chance writes, images that
chance makes, whose nodes and pool are shared and in any order, the worked ones, and damaged ones, which are refused as by the second checker.

Usage: tests/random_blames.py [RUNS [PROGRAM [FIRST]]]; FIRST is the number of the first run. The last line is 'N passed, M failed'.
"""

import multiprocessing
import os
import random
import sys
import tempfile

from made_images import made
from random_scripts import BRIEF, Room, printed, random_bytes, random_script, words_in, worked_images
from second_checker import PROGRAM, verify

# Longer texts are not followed here.
LONGEST = 20_000


# ---- Where bytes come from


def from_pool(a, n):
    return [("pool", 0, place) for place in range(a, a + n)]


def changes_in(revision, texts, sources):
    """What gives way in the text that a command changes, and what takes its place."""
    p, m, a, n = revision.p, revision.m, revision.a, revision.n
    size = len(texts[revision.r]) if texts else 0
    return {
        verify.INSERT: lambda: [(p, 0, from_pool(a, n))],
        verify.DELETE: lambda: [(p, n, [])],
        verify.REPLACE: lambda: [(p, m, from_pool(a, n))],
        verify.PASTE: lambda: [(p, 0, texts[revision.q][a : a + n])],
        verify.JOIN: lambda: [(size, 0, texts[revision.q])],
        verify.CUT: lambda: [(0, a, []), (a + n, size - a - n, [])],
        verify.FILL_IN: lambda: [(p, 0, [("fill", 0, a)] * n)],
        verify.MANY: lambda: [(s.p, s.m, from_pool(s.a, s.n)) for s in revision.splices],
    }.get(revision.command, list)()


def text_of(revision, texts, sources):
    """The bytes of a command's text: those of earlier texts as they are, the others by what they are."""
    if revision.command == verify.NEW:
        return []
    if revision.command == verify.OPEN:
        return [("source", revision.q, place) for place in range(len(sources[revision.q]))]
    text, pieces, end = texts[revision.r], [], 0
    for p, m, added in changes_in(revision, texts, sources):
        pieces += text[end:p] + added
        end = p + m
    return pieces + text[end:]


def origins_of(image, sources):
    """For each revision the list of the origins of its text, or nothing where a text is too long."""
    texts = []
    for k, revision in enumerate(image.revisions):
        if image.length(revision.root) > LONGEST:
            return None
        found = text_of(revision, texts, sources)
        texts.append([x if len(x) == 5 else (k, place, *x) for place, x in enumerate(found)])
    return texts


def goes_on(one, other):
    step = 0 if one[2] == "fill" else 1
    return other == (one[0], one[1] + 1, one[2], one[3], one[4] + step)


def lines_of(image, origins, start, count):
    """The lines of some bytes of a text."""
    lines, place = [], start
    wanted = origins[start : start + count]
    while wanted:
        size = 1
        while size < len(wanted) and goes_on(wanted[size - 1], wanted[size]):
            size += 1
        k, there, kind, _, where = wanted[0]
        name, values = words_in(image, image.revisions[k])
        numbers = values[:1] if name == b"many" else [value for value in values if not isinstance(value, bytes)]
        shown = printed(b"", [image.pool[where : where + size]], BRIEF) if kind == "pool" else b""
        lines.append(b"%d %d %d %d " % (place, size, k, there) + printed(name, numbers) + shown + b"\n")
        place, wanted = place + size, wanted[size:]
    return b"".join(lines)


# ---- A run, and what comes of it


def asked(room, k, start=None, count=None):
    options = ["--start", str(start)] * (start is not None) + ["--count", str(count)] * (count is not None)
    return room.run("blame", *options, room.image, str(k))


def blame_fault(room, chance, data):
    """What is wrong with what is told of an image, or nothing."""
    room.save(data)
    line = verify.line(data, room.sources)
    if not line.startswith("accepted "):
        answer = asked(room, 0)
        return None if answer == (1, b"", f"{line}\n".encode()) else f"status {answer[0]}, {answer[2]!r}, for {line!r}"
    image = verify.checked(data, room.sources)
    texts = origins_of(image, room.sources)
    if texts is None:
        return None
    count = len(texts)
    if asked(room, count) != (1, b"", b"refused no revision\n"):
        return f"revision {count}: {asked(room, count)}"
    for k in chance.sample(range(count), min(count, 12)):
        size = len(texts[k])
        start, some = chance.randrange(size + 3), chance.choice([0, 1, chance.randrange(size + 3), (1 << 64) - 1])
        for given in (None, None), (start, None), (start, some):
            wanted = lines_of(image, texts[k], given[0] or 0, size if given[1] is None else given[1])
            if asked(room, k, *given) != (0, wanted, b""):
                return f"revision {k} from {given}: {asked(room, k, *given)}, wanted {wanted!r}"
    return None


def run_script(given):
    """What is wrong with what is told of the image of a script, or nothing."""
    program, seed = given
    chance = random.Random(seed)
    sources = [random_bytes(chance, 200) for _ in range(chance.randrange(3))]
    script = random_script(chance, sources)[1]
    with tempfile.TemporaryDirectory() as folder:
        room = Room(program, folder, sources)
        status, data, _ = room.apply(script)
        fault = blame_fault(room, chance, data) if status == 0 else None
    return f"script {seed}: {fault}" if fault else None


def run_image(given):
    """What is wrong with what is told of an image that chance made, and of one that it damaged, or nothing."""
    program, seed = given
    chance = random.Random(seed)
    image = made(chance)
    data = b"".join(b"".join(section) for section in image.sections())
    with tempfile.TemporaryDirectory() as folder:
        room = Room(program, folder, image.sources)
        fault = blame_fault(room, chance, data)
        place = chance.randrange(len(data))
        damaged = data[:place] + bytes([chance.randrange(256)]) + data[place + 1 :]
        fault = fault or blame_fault(room, chance, damaged)
    return f"image {seed}: {fault}" if fault else None


def main():
    runs = int(sys.argv[1]) if len(sys.argv) > 1 else 1000
    program = os.path.abspath(sys.argv[2] if len(sys.argv) > 2 else PROGRAM)
    first = int(sys.argv[3]) if len(sys.argv) > 3 else 0
    seeds = [(program, seed) for seed in range(first, first + runs)]
    with multiprocessing.Pool() as pool:
        found = [*pool.imap_unordered(run_script, seeds), *pool.imap_unordered(run_image, seeds)]
    for name, data, sources in worked_images():
        with tempfile.TemporaryDirectory() as folder:
            fault = blame_fault(Room(program, folder, sources), random.Random(first), data)
        found.append(f"{name}: {fault}" if fault else None)
    faults = [fault for fault in found if fault]
    for fault in faults:
        print(fault)
    print(f"{len(found) - len(faults)} passed, {len(faults)} failed")
    return len(faults) != 0


if __name__ == "__main__":
    sys.exit(main())
