#!/usr/bin/env python3
"""The bytes of open files: no contract says at which place a file is read, since std's contract of such a read bounds its count alone. So the built
program, or the one that is named, is run over files whose bytes differ from place to place, the numbers 1 to 500,000, and the same behind 2^32 bytes
of zeros; `cut`, `find`, `cmp`, `show`, `commit` and `edit` have to give what python's own texts do, before 4,096, 65,536 and 2^32 and behind, where they
take a file so long, as `commit` and `edit` do not. tests/wrong_reads.sh shows that wrong reads are told. With --quick `cmp` compares no file behind 2^32 bytes.
The last line is 'N passed, M failed'; the status is not 0 where one failed.

open_files.py [--quick] [PROGRAM]"""

import os
import random
import subprocess
import sys
import tempfile

sys.dont_write_bytecode = True
from random_keys import Plain
from second_checker import PROGRAM

NUMBERS = "".join(f"{n}\n" for n in range(1, 500_001)).encode()
# The same in lines of some 1,300 bytes, so that few keys lead far.
LINES = b"\n".join(b" ".join(NUMBERS.split()[k : k + 200]) for k in range(0, 500_000, 200)) + b"\n"
FAR = 2**32
BORDERS = (0, 4096, 65_536, 1_000_000, 3_000_000)


class Runs:
    def __init__(self, program):
        self.program = program
        self.passed = self.failed = 0

    def run(self, *words, given=b""):
        """What a run writes, where it ends without a fault."""
        ran = subprocess.run([self.program, *map(str, words)], input=given, capture_output=True)
        return ran.stdout if ran.returncode in (0, 1) and not ran.stderr else (ran.returncode, ran.stderr)

    def expect(self, name, found, wanted):
        if found == wanted:
            self.passed += 1
        else:
            self.failed += 1
            print(f"FAILED: {name}: {found[:60]!r} for {wanted[:60]!r}")


def put(name, *parts):
    """A file of these bytes; a number stands for so many zeros."""
    with open(name, "wb") as file:
        for part in parts:
            if isinstance(part, int):
                file.truncate(file.tell() + part)
                file.seek(part, os.SEEK_CUR)
            else:
                file.write(part)


def places():
    """Spans before the borders, over them and behind."""
    for border in BORDERS:
        for start in border - 3, border, border + 5:
            for count in 7, 5000, 100_000:
                if start >= 0:
                    yield start, count
    yield len(NUMBERS) - 9, 100


def try_cut(runs):
    for start, count in places():
        runs.expect(f"cut {start} {count}", runs.run("cut", start, count, "numbers"), NUMBERS[start : start + count])
        runs.expect(f"cut {start} {count} far behind", runs.run("cut", FAR + start, count, "far"), NUMBERS[start : start + count])
    runs.expect("a cut over 2^32", runs.run("cut", FAR - 3, 7, "far"), b"\0\0\0" + NUMBERS[:4])


def try_find(runs):
    for number in 3, 4444, 70_001, 333_333, 499_999:
        pattern = f"\n{number}\n"
        place = NUMBERS.find(pattern.encode())
        runs.expect(f"find {number}", runs.run("find", 0, pattern, "numbers"), f"{place}\n".encode())
        runs.expect(f"find {number} behind it", runs.run("find", place + 1, pattern, "numbers"), b"")
        runs.expect(f"find {number} far behind", runs.run("find", FAR, pattern, "far"), f"{FAR + place}\n".encode())
    wanted, place = b"", NUMBERS.find(b"99999")
    while place >= 0:
        wanted, place = wanted + f"{place}\n".encode(), NUMBERS.find(b"99999", place + 5)
    runs.expect("find --all", runs.run("find", "--all", 0, "99999", "numbers"), wanted)


def try_cmp(runs, is_quick):
    put("same", NUMBERS)
    runs.expect("cmp of the same", runs.run("cmp", "numbers", "same"), b"equal\n")
    for place in 5, 4097, 65_537, 3_000_000, len(NUMBERS) - 1:
        put("changed", NUMBERS[:place], bytes([NUMBERS[place] + 1]), NUMBERS[place + 1 :])
        runs.expect(f"cmp with a byte at {place}", runs.run("cmp", "numbers", "changed"), b"less\n")
        runs.expect(f"cmp with a byte at {place}, the other way", runs.run("cmp", "changed", "numbers"), b"greater\n")
    if not is_quick:
        put("changed", FAR + 70_000, b"\1")
        put("zeros", FAR + 70_001)
        runs.expect("cmp behind 2^32", runs.run("cmp", "changed", "zeros"), b"greater\n")


def try_show(runs):
    """A text of parts of the file, and the whole file."""
    for name, before in ("numbers", 0), ("far", FAR):
        spans = [(start, count) for start, count in places() if start + count <= len(NUMBERS)]
        lines = [f"cut 0 {before + start} {count}" for start, count in spans]
        joins = [f"join {1 if k == 0 else len(spans) + k} {k + 2}" for k in range(len(spans) - 1)]
        put("script", "\n".join(["open 0", *lines, *joins, ""]).encode())
        put("image", runs.run("apply", "script", name))
        wanted = b"".join(NUMBERS[start : start + count] for start, count in spans)
        runs.expect(f"show of parts of {name}", runs.run("show", "image", len(lines) + len(joins), name), wanted)
    put("script", b"open 0\n")
    put("image", runs.run("apply", "script", "numbers"))
    runs.expect("show of the whole file", runs.run("show", "image", 0, "numbers"), NUMBERS)


def try_commit(runs):
    """The file, and the file with changes at the borders: each is the image's last text."""
    chance, text = random.Random(1), NUMBERS
    for turn in range(3):
        put("file", text)
        last = runs.run("commit", "committed", "file").split()[-1].decode()
        runs.expect(f"commit {turn}", runs.run("show", "committed", last), text)
        for border in BORDERS:
            place = border + chance.randrange(900)
            text = text[:place] + b"new\n" + text[place + chance.randrange(9) :]


def try_edit(runs):
    """Keys far behind: the last frame shows the lines there, and the text that is saved is the file's with what was typed."""
    plain, keys = Plain(LINES), b"\x0e" * 90 + b"\x05" + b"typed\n" + b"\x0e" * 30 + b"\x01\x04\x04"
    for key in keys:
        plain.key(key)
    frames = runs.run("edit", "saved", "lines", given=keys + b"\x18")
    runs.expect("the frame behind 65,536", frames[frames.rfind(b"\x1b[2J") :] if isinstance(frames, bytes) else frames, plain.frame())
    runs.expect("the text that is saved", runs.run("show", "saved", len(plain.texts) - 1, "lines"), plain.texts[-1])


def main():
    words = [word for word in sys.argv[1:] if word != "--quick"]
    runs = Runs(os.path.abspath(words[0]) if words else PROGRAM)
    with tempfile.TemporaryDirectory() as room:
        os.chdir(room)
        put("numbers", NUMBERS)
        put("lines", LINES)
        put("far", FAR, NUMBERS)
        for one in try_cut, try_find, try_show, try_commit, try_edit:
            one(runs)
        try_cmp(runs, "--quick" in sys.argv)
        os.chdir("/")
    print(f"{runs.passed} passed, {runs.failed} failed")
    return runs.failed != 0


if __name__ == "__main__":
    sys.exit(main())
