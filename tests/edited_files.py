#!/usr/bin/env python3
"""Has the built cordkit commit files before and behind edits of many kinds, row by row: blocks of 1,000 to 50,000 lines taken out, put in or moved, lines
like code, whose text comes again and again, files of 300,000 lines, lines of a megabyte, bytes that are no lines. In each row the commit's last
text is the file, the bytes that its commands put in are at most 1.3 times those of `git diff --minimal`, and the first state comes back by 80 bytes more.

With `times` each row also tells, by the least of three runs in milliseconds, what the commit takes, what `git diff` takes of the two files, and what a
check and an `apply --onto` of an empty script take of the image before; a commit that takes more than half as much again as these three is an error.

Usage: tests/edited_files.py [few|all|times [PROGRAM]]; `few`, which is the default, leaves out the rows of more than 20,000 lines, but for two. The last line
is 'N passed, M failed'.
"""

import os
import random
import shutil
import struct
import subprocess
import sys
import tempfile
import time

from commits import ANSWER, COMES_BACK, Commits, git_puts
from second_checker import PROGRAM, verify

# The bytes put in, as often as git's, and the milliseconds beside those of git.
MOST_TIMES_GIT = 1.3
SLOWEST = 1.5


# ---- Lines


def unlike(chance, count):
    """Lines no two of which are the same."""
    return [b"%08x %08x some words of a line\n" % (chance.getrandbits(32), k) for k in range(count)]


def like_code(chance, count):
    """Lines of which there are some sixty."""
    often = [b"    }\n", b"\n", b"}\n", b"    } else {\n"] * 4
    words = [line % k for k in range(20) for line in (b"    return x%d;\n", b"    if (a[%d] > b) {\n")] + often
    return [chance.choice(words) for _ in range(count)]


def functions(chance, count):
    """Heads no two of which are the same, with bodies of a few lines that come again and again."""
    lines = []
    while len(lines) < count:
        lines.append(b"def f%x(a, b):\n" % chance.getrandbits(32))
        lines += [chance.choice([b"    x = a + b\n", b"    if a:\n", b"        b += 1\n", b"    x += %d\n" % chance.randrange(10)]) for _ in range(chance.randrange(3, 12))]
        lines += [b"    return x\n", b"\n"]
    return lines[:count]


def of_three(chance, count):
    return [chance.choice([b"a\n", b"b\n", b"c\n"]) for _ in range(count)]


# ---- Edits


def two_changed(chance, lines):
    lines = list(lines)
    for k in len(lines) // 5, 4 * len(lines) // 5:
        lines[k] = b"changed %d\n" % chance.getrandbits(20)
    return lines


def taken_out(chance, kind, count, block):
    before = kind(chance, count)
    lines = two_changed(chance, before)
    return before, lines[: count // 3] + lines[count // 3 + block :]


def put_in(chance, kind, count, block):
    before = kind(chance, count)
    lines = two_changed(chance, before)
    return before, lines[: count // 3] + kind(chance, block) + lines[count // 3 :]


def moved(chance, kind, count, block):
    before = kind(chance, count)
    lines, first, place = two_changed(chance, before), count // 10, count // 2
    return before, lines[:first] + lines[first + block : place] + lines[first : first + block] + lines[place:]


def scattered(chance, kind, count, changes):
    before = kind(chance, count)
    lines = list(before)
    for _ in range(changes):
        k = chance.randrange(len(lines))
        lines[k : k + chance.randrange(2)] = kind(chance, chance.randrange(2))
    return before, lines


def ends_changed(chance, count):
    before = unlike(chance, count)
    return before, [b"first\n", *before[1:-1], b"last\n"]


def shuffled(chance, count):
    before = unlike(chance, count)
    return before, chance.sample(before, count)


def every_third(chance, count):
    before = unlike(chance, count)
    return before, [b"new %d\n" % k if k % 3 == 0 else line for k, line in enumerate(before)]


def records(chance, count):
    """Records of five lines, of which some go and some come."""

    def record(number):
        return [b"  {\n", b'    "id": %d,\n' % number, b'    "ok": %s,\n' % chance.choice([b"true", b"false"]), b'    "n": %d\n' % chance.randrange(30), b"  },\n"]

    before = [line for k in range(count) for line in record(k)]
    lines = list(before)
    for _ in range(count // 60):
        k = 5 * chance.randrange(len(lines) // 5)
        lines[k : k + 5 * chance.randrange(2)] = record(chance.getrandbits(30)) if chance.random() < 0.5 else []
    return before, lines


# ---- Bytes


def bytes_changed(chance, before, places, most):
    after = bytearray(before)
    for _ in range(places):
        k = chance.randrange(len(after))
        after[k : k + chance.randrange(most)] = chance.randbytes(chance.randrange(most)).replace(b"\n", b" ")
    return [before], [bytes(after)]


def long_line(chance, size):
    return bytes(chance.choice(b"abcdefgh ijkl") for _ in range(size))


def line_ends_changed(chance, size):
    line = long_line(chance, size)
    return [line], [b"X" + line[1:-1] + b"Y"]


def bytes_moved(chance, size):
    data = chance.randbytes(size)
    return [data], [data[: size // 8] + data[size // 3 : 3 * size // 4] + data[size // 8 : size // 3] + data[3 * size // 4 :]]


def mostly_zeros(chance, size):
    return b"".join(chance.randbytes(50).replace(b"\n", b" ") + bytes(1000) for _ in range(size // 1050))


KINDS = {"unlike lines": unlike, "lines like code": like_code, "functions": functions, "lines of three kinds": of_three}
EDITS = {"taken out": taken_out, "put in": put_in, "moved": moved, "scattered": scattered}


def rows(which):
    """Each row's name, and what makes its two states, each a list of pieces."""
    sizes = [(10_000, 1_000), (10_000, 1_100)] + ([(100_000, 10_000), (300_000, 50_000)] if which != "few" else [])
    for kind, lines in KINDS.items():
        for count, block in sizes:
            # Where a file has a few lines only, git itself takes minutes for more.
            for edit, states in EDITS.items() if count <= 10_000 or lines is not of_three else []:
                some = block // 10 if states is scattered else block
                yield f"{count:,} {kind}, {some:,} {edit}", lambda chance, states=states, lines=lines, count=count, some=some: states(chance, lines, count, some)
    for count in (131_071, 131_072, 200_000, 300_000)[: 2 if which == "few" else 4]:
        yield f"{count:,} unlike lines, the first and the last changed", lambda chance, count=count: ends_changed(chance, count)
    yield "a line of 1 MB, a byte changed at each end", lambda chance: line_ends_changed(chance, 1_000_000)
    yield "a line of 1 MB, changed at thirty places", lambda chance: bytes_changed(chance, long_line(chance, 1_000_000), 30, 4)
    yield "2 MB of any bytes, changed at forty places", lambda chance: bytes_changed(chance, chance.randbytes(2_000_000), 40, 300)
    yield "2 MB of any bytes, two parts in another order", lambda chance: bytes_moved(chance, 2_000_000)
    yield "1 MB of mostly zeros, changed at forty places", lambda chance: bytes_changed(chance, mostly_zeros(chance, 1_000_000), 40, 300)
    yield "3,000 unlike lines, the last first", lambda chance: (lambda lines: (lines, lines[::-1]))(unlike(chance, 3_000))
    yield "20,000 unlike lines in another order", lambda chance: shuffled(chance, 3_000 if which == "few" else 20_000)
    yield "2,000 unlike lines, all anew", lambda chance: (unlike(chance, 2_000), unlike(chance, 2_000))
    yield "20,000 records of five lines, some gone and some new", lambda chance: records(chance, 2_000 if which == "few" else 20_000)
    yield "100,000 unlike lines, every third changed", lambda chance: every_third(chance, 10_000 if which == "few" else 100_000)


# ---- What a commit does


def put_by(image):
    """How many bytes the splices of an image put in. No other command of a commit puts any in."""
    header = verify.header_of(image)
    sizes = header.sections()
    start = sum(sizes[:4])
    return sum(n for _, _, _, n in struct.iter_unpack(">QQQQ", image[start : start + sizes[4]]))


def took(*words):
    """The least milliseconds of three runs."""
    least = None
    for _ in range(3):
        begun = time.perf_counter()
        subprocess.run(words, stdout=subprocess.DEVNULL, stderr=subprocess.DEVNULL, check=False)
        ended = 1000 * (time.perf_counter() - begun)
        least = ended if least is None else min(least, ended)
    return least


def times_of(room, first, second, older):
    """What a commit of the second state takes behind the first, and what git's diff, the check, and an empty script behind the image take together."""
    commits = []
    file = room.put("file", second)
    for _ in range(3):
        room.save(older)
        begun = time.perf_counter()
        room.run("commit", room.image, file)
        commits.append(1000 * (time.perf_counter() - begun))
    room.save(older)
    git = took("git", "diff", "--no-index", "--text", room.put("first", first), room.put("second", second))
    check = took(room.program, "check", room.image)
    onto = took(room.program, "apply", "--onto", room.image, room.put("empty", b""))
    return min(commits), git, check, onto


def row_fault(room, first, second, timed):
    """What is said of a row, and what is wrong with it, or nothing."""
    room.commit(first)
    older = room.image_bytes()
    status, answer, said = room.commit(second)
    if status or not ANSWER.fullmatch(answer):
        return "", f"{status} {answer} {said}"
    newer = room.image_bytes()
    number = ANSWER.fullmatch(answer)[2].decode()
    if room.run("show", room.image, number)[1] != second:
        return "", "another text"
    ours, gits = put_by(newer) - put_by(older), git_puts(room.folder, first, second)
    text = f"{ours:,} bytes put in, {gits:,} by git; {verify.header_of(newer).revisions - verify.header_of(older).revisions} revisions, {len(newer) - len(older):,} more of the image"
    fault = f"{ours} bytes put in, {gits} by git" if ours > MOST_TIMES_GIT * gits else None
    room.commit(first)
    back = len(room.image_bytes()) - len(newer)
    if back > COMES_BACK:
        fault = fault or f"{back} bytes more of the image where the first state comes back"
    if timed:
        commit, git, check, onto = times_of(room, first, second, older)
        text += f"; commit {commit:.0f} ms, git diff {git:.0f}, check {check:.0f}, apply --onto {onto:.0f}"
        if commit > SLOWEST * git + check + onto:
            fault = fault or f"commit {commit:.0f} ms, git diff {git:.0f}, check {check:.0f}, apply --onto {onto:.0f}"
    return text, fault


def main():
    which = sys.argv[1] if len(sys.argv) > 1 else "few"
    program = os.path.abspath(sys.argv[2] if len(sys.argv) > 2 else PROGRAM)
    if not shutil.which("git"):
        print("LEFT OUT: files that were edited, beside git: there is no git here")
        print("0 passed, 0 failed")
        return 0
    passed, failed = 0, 0
    for name, made in rows(which):
        with tempfile.TemporaryDirectory() as folder:
            first, second = (b"".join(pieces) for pieces in made(random.Random(name)))
            text, fault = row_fault(Commits(program, folder, []), first, second, which == "times")
        passed, failed = passed + (not fault), failed + bool(fault)
        if fault or which != "few":
            print(f"{'FAILED: ' if fault else ''}{name}: {fault or text}", flush=True)
    print(f"{passed} passed, {failed} failed")
    return failed != 0


if __name__ == "__main__":
    sys.exit(main())
