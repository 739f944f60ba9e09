#!/usr/bin/env python3
"""Runs the second checker, bin/cordkit-verify, on the worked images, whose answers are known, and on words of every kind.

Usage: tests/worked_images.py; the last line is 'N passed, M failed'.
"""

import os
import subprocess
import sys
import tempfile

from second_checker import TOP

CHECKER = os.path.join(TOP, "bin/cordkit-verify")
SOURCES = {"abc": b"abc", "ab": b"ab", "ramp": bytes(place % 256 for place in range(300))}
GRAPH = b"""digraph image {
  node [shape=box, fontname=monospace];
  n0 [label="0: literal 'abc'"];
  r0 [label="revision 0: empty", shape=ellipse];
  r1 [label="revision 1", shape=ellipse];
  r1 -> n0;
}
"""

# Words, the status, and what is written to standard output and to standard error.
RUNS = [
    ("--text 1 one_insert", 0, b"abc", b""),
    ("one_insert --text 0", 0, b"", b""),
    ("--text 2 many_replacements", 0, b"aXdYZe", b""),
    ("--text 0 bytes_row_over_a_source abc", 0, b"abc", b""),
    ("--text 2 one_insert", 1, b"", b"refused no revision\n"),
    ("--text 1 doubled_to_the_limit", 1, b"", b"refused no revision\n"),
    ("--text 1 fill_of_the_limit", 3, b"", b"memory\n"),
    ("--text 0 child_not_earlier", 1, b"", b"refused C4(1)\n"),
    ("--graph one_insert", 0, GRAPH, b""),
    ("--graph child_not_earlier", 1, b"", b"refused C4(1)\n"),
    ("--at-most 137 one_insert", 0, b"accepted 2 revisions 1 nodes 1 rows\n", b""),
    ("one_insert --at-most=136", 1, b"refused looks 137\n", b""),
    ("--at-most 136 --text 1 one_insert", 1, b"", b"refused looks 137\n"),
    ("--at-most 541072 bytes_row_of_the_limit", 1, b"refused looks 541073\n", b""),
    ("--at-most 540809 bytes_row_too_long", 1, b"refused C11(1,0)\n", b""),
    ("--at-most 0 one_source", 1, b"refused C2\n", b""),
    ("--at-most 0 one_source ab", 1, b"refused C3(0)\n", b""),
    ("-- one_insert", 0, b"accepted 2 revisions 1 nodes 1 rows\n", b""),
    ("one_source" + " abc" * 256, 1, b"refused S4\n", b""),
    ("one_insert long", 1, b"refused S5\n", b""),
    ("long", 1, b"refused C1(I3)\n", b""),
    ("missing", 3, b"", b"read\n"),
    ("one_insert missing", 3, b"", b"read\n"),
    (".", 3, b"", b"read\n"),
    ("", 2, b"", None),
    ("--text one one_insert", 2, b"", None),
    ("--text 18446744073709551616 one_insert", 2, b"", None),
    ("--graph --text 1 one_insert", 2, b"", None),
    ("--frobnicate one_insert", 2, b"", None),
    ("--help", 0, None, b""),
]


def table():
    """Each worked image as its table has it: its name, its bytes, its source's name or nothing, the status, and the line."""
    for folder in ("tests/vectors", "tests/vectors/version2"):
        with open(os.path.join(TOP, folder, "answers"), encoding="ascii") as file:
            for answer in file.read().splitlines():
                image, source, status, line = answer.split(";")
                with open(os.path.join(TOP, folder, f"{image}.hex"), encoding="ascii") as spelled:
                    yield image, bytes.fromhex(spelled.read()), source, int(status), line


def worked():
    """The bytes, the sources and the line of each."""
    return [(data, [SOURCES[source]] if source else [], line) for _, data, source, _, line in table()]


def answers():
    """Each worked image with its words, its status, and the line."""
    for image, data, source, status, line in table():
        with open(image, "wb") as written:
            written.write(data)
        yield f"{image} {source}".strip(), status, f"{line}\n".encode(), b""


def is_same(words, status, output, errors):
    """Whether a run has this status and writes this, where it is told."""
    done = subprocess.run([sys.executable, "-B", CHECKER, *words.split()], capture_output=True, check=False)
    same = done.returncode == status and output in (None, done.stdout) and errors in (None, done.stderr)
    if not same:
        print(f"FAILED: {words}: status {done.returncode}, {done.stdout!r}, {done.stderr!r}")
    return same


def main():
    with tempfile.TemporaryDirectory() as folder:
        os.chdir(folder)
        for name, text in SOURCES.items():
            with open(name, "wb") as file:
                file.write(text)
        with open("long", "wb") as file:
            file.truncate(1 << 40)
        results = [is_same(*run) for run in [*answers(), *RUNS]]
        os.chdir(TOP)
    print(f"{results.count(True)} passed, {results.count(False)} failed")
    return not all(results)


if __name__ == "__main__":
    sys.exit(main())
