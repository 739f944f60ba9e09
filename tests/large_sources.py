"""Runs the built program, or the one that is named, over sources of any size: sparse files of 3 GB, 100 GB and 2^40 bytes, pipes, and a file that
grows shorter between two runs. What it has to answer is worked from the format. Each run has 16 MB of address space and no more.
The last line is 'N passed, M failed'; the status is not 0 where one failed.

large_sources.py [PROGRAM]"""

import os
import struct
import subprocess
import sys
import tempfile

from second_checker import PROGRAM

# 16 MB of address space, in the shell's unit.
LIMITED = 'ulimit -v 16384 && exec "$0" "$@"'
GB = 10**9
LONGEST = 2**40 - 1


def image(sizes, texts):
    """An image whose first revisions open the sources, each in one row of a leaf; behind them each of the `texts`, a source and a span, is cut out of
    its source's revision, in one row of a leaf too."""
    spans = [(s, 0, size) for s, size in enumerate(sizes)] + texts
    nodes = b"".join(struct.pack(">BBBBIQQQ", 2, 0, 0, 0, s, n, i, 0) for s, i, n in spans)
    revisions = b""
    for k, (s, i, n) in enumerate(spans):
        opened = k < len(sizes)
        fields = (2, 0, s, 0, 0) if opened else (8, s, 0, i, n)
        code, r, q, a, n = fields
        revisions += struct.pack(">BBHIIIQQQQII", code, 0, 0, k, r, q, 0, 0, a, n, 1, 0)
    rows = b"".join(struct.pack(">BBHIQQ", 2, 0, 0, 0, n, 0) for _, _, n in spans)
    counts = (1, len(sizes), len(spans), len(spans), len(spans), 0, 0)
    return b"CORDSESS" + struct.pack(">IIIIIIQ", *counts) + struct.pack(f">{len(sizes)}Q", *sizes) + nodes + revisions + rows


def accepted(sizes, texts):
    count = len(sizes) + len(texts)
    return f"accepted {count} revisions {count} nodes {count} rows\n".encode()


class Runs:
    def __init__(self, program):
        self.program = program
        self.passed = self.failed = 0

    def run(self, words, given=b""):
        """The status of a run, and what it writes."""
        run = subprocess.run(["sh", "-c", LIMITED, self.program, *words], input=given, capture_output=True)
        return run.returncode, run.stdout, run.stderr

    def expect(self, name, words, answer, given=b""):
        found = self.run(words, given)
        if found == answer:
            self.passed += 1
        else:
            self.failed += 1
            print(f"FAILED: {name}: {found} for {answer}")


def sparse(name, size, place=0, text=b""):
    with open(name, "wb") as file:
        file.truncate(size)
        file.seek(place)
        file.write(text)


def put(name, bytes):
    with open(name, "wb") as file:
        file.write(bytes)


def try_sizes(runs):
    """Each size by itself: nothing of the file is read, or the part that is shown."""
    for size in [3 * GB, 100 * GB, LONGEST]:
        sparse("source", size, size - 7, b"cordkit")
        texts = [(0, size - 7, 4)]
        put("image", image([size], texts))
        runs.expect(f"check over {size} bytes", ["check", "image", "source"], (0, accepted([size], texts), b""))
        runs.expect(f"a part of {size} bytes", ["show", "image", "1", "source"], (0, b"cord", b""))
        put("shorter", image([size - 1], []))
        runs.expect(f"a source a byte longer than {size - 1}", ["check", "shorter", "source"], (1, b"refused C3(0)\n", b""))
    sparse("source", LONGEST + 1)
    runs.expect("check over 2^40 bytes", ["check", "image", "source"], (1, b"refused S5\n", b""))
    runs.expect("show over 2^40 bytes", ["show", "image", "0", "source"], (1, b"", b"refused S5\n"))


def try_several(runs):
    """Two and three sources, and a pipe beside a file of 100 GB."""
    sizes = [100 * GB, 3 * GB, 5]
    sparse("first", sizes[0], 50 * GB, b"hello")
    sparse("second", sizes[1], 2 * GB, b"world")
    put("third", b"abcde")
    texts = [(0, 50 * GB, 5), (1, 2 * GB, 5), (2, 1, 3)]
    put("image", image(sizes, texts))
    files = ["first", "second", "third"]
    runs.expect("check over three", ["check", "image", *files], (0, accepted(sizes, texts), b""))
    for k, text in enumerate([b"hello", b"world", b"bcd"]):
        runs.expect(f"part {k} of three", ["show", "image", str(3 + k), *files], (0, text, b""))
    runs.expect("a pipe beside them", ["show", "image", "5", "first", "second", "/dev/stdin"], (0, b"bcd", b""), b"abcde")
    runs.expect("a pipe of another length", ["check", "image", "first", "second", "/dev/stdin"], (1, b"refused C3(2)\n", b""), b"abcd")
    runs.expect("one of three too few", ["check", "image", "first", "second"], (1, b"refused C2\n", b""))
    put("two", image(sizes[:2], texts[:2]))
    runs.expect("check over two", ["check", "two", "first", "second"], (0, accepted(sizes[:2], texts[:2]), b""))
    runs.expect("a source that is not there", ["check", "two", "first", "missing"], (3, b"", b"read\n"))


def try_editor(runs):
    """Files to be edited: too long ones are refused by their sizes."""
    sparse("text", 3 * GB)
    runs.expect("edit of 3 GB", ["edit", "saved", "text"], (1, b"", b"refused K1\n"))
    sparse("text", LONGEST + 1)
    runs.expect("edit of 2^40 bytes", ["edit", "saved", "text"], (1, b"", b"refused S5\n"))
    if os.path.exists("saved"):
        runs.failed += 1
        print("FAILED: a refused file left an image")


def try_shorter(runs):
    """A file that grows shorter between two runs has another length."""
    put("source", b"abcdefgh")
    put("image", image([8], [(0, 2, 3)]))
    runs.expect("before", ["show", "image", "1", "source"], (0, b"cde", b""))
    os.truncate("source", 4)
    runs.expect("behind", ["show", "image", "1", "source"], (1, b"", b"refused C3(0)\n"))


def main():
    program = os.path.abspath(sys.argv[1] if len(sys.argv) > 1 else PROGRAM)
    runs = Runs(program)
    with tempfile.TemporaryDirectory() as room:
        os.chdir(room)
        for tries in [try_sizes, try_several, try_editor, try_shorter]:
            tries(runs)
        os.chdir("/")
    print(f"{runs.passed} passed, {runs.failed} failed")
    return runs.failed != 0


if __name__ == "__main__":
    sys.exit(main())
