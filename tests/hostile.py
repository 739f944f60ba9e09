#!/usr/bin/env python3
"""Has the built cordkit check images at the format's limits, and prints of each its size, how many looks at nodes the check may take, the
seconds, and the memory beside the image. Each is answered as the second checker answers a small image of the same making; memory is at most 4 MB
more than the image, and time grows with the looks.

Usage: tests/hostile.py [PROGRAM [SHIFT]]; where SHIFT is given, the numbers are smaller by 2^SHIFT. The last line is 'N passed, M failed'.
"""

import os
import re
import struct
import subprocess
import sys
import tempfile
import time

from second_checker import PROGRAM, verify
from cordkit_verify import BACK, BALANCE, BYTES, CONCATENATION, DEEPEST, FILL, FILL_IN, FUNCTION, INSERT, LEAF, LITERAL, NEW, NIL
from cordkit_verify import LONGEST_BYTES_ROW, LONGEST_POOL, MOST_NODES, MOST_REVISIONS, MOST_ROWS, SHARED, SUBSTRING

MOST_LOOKS = 10**10
ROOM = 4 << 20
# A check takes at most so long: a look is a few nanoseconds, and a byte of an image less than that.
SECONDS, SECONDS_A_LOOK, SECONDS_A_BYTE = 5, 20e-9, 20e-9
SMALL = 11


def node(kind, depth, length, x=0, payload=b"", function=0):
    return struct.pack(">BBBBLQ16s", kind, depth, function, 0, x, length, payload.ljust(16, b"\0"))


def revision(command, root, rows, mark=0, **fields):
    numbers = [fields.get(name, 0) for name in "rqpman"]
    return struct.pack(">BBHLLLQQQQLL", command, mark, 0, root, *numbers, rows, 0)


def row(tag, length, number=0, offset=0):
    return struct.pack(">B3xLQQ", tag, number, length, offset)


NEWLY = revision(NEW, NIL, 0)


def literal(place, length):
    return node(LITERAL, 0, length, payload=struct.pack(">Q", place))


def filled(length):
    return node(FUNCTION, 0, length, payload=b"a", function=FILL)


def joined(left, right, depth, length):
    return node(CONCATENATION, depth, length, left, struct.pack(">L", right))


def chain(first, length):
    """Nodes from number `first` on, each a substring of all of the one before it, down to the greatest depth."""
    return b"".join(node(SUBSTRING, depth, length, first + depth - 2) for depth in range(1, DEEPEST + 1))


class Made:
    """The sections of an image, of which the pool is given by its length, and is zeros behind its first bytes."""

    def __init__(self, nodes, revisions, rows, pool=b"", pool_size=None):
        self.nodes, self.revisions, self.rows, self.pool = nodes, revisions, rows, pool
        self.pool_size = len(pool) if pool_size is None else pool_size

    def write(self, path):
        counts = [len(self.nodes) // 32, len(self.revisions) // 56, len(self.rows) // 24]
        with open(path, "wb") as file:
            file.write(b"CORDSESS" + struct.pack(">LLLLLLQ", 2, 0, *counts, 0, self.pool_size))
            for section in (self.nodes, self.revisions, self.rows, self.pool):
                file.write(section)
            file.truncate(40 + len(self.nodes) + len(self.revisions) + len(self.rows) + self.pool_size)


# ---- The images, each with numbers smaller by a power of two


def most_nodes(shift):
    """As many nodes as there may be, all but one of which join the first one with itself."""
    count = MOST_NODES >> shift
    return Made(literal(0, 1) + joined(0, 0, 1, 2) * (count - 1), NEWLY, b"", b"a")


def most_rows(shift):
    """As many rows as there may be, each over one byte of a fill."""
    count = MOST_ROWS >> shift
    return Made(filled(count), NEWLY + revision(FILL_IN, 0, count, r=0, a=ord("a"), n=count), row(LEAF, 1) * count)


def most_rows_of_the_deepest(shift):
    """As many rows as there may be, each over one byte below substrings of the greatest depth on both sides."""
    count = (MOST_ROWS >> shift) - 1
    fill = revision(FILL_IN, DEEPEST, 1, r=0, a=ord("a"), n=count)
    again = revision(BALANCE, DEEPEST, count, r=1)
    nodes = filled(count) + chain(1, count)
    return Made(nodes, NEWLY + fill + again, row(LEAF, count) + row(LEAF, 1) * count)


def doubled(doublings):
    """A literal of one byte, joined with itself again and again; the last node has all of them."""
    return literal(0, 1) + b"".join(joined(k, k, k + 1, 2 << k) for k in range(doublings))


def two_shapes(shift):
    """Rows of bytes over trees of one-byte leaves: one that is doubled, and one that grows at both ends by halves of it. They are as many as the
    looks allow."""
    doublings = 24 - shift
    size = 1 << doublings
    nodes, root = [doubled(doublings)], doublings
    # 1 + 1 + 2 + 4 + .. from the left, so that each half stands at the left end of the other half
    left, depth, length = 0, 0, 1
    number = doublings + 1
    for k in range(doublings):
        depth = max(depth, k) + 1
        nodes.append(joined(left, k, depth, length + (1 << k)))
        left, length, number = number, length + (1 << k), number + 1
    rows_of_one = size // LONGEST_BYTES_ROW
    times = max((MOST_LOOKS >> shift) // (132 * (size + rows_of_one)), 2)
    first = revision(FILL_IN, root, rows_of_one, r=0, a=0, n=size)
    others = b"".join(revision(BACK, (left, root)[k % 2], rows_of_one, r=k + 1) for k in range(times - 1))
    return Made(b"".join(nodes), NEWLY + first + others, row(BYTES, LONGEST_BYTES_ROW) * rows_of_one * times, b"\0")


def one_root(shift):
    """As many revisions as there may be, which all name one root."""
    count = (MOST_REVISIONS >> shift) - 2
    insert = revision(INSERT, DEEPEST, 1, r=0, a=0, n=3)
    again = b"".join(revision(BACK, DEEPEST, 1, r=k + 1) for k in range(count))
    return Made(literal(0, 3) + chain(1, 3), NEWLY + insert + again, row(LEAF, 3) + row(SHARED, 3, 0, 0) * count, b"abc")


def longest_pool(shift):
    """A pool of as many bytes as there may be, of which three are looked at."""
    return Made(literal(0, 3), NEWLY + revision(INSERT, 0, 1, r=0, a=0, n=3), row(LEAF, 3), b"abc", LONGEST_POOL >> shift)


IMAGES = [most_nodes, most_rows, most_rows_of_the_deepest, two_shapes, one_root, longest_pool]


# ---- What a check takes


def peak(pid):
    """The most memory that a process had so far, in bytes, or 0 where it has ended."""
    try:
        with open(f"/proc/{pid}/status", encoding="ascii") as file:
            found = re.search(r"VmHWM:\s+(\d+) kB", file.read())
    except OSError:
        return 0
    return int(found[1]) * 1024 if found else 0


def measured(program, *words):
    """What a run writes, its seconds, and the most memory that it had, in bytes, looked at again and again."""
    with tempfile.TemporaryFile() as output:
        start, memory = time.monotonic(), 0
        with subprocess.Popen([program, *words], stdin=subprocess.DEVNULL, stdout=output) as child:
            while child.poll() is None:
                memory = max(memory, peak(child.pid))
                time.sleep(0.001)
        seconds = time.monotonic() - start
        output.seek(0)
        return output.read().decode(), seconds, memory


def least_memory(program):
    """The memory of the program while it waits for an image."""
    with subprocess.Popen([program], stdin=subprocess.PIPE, stdout=subprocess.DEVNULL) as child:
        time.sleep(0.3)
        memory = peak(child.pid)
        child.stdin.close()
    return memory


def is_small_accepted(make):
    """Whether the second checker accepts a small image of the same making."""
    with tempfile.TemporaryDirectory() as folder:
        path = os.path.join(folder, "image")
        make(SMALL).write(path)
        with open(path, "rb") as file:
            return verify.line(file.read(), []).startswith("accepted ")


def fault_of(program, make, shift, least):
    """Checks an image and tells its figures, and what is wrong, or nothing."""
    if not is_small_accepted(make):
        return "the second checker refuses a small image of the same making"
    with tempfile.TemporaryDirectory() as folder:
        path = os.path.join(folder, "image")
        image = make(shift)
        image.write(path)
        size = os.path.getsize(path)
        wanted = f"accepted {len(image.revisions) // 56} revisions {len(image.nodes) // 32} nodes {len(image.rows) // 24} rows\n"
        del image
        limit = re.fullmatch(r"refused looks (\d+)\n", measured(program, "check", "--at-most", "0", path)[0])
        line, seconds, memory = measured(program, "check", path)
    if not limit:
        return "no number of looks is told"
    looks = int(limit[1])
    beside = memory - size - least
    print(f"{make.__name__:26} {size:13,} bytes {looks:15,} looks {seconds:7.2f} s {beside / 1e6:7.2f} MB beside the image", flush=True)
    if line != wanted:
        return f"answered {line!r} for {wanted!r}"
    if beside > ROOM:
        return f"{beside} bytes of memory beside the image"
    if seconds > SECONDS + looks * SECONDS_A_LOOK + size * SECONDS_A_BYTE:
        return f"{seconds} seconds"
    return None


def main():
    program = sys.argv[1] if len(sys.argv) > 1 else PROGRAM
    shift = int(sys.argv[2]) if len(sys.argv) > 2 else 0
    least = least_memory(program)
    print(f"{least / 1e6:.2f} MB for no image")
    failed = 0
    for make in IMAGES:
        fault = fault_of(program, make, shift, least)
        if fault:
            failed += 1
            print(f"FAILED: {make.__name__}: {fault}")
    print(f"{len(IMAGES) - failed} passed, {failed} failed")
    return failed != 0


if __name__ == "__main__":
    sys.exit(main())
