#!/usr/bin/env python3
"""How many blocks of files the built program, or the one that is named, keeps: 256 of 4,096 bytes, those that were used last. An image of two revisions
has both compare all bytes of a source, in rows of bytes, block by block. Over 256 blocks the second revision finds each block kept, so each is read once.
Over 257 the last block of the first revision takes the place of the first one, which the second revision reads in the place of the next, and so on: each
is read twice. The reads are told by a C library that stands before them (tests/reads.c); where there is no gcc nothing is tried, which is told.
The last line is 'N passed, M failed'; the status is not 0 where one failed.

kept_blocks.py [PROGRAM]"""

import os
import shutil
import struct
import subprocess
import sys
import tempfile

sys.dont_write_bytecode = True
from second_checker import PROGRAM, TOP

KEPT, BLOCK = 256, 4096
OPEN, FUNCTION, FILL, BYTES = 2, 3, 1, 3


def image(blocks):
    """The image of a source of so many blocks of one byte, opened twice, each time as a fill, which rows of bytes compare with the source."""
    size = blocks * BLOCK
    node = struct.pack(">BBBBIQ16s", FUNCTION, 0, FILL, 0, 0, size, b"a")
    revision = struct.pack(">BBHIIIQQQQII", OPEN, 0, 0, 0, 0, 0, 0, 0, 0, 0, blocks, 0)
    row = struct.pack(">BBHIQQ", BYTES, 0, 0, 0, BLOCK, 0)
    header = b"CORDSESS" + struct.pack(">IIIIIIQQ", 1, 1, 1, 2, 2 * blocks, 0, 0, size)
    return header + node + 2 * revision + 2 * blocks * row


def reads_of(program, library, folder, blocks):
    """What a check of that image tells, and its reads of the source, each by its place and how many bytes it asks for."""
    for name, content in ("image", image(blocks)), ("source", b"a" * (blocks * BLOCK)), ("reads", b""):
        with open(f"{folder}/{name}", "wb") as file:
            file.write(content)
    env = {"LD_PRELOAD": library, "READS_OF": f"{folder}/source", "READS_TO": f"{folder}/reads"}
    ran = subprocess.run([program, "check", "image", "source"], cwd=folder, env=env, capture_output=True)
    with open(f"{folder}/reads") as file:
        reads = [tuple(map(int, line.split())) for line in file]
    return (ran.returncode, ran.stdout, ran.stderr), reads


def main():
    program = os.path.abspath(sys.argv[1]) if len(sys.argv) > 1 else PROGRAM
    if not shutil.which("gcc"):
        print("LEFT OUT: blocks of files that are kept: there is no gcc here")
        print("0 passed, 0 failed")
        return 0
    passed = failed = 0
    with tempfile.TemporaryDirectory() as folder:
        library = f"{folder}/reads.so"
        subprocess.run(["gcc", "-O2", "-shared", "-fPIC", "-o", library, f"{TOP}/tests/reads.c"], check=True)
        for blocks, times in (1, 1), (KEPT, 1), (KEPT + 1, 2):
            told, reads = reads_of(program, library, folder, blocks)
            wanted = (0, f"accepted 2 revisions 1 nodes {2 * blocks} rows\n".encode(), b"")
            in_order = [(place * BLOCK, BLOCK) for place in range(blocks)]
            if (told, reads) == (wanted, in_order * times):
                passed += 1
            else:
                failed += 1
                print(f"FAILED: {blocks} blocks: {told}, and {len(reads)} reads of {len(set(reads))} places for {times * blocks}")
    print(f"{passed} passed, {failed} failed")
    return 1 if failed else 0


sys.exit(main())
