#!/usr/bin/env python3
"""Lists images in the tests of crates that are no worked image: each constant of a whole image has to be, byte for byte, one of tests/vectors.

So a worked image stands once, as its vector, whatever tests hold a copy of it. A constant that is no whole image (it is shorter than its header says) is passed
over. The last line is 'N images, M of them no worked image'; the status is not 0 where there is one.
"""

import glob
import os
import re
import sys

TOP = os.path.join(os.path.dirname(os.path.abspath(__file__)), "..")
CONSTANT = re.compile(r'const (\w+): &\[u8\] = b"((?:[^"\\]|\\.)*)";', re.S)
ESCAPE = re.compile(r"\\(?:x([0-9a-f]{2})|(0|n|r|t|\\|\"|')|\n\s*)", re.S)
NAMED = {"0": "\0", "n": "\n", "r": "\r", "t": "\t"}


def bytes_of(text):
    """The bytes of a byte string as it is written between its quotes."""

    def one(found):
        number, name = found.groups()
        return chr(int(number, 16)) if number else NAMED.get(name, name) if name else ""

    return ESCAPE.sub(one, text).encode("latin-1")


def is_whole(image):
    """Whether bytes are as many as their header says."""
    if len(image) < 40 or image[:8] != b"CORDSESS":
        return False
    sources, nodes, revisions, rows, splices = (int.from_bytes(image[at : at + 4], "big") for at in (12, 16, 20, 24, 28))
    return len(image) == 40 + 8 * sources + 32 * nodes + 56 * revisions + 32 * splices + 24 * rows + int.from_bytes(image[32:40], "big")


def main():
    vectors = set()
    for path in glob.glob(f"{TOP}/tests/vectors/**/*.hex", recursive=True):
        with open(path, encoding="ascii") as file:
            vectors.add(bytes.fromhex(re.sub(r"#.*", "", file.read())))
    images = others = 0
    for path in sorted(glob.glob(f"{TOP}/crates/*/src/**/*.rt", recursive=True)):
        with open(path, encoding="utf-8") as file:
            for name, text in CONSTANT.findall(file.read()):
                image = bytes_of(text)
                if is_whole(image):
                    images += 1
                    if image not in vectors:
                        others += 1
                        print(f"{os.path.relpath(path, TOP)}: {name} is no image of tests/vectors")
    print(f"{images} images, {others} of them no worked image")
    return others > 0


if __name__ == "__main__":
    sys.exit(main())
