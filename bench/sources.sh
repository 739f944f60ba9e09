#!/bin/sh
# Times what reads files where they lie, in one run: the check of 100,000 revisions cut out of a source of 1 MB, and of a sparse one of 100 GB;
# the first frame of a text of 2,000,000,000 bytes, and one more with a thousand keys that go a line down; and `show` of a revision that is one
# source of 256 MB, beside `cat` of it. With each, with how many MB of address space the run ends well. It wants 2.5 GB of disk.
set -eu
cd "$(dirname "$0")/.."
program=$PWD/crates/cordkit/out/cordkit
[ -x "$program" ] || (cd crates/cordkit && rt run < stdin > /dev/null 2>&1)
room=$(mktemp -d)
trap 'rm -rf "$room"' EXIT
PYTHONPATH=tests exec python3 - "$program" "$room" << 'RUNS'
import os
import random
import subprocess
import sys
import time

from large_sources import image, sparse

program, room = sys.argv[1:]
os.chdir(room)


def run(words, given, megabytes):
    """How a run ends that has so much address space, and how many milliseconds it takes."""
    limited = ["sh", "-c", f'ulimit -v {megabytes * 1024} && exec "$0" "$@" > out 2> err', *words]
    start = time.perf_counter()
    status = subprocess.run(limited, input=given).returncode
    return status, (time.perf_counter() - start) * 1000


def best(words, given=b""):
    """The least of five runs, and the least memory of some sizes with which one ends well."""
    enough = next(size for size in [4, 6, 8, 12, 16, 24, 32, 64, 4096] if run(words, given, size)[0] == 0)
    return f"{min(run(words, given, 4096)[1] for _ in range(5)):.0f} ms, within {enough} MB"


def check(size):
    chance = random.Random(1)
    spans = ((chance.randrange(size - 100), chance.randrange(1, 100)) for _ in range(100000))
    sparse("source", size)
    with open("image", "wb") as file:
        file.write(image([size], [(0, i, n) for i, n in spans]))
    print(f"check over {size} bytes  {best([program, 'check', 'image', 'source'])}, of which the image has {os.path.getsize('image')} bytes")


check(10**6)
check(100 * 10**9)
line = b"the quick brown fox jumps over the lazy dog 0123456789\n"
with open("text", "wb") as file:
    for _ in range(2000):
        file.write(line * (10**6 // len(line)))
for name, keys in [("first frame", b"\x03"), ("a thousand lines down", b"\x0e" * 1000 + b"\x03")]:
    print(f"{name} of {os.path.getsize('text')} bytes  {best([program, 'edit', 'saved', 'text'], keys)}")
os.truncate("text", 256 * 2**20)
with open("image", "wb") as file:
    file.write(image([256 * 2**20], []))
print(f"show of a source of 256 MB  {best([program, 'show', 'image', '0', 'text'])}")
print(f"cat of it  {best(['cat', 'text'])}")
RUNS
