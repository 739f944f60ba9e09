#!/usr/bin/env python3
"""Times the built `cordkit serve` beside `cordkit apply`, in milliseconds and by turns: a script of COUNT keys (1,000,000) that is handed in whole, in a
folder of memory, where nothing waits for a device, both up to an image that is whole; the same lines one at a time, each answer waited for; and, in a
folder of the disk, twenty lines a second for ten seconds, each answer beside a write and a sync of as many bytes there.

serve.py [COUNT [PROGRAM]]"""

import os
import statistics
import subprocess
import sys
import tempfile
import time

TOP = os.path.dirname(os.path.dirname(os.path.abspath(__file__)))
MEMORY = "/dev/shm" if os.path.isdir("/dev/shm") else None
TURNS, ALONE, SECONDS, EACH = 5, 20_000, 10, 20


def key(k):
    return b'insert %d %d "%c"\n' % (k, k, 97 + k % 26)


def milliseconds(call):
    start = time.perf_counter()
    call()
    return (time.perf_counter() - start) * 1000


def run(words, given, out):
    with open(given, "rb") as source, open(out, "wb") as answers:
        subprocess.run(words, stdin=source, stdout=answers, check=True)


def served(program, folder):
    """A session that is served in a folder, of one empty text."""
    child = subprocess.Popen([program, "serve", f"{folder}/image"], stdin=subprocess.PIPE, stdout=subprocess.PIPE)
    ask(child, b"new\n")
    return child


def ask(child, line):
    child.stdin.write(line)
    child.stdin.flush()
    if not child.stdout.readline().endswith(b"\n"):
        sys.exit("serve ended")


def end(child):
    child.stdin.close()
    child.stdout.read()
    child.wait()


def whole(program, count):
    """`apply` of a script, and `serve` of its lines and a save."""
    with tempfile.TemporaryDirectory(dir=MEMORY) as folder:
        script, requests = f"{folder}/script", f"{folder}/requests"
        with open(script, "wb") as file:
            file.write(b"new\n" + b"".join(key(k) for k in range(count)))
        with open(requests, "wb") as file, open(script, "rb") as lines:
            file.write(lines.read() + b"save\n")
        times = {"apply": [], "serve": []}
        for _ in range(TURNS):
            if os.path.exists(f"{folder}/image"):
                os.remove(f"{folder}/image")
            times["apply"].append(milliseconds(lambda: run([program, "apply", script], os.devnull, f"{folder}/applied")))
            times["serve"].append(milliseconds(lambda: run([program, "serve", f"{folder}/image"], requests, f"{folder}/answers")))
        with open(f"{folder}/image", "rb") as one, open(f"{folder}/applied", "rb") as other:
            if one.read() != other.read():
                sys.exit("the images differ")
    least = {name: min(taken) for name, taken in times.items()}
    print(f"{count} keys: apply {least['apply']:.0f}, serve with a save {least['serve']:.0f}, {least['serve'] / least['apply']:.2f} times")


def one_by_one(program):
    with tempfile.TemporaryDirectory(dir=MEMORY) as folder:
        child = served(program, folder)
        taken = milliseconds(lambda: [ask(child, key(k)) for k in range(ALONE)])
        end(child)
    print(f"{ALONE} keys, one at a time: {taken / ALONE * 1000:.0f} us each")


def synced(path):
    """How long a write and a sync of a line take there, as often as lines come."""
    taken = []
    with open(path, "ab", buffering=0) as file:
        for k in range(SECONDS * EACH):
            time.sleep(1 / EACH)
            taken.append(milliseconds(lambda k=k: (file.write(key(k)), os.fdatasync(file.fileno()))))
    return taken


def at_rest(program):
    with tempfile.TemporaryDirectory(dir=TOP) as folder:
        beside = sorted(synced(f"{folder}/beside"))
        child = served(program, folder)
        taken = []
        for k in range(SECONDS * EACH):
            time.sleep(1 / EACH)
            taken.append(milliseconds(lambda k=k: ask(child, key(k))))
        end(child)
    taken.sort()
    for name, times in ("serve", taken), ("a write and a sync", beside):
        print(f"{EACH} lines a second, {name}: median {statistics.median(times):.2f}, 99 of 100 {times[len(times) * 99 // 100]:.2f}")


def main():
    count = int(sys.argv[1]) if len(sys.argv) > 1 else 1_000_000
    program = os.path.abspath(sys.argv[2] if len(sys.argv) > 2 else f"{TOP}/crates/cordkit/out/cordkit")
    whole(program, count)
    one_by_one(program)
    at_rest(program)


if __name__ == "__main__":
    main()
