"""Measures what docs/SCALE.md tells, with the built program or the one that is named: sessions made by scripts up to the limit that they meet first, and
thousands of small images checked side by side. It wants 3 GB of disk and of memory, and takes some minutes. Times are of the processor, of a
run and its parts, so that other work beside it counts little.

scale.py [PROGRAM [MOST]], where MOST is how many revisions a session has at most, and how many images there are"""

import os
import random
import re
import resource
import shutil
import subprocess
import sys
import tempfile

TOP = os.path.dirname(os.path.dirname(os.path.abspath(__file__)))
PROGRAM = os.path.join(TOP, "crates/cordkit/out/cordkit")
# As bin/cordkit asks for large pages.
PAGES = {**os.environ, "GLIBC_TUNABLES": "glibc.malloc.hugetlb=1:glibc.malloc.mmap_threshold=33554432"}
MOST_REVISIONS, MOST_CHANGES, MEGABYTE = 1 << 20, 4096, 1 << 20
IMAGES = 2000


def timed(words, output, **given):
    """The seconds of a run, its most memory in bytes, and what it tells on standard error."""
    before = resource.getrusage(resource.RUSAGE_CHILDREN)
    with open(output, "wb") as file, subprocess.Popen(words, stdout=file, stderr=subprocess.PIPE, env=PAGES, **given) as child:
        told = child.stderr.read().decode()
        _, _, used = os.wait4(child.pid, 0)
        child.returncode = 0
    after = resource.getrusage(resource.RUSAGE_CHILDREN)
    return after.ru_utime + after.ru_stime - before.ru_utime - before.ru_stime, used.ru_maxrss * 1024, told


# ---- Sessions over a source of a megabyte, each line a revision more


def back(k, _):
    return f"back {k}"


def key_at_the_end(k, _):
    return f'insert {k} {MEGABYTE + k} "x"'


def key_in_the_middle(k, _):
    return f'insert {k} {MEGABYTE // 2 + k} "x"'


def bytes_anywhere(k, chance):
    return f'insert {k} {chance.randrange(MEGABYTE + 10 * k + 1)} "0123456789"'


def many_changes(k, chance):
    places = sorted(chance.sample(range(MEGABYTE), MOST_CHANGES))
    return f"many {k} " + " ".join(f'{p} 1 "x"' for p in places)


SESSIONS = {
    "a revision again": (back, MOST_REVISIONS),
    "a key at the end": (key_at_the_end, MOST_REVISIONS),
    "a key in the middle": (key_in_the_middle, MOST_REVISIONS),
    "ten bytes anywhere": (bytes_anywhere, MOST_REVISIONS),
    "4,096 bytes replaced": (many_changes, 1000),
}


def script_of(line, count):
    chance = random.Random(1)
    with open("script", "w", encoding="ascii") as file:
        file.write("open 0\n")
        file.writelines(line(k, chance) + "\n" for k in range(count))


def first_lines(count):
    with open("script", "rb") as file, open("shorter", "wb") as shorter:
        shorter.writelines(next(file) for _ in range(count))
    os.replace("shorter", "script")


def measure_session(program, name, line, count):
    """The session up to the line that is refused first."""
    script_of(line, count)
    apply = [program, "apply", "script", "source"]
    seconds, memory, told = timed(apply, "image")
    refused = re.fullmatch(r"refused (E\d+)\(?(N\d)?,?\(?(\d+)\)\n", told)
    if refused:
        first_lines(int(refused[3]) - 1)
        seconds, memory, told = timed(apply, "image")
    checked, held, _ = timed([program, "check", "image", "source"], "line")
    with open("line", encoding="ascii") as file:
        accepted = file.read().split()
    size = os.path.getsize("image")
    shown, _, _ = timed([program, "show", "image", str(int(accepted[1]) - 1), "source"], "text")
    code = refused[1] + (f"({refused[2]})" if refused[2] else "") if refused else "none"
    print(
        f"{name}: {accepted[1]} revisions, {accepted[3]} nodes, {accepted[5]} rows, {size} bytes; then {code}; "
        f"apply {seconds:.2f} s within {memory >> 20} MB, check {checked:.2f} s within {(held - size) / 2**20:.1f} MB more, show {shown:.2f} s",
        flush=True,
    )


# ---- Many images


def measure_many(program, count):
    """Small images, each of a session of its own."""
    os.mkdir("images")
    for k in range(count):
        script = f'new\ninsert 0 0 "image {k}"\n' + "".join(f'insert {j} {j} "x"\n' for j in range(1, 20))
        with open(f"images/{k}.cord", "wb") as file:
            subprocess.run([program, "apply", "/dev/stdin"], input=script.encode(), stdout=file, check=True)
    size = os.path.getsize("images/0.cord")
    names = "\0".join(f"images/{k}.cord" for k in range(count)).encode()
    for processes in sorted({1, os.cpu_count()}):
        words = ["xargs", "-0", "-n", "1", "-P", str(processes), program, "check"]
        with open("names", "wb") as file:
            file.write(names)
        with open("names", "rb") as file:
            seconds, _, _ = timed(words, "lines", stdin=file)
        with open("lines", "rb") as file:
            accepted = file.read().count(b"accepted ")
        print(f"{accepted} images of {size} bytes by xargs -P {processes}: {seconds / count * 1e6:.0f} s a million")
    check_many = os.path.join(TOP, "examples/check_many.py")
    for processes in [1, os.cpu_count()]:
        seconds, _, told = timed([sys.executable, check_many, "--processes", str(processes), "images"], "lines")
        with open("lines", encoding="utf-8") as file:
            line = (file.read().splitlines() or [told])[-1]
        print(f"check_many.py --processes {processes}: {seconds / count * 1e6:.0f} s a million; {line}")


def main():
    program = os.path.abspath(sys.argv[1] if len(sys.argv) > 1 else PROGRAM)
    most = int(sys.argv[2]) if len(sys.argv) > 2 else MOST_REVISIONS
    with open("/proc/cpuinfo", encoding="utf-8") as file:
        name = re.search(r"^model name\s*: (.*)$", file.read(), re.M)
    print(f"{name[1] if name else 'a processor'}, {os.cpu_count()} processors")
    room = tempfile.mkdtemp()
    try:
        os.chdir(room)
        with open("source", "wb") as file:
            file.write(b"the quick brown fox jumps over the lazy dog 0123456789\n" * (MEGABYTE // 55 + 1))
            file.truncate(MEGABYTE)
        for name, (line, count) in SESSIONS.items():
            measure_session(program, name, line, min(count, most))
        measure_many(program, min(IMAGES, most))
    finally:
        shutil.rmtree(room)


if __name__ == "__main__":
    main()
