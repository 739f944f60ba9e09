"""Measures `check` over the size of an image, with the built program or the one that is named, and prints a line for each image: its size, the
seconds of the processor (least of five), the same of sha256sum, and the most memory. With --write it draws them as docs/check_over_size.svg. It
wants /usr/bin/time, half a gigabyte of disk and of memory, and some minutes.

plot.py [--write] [PROGRAM]"""

import math
import os
import random
import resource
import subprocess
import sys
import tempfile

TOP = os.path.dirname(os.path.dirname(os.path.abspath(__file__)))
PROGRAM = os.path.join(TOP, "crates/cordkit/out/cordkit")
PICTURE = os.path.join(TOP, "docs/check_over_size.svg")
# As bin/cordkit asks for large pages.
PAGES = {**os.environ, "GLIBC_TUNABLES": "glibc.malloc.hugetlb=1:glibc.malloc.mmap_threshold=33554432"}
MEGABYTE = 1 << 20
COUNTS = [100, 1000, 10_000, 100_000, 300_000]


def key_at_one_place(k, _):
    return f'insert {k} {k} "x"'


def key_in_the_middle(k, _):
    return f'insert {k} {MEGABYTE // 2 + k} "x"'


def bytes_anywhere(k, chance):
    return f'insert {k} {chance.randrange(MEGABYTE + 10 * k + 1)} "0123456789"'


# Each kind of session: its lines, its colour, and the mark of a point.
SESSIONS = {
    "keys at one place": (key_at_one_place, "#1f5fa8", "circle"),
    "keys in the middle of a megabyte": (key_in_the_middle, "#2a8a3c", "square"),
    "ten bytes anywhere in a megabyte": (bytes_anywhere, "#b0402a", "cross"),
}


def seconds_of(words):
    """The seconds of the processor that a run takes, the least of five."""
    found = []
    for _ in range(5):
        before = resource.getrusage(resource.RUSAGE_CHILDREN)
        subprocess.run(words, stdout=subprocess.DEVNULL, env=PAGES, check=True)
        after = resource.getrusage(resource.RUSAGE_CHILDREN)
        found.append(after.ru_utime + after.ru_stime - before.ru_utime - before.ru_stime)
    return min(found)


def memory_of(words):
    """The most memory of a run in bytes, by /usr/bin/time: python itself would count what it held when it began the run."""
    subprocess.run(["/usr/bin/time", "-f", "%M", "-o", "held", *words], stdout=subprocess.DEVNULL, env=PAGES, check=True)
    with open("held", encoding="ascii") as held:
        return int(held.read()) * 1024


def measured(program, line, count):
    """The size of the image of so many lines over a megabyte, the seconds of its check and of sha256sum, and the check's memory."""
    chance = random.Random(1)
    with open("script", "w", encoding="ascii") as script:
        script.write("open 0\n")
        script.writelines(line(k, chance) + "\n" for k in range(count))
    with open("image", "wb") as image:
        subprocess.run([program, "apply", "script", "source"], stdout=image, env=PAGES, check=True)
    check = [program, "check", "image", "source"]
    return os.path.getsize("image"), seconds_of(check), seconds_of(["sha256sum", "image"]), memory_of(check)


# -- the picture


def with_unit(number, units):
    """A power of ten in the largest unit of which there is one."""
    scale, unit = next((it for it in units if number >= it[0] * 0.999), units[-1])
    return f"{number / scale:g} {unit}"


BYTES = [(1e9, "GB"), (1e6, "MB"), (1e3, "kB"), (1, "B")]
SECONDS = [(1, "s"), (1e-3, "ms")]


class Panel:
    """A plot with both axes by powers of ten."""

    def __init__(self, left, title, xs, ys, units):
        self.left, self.top, self.width, self.height = left, 50, 330, 260
        self.title, self.units = title, units
        self.x0, self.x1 = math.floor(math.log10(min(xs))), math.ceil(math.log10(max(xs)))
        self.y0, self.y1 = math.floor(math.log10(min(ys))), math.ceil(math.log10(max(ys)))

    def place(self, x, y):
        right = (math.log10(x) - self.x0) / (self.x1 - self.x0)
        up = (math.log10(y) - self.y0) / (self.y1 - self.y0)
        return self.left + right * self.width, self.top + (1 - up) * self.height

    def axes(self):
        end, bottom = self.left + self.width, self.top + self.height
        yield f'<text x="{self.left}" y="{self.top - 14}" font-weight="bold">{self.title}</text>'
        yield f'<rect x="{self.left}" y="{self.top}" width="{self.width}" height="{self.height}" fill="none" stroke="black"/>'
        for power in range(self.x0, self.x1 + 1):
            x = self.place(10**power, 10**self.y0)[0]
            yield f'<path d="M{x:.1f} {self.top}V{bottom}" stroke="#ddd"/>'
            yield f'<text x="{x:.1f}" y="{bottom + 16}" text-anchor="middle">{with_unit(10**power, BYTES)}</text>'
        for power in range(self.y0, self.y1 + 1):
            y = self.place(10**self.x0, 10**power)[1]
            yield f'<path d="M{self.left} {y:.1f}H{end}" stroke="#ddd"/>'
            yield f'<text x="{self.left - 6}" y="{y + 4:.1f}" text-anchor="end">{with_unit(10**power, self.units)}</text>'
        yield f'<text x="{self.left + self.width / 2}" y="{bottom + 36}" text-anchor="middle">size of the image</text>'

    def line(self, points, colour, mark, dashes=""):
        places = [self.place(*point) for point in points]
        path = "L".join(f"{x:.1f} {y:.1f}" for x, y in places)
        yield f'<path d="M{path}" fill="none" stroke="{colour}" stroke-width="1.5" stroke-dasharray="{dashes}"/>'
        yield from (marked(x, y, colour, mark) for x, y in places)


def marked(x, y, colour, mark):
    if mark == "circle":
        return f'<circle cx="{x:.1f}" cy="{y:.1f}" r="3.5" fill="{colour}"/>'
    if mark == "square":
        return f'<rect x="{x - 3:.1f}" y="{y - 3:.1f}" width="6" height="6" fill="{colour}"/>'
    return f'<path d="M{x - 3:.1f} {y - 3:.1f}l6 6m0 -6l-6 6" stroke="{colour}" stroke-width="2"/>' if mark else ""


def picture(found):
    """The seconds and the memory of a check over the size of the image, side by side, with what each line is."""
    every = [point for points in found.values() for point in points]
    sizes = [point[0] for point in every]
    time = Panel(70, "processor time of a check", sizes, [it for point in every for it in point[1:3]], SECONDS)
    memory = Panel(510, "most memory of a check", sizes, [point[3] for point in every], BYTES)
    told = [*time.axes(), *memory.axes()]
    for k, (name, (_, colour, mark)) in enumerate(SESSIONS.items()):
        told += time.line([(size, seconds) for size, seconds, _, _ in found[name]], colour, mark)
        told += memory.line([(size, most) for size, _, _, most in found[name]], colour, mark)
        told += [marked(75 + 270 * k, 372, colour, mark), f'<text x="{85 + 270 * k}" y="376">{name}</text>']
    hashed = sorted((size, hashing) for size, _, hashing, _ in every)
    told += time.line(hashed, "#888", "", "4 3")
    told.append('<text x="75" y="396" fill="#666">dashed: sha256sum of the same file; both axes go by powers of ten</text>')
    head = '<svg xmlns="http://www.w3.org/2000/svg" width="870" height="410" font-family="Helvetica, Arial, sans-serif" font-size="12">'
    return "\n".join([head, "<!-- drawn by bench/plot.py -->", '<rect width="870" height="410" fill="white"/>', *told, "</svg>", ""])


def main(words):
    program = os.path.abspath(next((word for word in words if word != "--write"), PROGRAM))
    if not os.path.exists("/usr/bin/time"):
        print("LEFT OUT: a check over the size of its image: there is no /usr/bin/time here")
        return
    here = os.getcwd()
    found = {}
    with tempfile.TemporaryDirectory() as room:
        os.chdir(room)
        with open("source", "wb") as source:
            source.write(b"abcdefghi\n" * (MEGABYTE // 10 + 1))
            source.truncate(MEGABYTE)
        for name, (line, _, _) in SESSIONS.items():
            found[name] = [measured(program, line, count) for count in COUNTS]
            for size, seconds, hashing, memory in found[name]:
                print(f"{name}: {size} bytes, check {1000 * seconds:.1f} ms, sha256sum {1000 * hashing:.1f} ms, {memory / 1e6:.1f} MB")
        os.chdir(here)
    if "--write" in words:
        with open(PICTURE, "w", encoding="utf-8") as file:
            file.write(picture(found))


if __name__ == "__main__":
    main(sys.argv[1:])
