#!/usr/bin/env python3
"""Refuses each allocation in turn, by a C library that stands before the allocator (tests/refuse.c):

- in each run of refusal_tests, which makes the call that was refused once more and looks at what it left; in the runs whose names begin with
  `twice_` each two of them. Each run has to give back what it took, but for as many blocks as the frame of the tests holds where it runs no test.
  No contract says that: a leaf_buffer that derives `Drop` for `Room`, `Deed` and `RawBlock` is proved, and loses each block of the pool;
- in runs of the built cordkit, each a row of the table of tests/program.sh, or `--version`. A run gives what the row says, or ends with `memory` and
  the status 3 behind a front of that; with `--explain` the explanation may be missing, or a plainer one of the same code; the editor may also refuse
  a key, which a frame tells, and then saves an image of the other keys. A run of the editor is made once more with each allocation, and then gives
  what the row says;
- in a commit of a file, behind an image and anew: where it ended with `memory` the image is as it was, or none, and the same command with each allocation
  commits the file; the line that tells what else the image had may be missing;
- in a session whose keys are kept, from nothing, and over an image whose place it takes: where it ended with `memory` there is no image, or that one as
  it was, and the same command with each allocation plays what was kept and saves it;
- in a session that is served, from nothing, and behind an image: a line may be refused by `memory`, and the session goes on; where it ended with `memory`
  the same command with each allocation goes on behind each line that was answered, and saves them.

Usage: tests/refused.py [PROGRAM [TESTS]], the built program and the built tests, which `rt test` builds where they are not there. Where there is no
gcc nothing is tried, which is told. The last line says how many allocations were refused; the status is not 0 where a run failed.
"""

import os
import re
import shutil
import subprocess
import sys
import tempfile

sys.dont_write_bytecode = True
from second_checker import PROGRAM, TOP

TESTS = f"{TOP}/crates/refusal_tests/out/refusal_tests_tests"

# Rows of the table of tests/program.sh.
ROWS = """
* no words check standard input
* an insertion is accepted
a child that is not earlier is refused
a source is accepted
a row of bytes over a source is accepted
a look more than the limit
a revision is shown
a text of a source is shown
a revision that is not there
an image is written in version 2
an image over a source is written in version 2
a script makes the image of its session
a refused command is told with its line
a part past the end ends with the file
a part of standard input
files are joined in their order
a script goes on from an image
a row of bytes over a source
an image is logged
an image over a source is logged
where bytes come from
a byte of them
a source shows no bytes
a revision that is not there to blame
each second byte is of another command
a pattern is found
a pattern that does not occur
each place of a pattern
no place of a pattern
a prefix is less
equal files
keys are shown and saved
a file is shown where no key comes
keys go on from an image
an image with a file that is shorter
a row of bytes over a file
* a source of another length in words
a place past the end in words
a file that is not there in words
"""

MEMORY = b"memory\n"


def frame(line, status, column):
    return f"\x1b[2J\x1b[H{line}\r\n".encode() + b"\r\n" * 22 + f"{status}\x1b[1;{column}H".encode()


# The frames of keys_saved over the text abc of revision 1.
FRAMES_ONTO = (
    frame("abc", "rev 1 byte 0 of 3", 1)
    + frame("aabc", "rev 2 byte 1 of 4", 2)
    + frame("ababc", "rev 3 byte 2 of 5", 3)
    + frame("aabc", "rev 4 byte 2 of 4", 3)
    + frame("aacbc", "rev 5 byte 3 of 5", 4)
)


def image_of(name):
    with open(f"{TOP}/tests/vectors/{name}.hex") as file:
        return bytes.fromhex("".join(file.read().split()))


def in_version_two(image):
    return image[:11] + b"\x02" + image[12:]


def files():
    """The files that the rows name, as tests/program.sh makes them."""
    made = {name: image_of(name) for name in ("one_insert", "one_source", "child_not_earlier", "bytes_row_over_a_source")}
    for name in ("one_insert", "bytes_row_over_a_source"):
        made[f"{name}_in_two"] = in_version_two(made[name])
    made |= {"abcde": b"abcde", "abc": b"abc", "ab": b"ab", "highest": b"\xff", "nothing": b"", "keys_saved": b"ab\x15c\x18", "key_save": SAVE}
    made["weeks"] = b"abcdefg abcdefg abcdefg a"
    made["script_of_abc"] = b'new\n\n# the fox\ninsert 0 0 "abc" # revision 1\r\n'
    made["script_past_the_end"] = b'new\n\ninsert 0 1 "x"\n'
    made["script_of_d"] = b'# one more byte\ninsert 1 3 "d"\n'
    made["two_inserts"] = image_of("version2/two_inserts")
    made["frames_onto"] = FRAMES_ONTO
    return made


def changed(program):
    """A text of which each second byte is changed, as tests/program.sh makes it, and where its bytes come from."""
    script = b'new\ninsert 0 0 "' + b"a" * 800 + b'"\nmany 1' + b"".join(b' %d 1 "b"' % place for place in range(0, 800, 2))
    image = subprocess.run([program, "apply", "/dev/stdin"], input=script, stdout=subprocess.PIPE, check=True).stdout
    lines = (b'%d 1 2 %d many 1 "b"\n%d 1 1 %d insert 0 0 "a"\n' % (place, place, place + 1, place + 1) for place in range(0, 800, 2))
    return {"second_bytes": image, "second_bytes_blamed": b"".join(lines)}


def text_of(column, made):
    """What a column says of what is written."""
    if column.endswith(".txt"):
        with open(f"{TOP}/tests/data/{column}", "rb") as file:
            return file.read()
    if column.startswith("@"):
        return made[column[1:]]
    return subprocess.run(["printf", "%b", column], stdout=subprocess.PIPE, check=True).stdout


def rows(made):
    """The rows that are tried: the name, words, standard input, status, and what is written."""
    with open(f"{TOP}/tests/program.sh") as file:
        table = file.read().split("<< 'TABLE'\n")[1].split("\nTABLE")[0]
    listed = {line.split(";")[0]: line.split(";") for line in table.split("\n") if line}
    for name in ROWS.strip().split("\n"):
        _, words, given, status, out, err = listed[name]
        yield name, words.split(), given, int(status), text_of(out, made), text_of(err, made)


def version_row():
    """What `--version` writes, as tests/program.sh has it: the version that CHANGELOG.md names first, and the toolchain that README.md names."""
    with open(f"{TOP}/CHANGELOG.md") as changes, open(f"{TOP}/README.md") as readme:
        version = re.search(r"^## ([0-9.]*)", changes.read(), re.M)[1]
        kit = re.search(r"rattle-kit-[0-9a-z]* logic [0-9a-f]*", readme.read())[0]
    return "the version", ["--version"], "", 0, f"cordkit {version} ({kit})\n".encode(), b""


def told_by(out, err):
    """The code that a run told, and what it told without the line that explains it, if there is one."""
    codes = re.findall(rb"^(?:refused )?([^:\n]*)$", out + err, re.M)
    lines = err.splitlines(keepends=True)
    return codes[0], b"".join(line for line in lines if not line.startswith(codes[0] + b": "))


# A file that is committed, and what is told behind an image whose last text was made by something else.
COMMIT = ["commit", "kept", "abcde"]
OTHER = (
    b"revision 1 of kept was not committed from abcde: what it had and abcde has not is taken out, "
    b"and cordkit show kept 1 still gives it\n"
)

# A session whose keys are kept, from nothing; and one that goes on from an image, and takes its place.
KEPT = ["edit", "--keep=image.keys", "image"]
ONTO = ["edit", "--onto=image", "--keep=image.keys", "image"]
SAVE = b"\x18"

# A session that is served, and what is asked of one that goes on.
SERVED = ["serve", "image"]
REQUESTS = {
    "from nothing": b'new\ninsert 0 0 "abc"\nbytes 1 1 2\nfind 1 0 "c"\nsave\nmany 1 0 1 "x" 2 0 "y"\nsync\nback 1\nsave\nquit\n',
    "behind an image": b'insert 1 0 "abc"\nbytes 2 1 2\nsave\ndelete 2 0 1\nsave\njoin 2 3\n',
}
GOES_ON = b"last\nsave\n"
NUMBERED = re.compile(rb"^(\d+) \d+$", re.M)


class Room:
    """A folder with the files of the rows and the library, in which the program is run."""

    def __init__(self, program, library, folder):
        self.program, self.library, self.folder = program, library, folder
        self.made = files() | changed(program)
        self.failed = 0
        for name, content in self.made.items():
            self.put(name, content)

    def run(self, words, given="", refused=0):
        """The status, what was written, and how many allocations there were."""
        counted = f"{self.folder}/counted"
        env = {"LD_PRELOAD": self.library, "REFUSE_AT": str(refused), "REFUSE_COUNTED": counted}
        with open(f"{self.folder}/{given}" if given else "/dev/null", "rb") as file:
            how = {"stdin": file, "stdout": subprocess.PIPE, "stderr": subprocess.PIPE, "cwd": self.folder, "env": env, "timeout": 60}
            ran = subprocess.run([self.program, *words], **how)
        with open(counted) as file:
            return ran.returncode, ran.stdout, ran.stderr, int(file.read())

    def fail(self, name, refused, found):
        self.failed += 1
        print(f"FAILED: {name}, with allocation {refused} refused: {found[:3]}")

    def image(self, name):
        """What stands there as an image, which is taken away."""
        path = f"{self.folder}/{name}"
        if not os.path.exists(path):
            return None
        with open(path, "rb") as file:
            image = file.read()
        os.remove(path)
        return image

    def has_refused_a_key(self, found, image):
        """Whether a frame tells that a key was refused memory, and the image of the others is accepted."""
        with open(f"{self.folder}/others", "wb") as file:
            file.write(image or b"")
        return found[0] == 0 and b" Memory\x1b[" in found[1] and image is not None and self.run(["check", "others"])[0] == 0

    def is_well(self, row, found, saved):
        """Whether a run of which an allocation was refused did what it may, and again with each allocation what it has to."""
        _, words, given, status, out, err = row
        if "--explain" in words:
            code, told = told_by(found[1], found[2])
            return (found[0], found[1], told) == (status, out, told_by(out, err)[1]) or (*found[:2], code, told) == (3, b"", b"memory", MEMORY)
        is_edit = words[0:1] == ["edit"]
        image = self.image(image_name(words)) if is_edit else None
        if is_edit and (self.run(words, given)[:3] != (status, out, err) or self.image(image_name(words)) != saved):
            return False
        if found[:3] == (status, out, err) and image == saved:
            return True
        if found[0] == 3 and found[2] == MEMORY and out.startswith(found[1]) and image is None:
            return True
        if is_edit and found[0] == 3 and found[2] == MEMORY and b" Memory\x1b[" in found[1] and image is None:
            return True
        return is_edit and self.has_refused_a_key(found, image)

    def try_row(self, row):
        """How many allocations of the row's run were refused, and in how many of these runs it could live without."""
        name, words, given, status, out, err = row
        found = self.run(words, given)
        saved = self.image(image_name(words)) if words[0:1] == ["edit"] else None
        if found[:3] != (status, out, err):
            self.fail(name, 0, found)
            return 0, 0
        spared, refused = 0, 0
        while True:
            found = self.run(words, given, refused + 1)
            if not self.is_well(row, found, saved):
                self.fail(name, refused + 1, found)
            if found[3] <= refused:
                return refused, spared
            refused += 1
            spared += found[0] == status and found[2] == err

    def put(self, name, content):
        with open(f"{self.folder}/{name}", "wb") as file:
            file.write(content)

    def committed(self, older, refused):
        """What a commit behind an image, or anew, tells, and which image is there then, where so many of its allocations are refused."""
        self.image("kept.committed")
        if older is not None:
            self.put("kept", older)
        found = self.run(COMMIT, refused=refused)
        left = self.image("kept.new")
        return found, self.image("kept") if left is None else b"a part of an image"

    def try_commit(self, older, answer, told):
        """How many allocations of a commit behind an image, or anew, were refused, and in how many of these runs it could live without."""
        whole = (0, answer, told)
        found, newer = self.committed(older, 0)
        if found[:3] != whole or newer is None:
            self.fail("a commit", 0, found)
        spared, refused = 0, 0
        while True:
            found, there = self.committed(older, refused + 1)
            again, image = self.committed(there, 0)
            stopped = found[:3] == (3, b"", MEMORY) and there == older and (again[:3], image) == (whole, newer)
            done = found[:2] == whole[:2] and found[2] in (told, b"") and there == newer
            if not stopped and not done:
                self.fail("a commit", refused + 1, found)
            if found[3] <= refused:
                return refused, spared
            refused += 1
            spared += found[0] == 0

    def is_well_served(self, found):
        """Whether a session that was served, of which an allocation was refused, and the same command behind it did what they may."""
        if (found[0], found[2]) not in ((0, b""), (3, MEMORY)):
            return False
        again = self.run(SERVED, "goes_on")
        first, _, saved = again[1].partition(b"\n")
        told = [int(number) for number in NUMBERED.findall(found[1])]
        there = int(first.split()[0]) if NUMBERED.fullmatch(first) else -1
        is_saved = again[0] == 0 and again[2] == b"" and saved == b"saved %s\n" % (b"none" if there < 0 else b"%d" % there)
        left = [name for name in ("image.lines", "image.lines.saved", "image.lines.over", "image.new") if self.image(name) is not None]
        return is_saved and not left and there >= max(told, default=-1) and self.run(["check", "image"])[1].startswith(b"accepted %d " % (there + 1))

    def try_served(self, name, older):
        """How many allocations of a session that is served were refused, and in how many of these runs it could live without."""
        self.put("requests", REQUESTS[name])
        self.put("goes_on", GOES_ON)
        spared, refused = 0, 0
        while True:
            for left in ("image", "image.lines", "image.lines.saved", "image.lines.over", "image.new"):
                self.image(left)
            if older is not None:
                self.put("image", older)
            found = self.run(SERVED, "requests", refused + 1)
            if not self.is_well_served(found):
                self.fail(f"a session that is served, {name}", refused + 1, found)
            if found[3] <= refused:
                return refused, spared
            refused += 1
            spared += found[0] == 0

    def begun_kept(self, older):
        """The older image stands there, or none, and no key is kept."""
        for name in ("image", "image.keys", "image.keys.saved", "image.new"):
            self.image(name)
        if older is not None:
            self.put("image", older)

    def images_kept(self, words, older):
        """The images of the first of keys_saved behind the older one, or from nothing."""
        images = []
        for n in range(len(self.made["keys_saved"])):
            self.begun_kept(older)
            self.put("first_keys", self.made["keys_saved"][:n] + SAVE)
            self.run(words, "first_keys")
            images.append(self.image("image"))
        return images

    def is_well_kept(self, words, found, older, images):
        """Whether a session whose keys are kept, of which an allocation was refused, and the same command behind it did what they may."""
        there = self.image("image")
        if found[0] == 0:
            return not self.image("image.keys") and (found[2] == b"" and there == images[-1] or self.has_refused_a_key(found, there))
        if found[0] != 3 or found[2] != MEMORY or there != older:
            return False
        if older is not None:
            self.put("image", older)
        again = self.run(words, "key_save")
        left = [name for name in ("image.keys", "image.keys.saved", "image.new") if self.image(name) is not None]
        told = found[1].count(b"\x1b[2J") - 1
        return again[0] == 0 and again[2] == b"" and not left and self.image("image") in images[max(told, 0) :]

    def try_kept(self, words, older):
        """How many allocations of a session were refused whose keys are kept, and in how many of these runs it could live without."""
        images, spared, refused = self.images_kept(words, older), 0, 0
        while True:
            self.begun_kept(older)
            found = self.run(words, "keys_saved", refused + 1)
            if not self.is_well_kept(words, found, older, images):
                self.fail(" ".join(words), refused + 1, found)
            if found[3] <= refused:
                return refused, spared
            refused += 1
            spared += found[0] == 0


def image_name(words):
    """Where an edit saves its image."""
    return words[3] if words[1] == "--onto" else words[1]


def tests_of(tests):
    ran = subprocess.run([tests, "--list"], stdout=subprocess.PIPE, text=True, check=True)
    return [line.removesuffix(": test") for line in ran.stdout.split("\n") if line.endswith(": test")]


def held_by_no_test(tests, library, folder):
    """How many blocks the frame of the tests holds at the end of a run of no test."""
    held = f"{folder}/held"
    env = {"LD_PRELOAD": library, "REFUSE_HELD": held}
    subprocess.run([tests, "no_such_test"], stdout=subprocess.DEVNULL, stderr=subprocess.DEVNULL, env=env)
    with open(held) as file:
        return int(file.read())


def try_tests(tests, library, folder):
    """How many allocations of all runs were refused, and how many runs failed."""
    refused, failed = 0, 0
    most = str(held_by_no_test(tests, library, folder))
    for name in tests_of(tests):
        short = name.rpartition(":")[2]
        if short == "no_call_is_refused":
            continue
        env = {"LD_PRELOAD": library, "REFUSE_HELD_MOST": most, "REFUSE_PAIRS" if short.startswith("twice_") else "REFUSE_EACH": "1"}
        ran = subprocess.run([tests, name], stdout=subprocess.PIPE, stderr=subprocess.STDOUT, text=True, env=env)
        last = ran.stdout.rstrip().rpartition("\n")[2]
        print(f"{short}: {last}" if ran.returncode == 0 else f"FAILED: {short}\n{ran.stdout}")
        failed += ran.returncode != 0
        refused += int(last.split()[0]) if last[:1].isdigit() else 0
    return refused, failed


def main():
    program = os.path.abspath(sys.argv[1]) if len(sys.argv) > 1 else PROGRAM
    tests = os.path.abspath(sys.argv[2]) if len(sys.argv) > 2 else TESTS
    if not shutil.which("gcc"):
        print("LEFT OUT: refused allocations: there is no gcc here")
        return 0
    if tests == TESTS and not os.path.exists(tests):
        subprocess.run(["rt", "test"], cwd=f"{TOP}/crates/refusal_tests", stdout=subprocess.DEVNULL, stderr=subprocess.DEVNULL)
    with tempfile.TemporaryDirectory() as folder:
        library = f"{folder}/refuse.so"
        subprocess.run(["gcc", "-O2", "-shared", "-fPIC", "-o", library, f"{TOP}/tests/refuse.c"], check=True)
        os.mkdir(f"{folder}/room")
        refused, failed = try_tests(tests, library, folder)
        room = Room(program, library, f"{folder}/room")
        for row in [*rows(room.made), version_row()]:
            count, spared = room.try_row(row)
            print(f"{row[0]}: {count} allocations refused, {spared} of them spared")
            refused += count
        for older, answer, told in (room.made["one_insert_in_two"], b"committed 2\n", OTHER), (None, b"committed 1\n", b""):
            count, spared = room.try_commit(older, answer, told)
            print(f"a commit {'anew' if older is None else 'behind an image'}: {count} allocations refused, {spared} of them spared")
            refused += count
        for words, older in (KEPT, None), (ONTO, room.made["one_insert_in_two"]):
            count, spared = room.try_kept(words, older)
            print(f"keys kept {'from nothing' if older is None else 'over an image'}: {count} allocations refused, {spared} of them spared")
            refused += count
        for name, older in ("from nothing", None), ("behind an image", room.made["one_insert_in_two"]):
            count, spared = room.try_served(name, older)
            print(f"a session that is served, {name}: {count} allocations refused, {spared} of them spared")
            refused += count
    failed += room.failed
    print(f"{refused} refused, {failed} runs failed")
    return 1 if failed else 0


sys.exit(main())
