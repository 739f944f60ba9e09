#!/usr/bin/env python3
"""Has sessions of the editor end in crashes, and goes on by the same command and the keys that are left: from a file, over an image that is there, behind
another one, with the file of a session, and by bin/cordedit, also in a terminal. A crash comes before each call of the system that makes, writes, syncs,
renames or removes a file, or that call fails; or where a file gets longer than so many bytes, so that each file is cut at each byte. In rows of crashes
what goes on crashes too. After each crash the image is the older one or the newer one, byte for byte, and no key that a frame told is lost. In the end the
newer image is there, what cordedit was asked for beside it, and nothing else but a digest of the file.

So do sessions that `cordkit serve` feeds by lines, which save twice: each line that was answered is in the image or behind it in image.lines.

Usage: tests/crashes.py [CRASHES [PROGRAM [FIRST]]]: so many crashes of each session, taken by chance, and as many rows of them, from the seed FIRST on;
where the number is 0 each crash, and a hundred rows. Where there is no strace nothing is tried, which is told. The last line is 'N passed, M failed'.
"""

import collections
import hashlib
import multiprocessing
import os
import pty
import random
import re
import resource
import select
import shutil
import struct
import subprocess
import sys
import tempfile
import termios
from dataclasses import dataclass, field
from fcntl import ioctl

from second_checker import PROGRAM, TOP

CORDEDIT = os.path.join(TOP, "bin/cordedit")
CALLS = "openat,creat,write,pwrite64,writev,copy_file_range,sendfile,fsync,fdatasync,ftruncate,fchmod,link,linkat,rename,renameat,renameat2,unlink,unlinkat"
WAYS = "signal=KILL", "error=EIO", "error=ENOSPC"
FRONT, HEADER, SAVE, LEAVE, FRAME = 8, 56, b"\x18", b"\x03", b"\x1b[2J"
KEYS = b"ab\x15c\x02d\x00\x06\x17e"


@dataclass(frozen=True)
class Session:
    """Words of cordkit or of cordedit, what is there before, and what is there in the end beside that and the image."""

    name: str
    words: list
    begun: tuple = ()
    asked: dict = field(default_factory=dict)
    by_script: bool = False
    in_terminal: bool = False
    is_served: bool = False


def edit(*words):
    return ["edit", "--explain", "--keep=image.keys", *words]


OWN = "--session=session"
SESSIONS = [
    Session("from a file", edit("image", "file"), ("file",)),
    Session("in place of an image", edit("image"), ("image",)),
    Session("of its own", edit(OWN, "--no-clobber", "image", "file"), ("file",)),
    Session("behind the image", edit("--onto=image", "image"), ("image",)),
    Session("behind the image, of its own", edit("--onto=image", OWN, "image", "file"), ("image", "file")),
    Session("behind another image", edit("--onto=other", "image", "file"), ("other", "file")),
    Session("behind another image, in place of one", edit("--onto=other", OWN, "image"), ("other", "image")),
    Session("cordedit", ["image"], by_script=True),
    Session("cordedit with a file, asked for more", ["--copy", "--text", "out", "image", "file"], ("file",), {"image.0": "file", "out": "text"}, True),
    Session("cordedit behind the image", ["--text", "out", "image"], ("image",), {"out": "text"}, True),
    Session("cordedit begins with another image's text", ["--continue", "other", "image"], ("other",), {"image.0": "copy"}, True),
    Session("cordedit in a terminal", ["--text", "out", "image", "file"], ("file",), {"out": "text"}, True, True),
    Session("cordedit in a terminal, behind the image", ["image", "file"], ("image", "file"), {}, True, True),
    Session("served from nothing", ["serve", "--explain", "image"], is_served=True),
    Session("served behind the image", ["serve", "--explain", "image"], ("image",), is_served=True),
    Session("served over a file", ["serve", "--explain", "image", "file"], ("file",), is_served=True),
    Session("served behind the image, over a file", ["serve", "--explain", "image", "file"], ("image", "file"), is_served=True),
]

# Lines of a session that is served, each behind its last revision, `sync` between them, so that each is kept by a write of its own, and where it saves.
LINES, SAVED_AT, SYNC = ["insert LAST 0 \"ab\"", "replace LAST 1 1 \"c\" # a comment", "delete LAST 0 1", "insert LAST 0 \"d\\n\"", "back LAST"], (3, 5), b"sync"
NUMBERED = re.compile(rb"^(\d+) \d+$", re.M)


@dataclass(frozen=True)
class Crash:
    """Before a call of this name and number, or where a file gets longer than so many bytes."""

    way: str
    call: str = ""
    number: int = 0

    def tracer(self):
        return ["strace", "-f", "-qq", "-o", os.devnull, "-e", f"inject={self.call}:{self.way}:when={self.number}"] if self.call else []

    def limit(self):
        resource.setrlimit(resource.RLIMIT_CORE, (0, 0))
        if self.way == "cut":
            resource.setrlimit(resource.RLIMIT_FSIZE, (self.number, self.number))


NO_CRASH = Crash("none")


def run_in_terminal(words, keys, how):
    """The status of a run in a terminal of 80 columns and 24 rows, in which keys are typed once a frame is there, and what was shown."""
    ours, theirs = pty.openpty()
    ioctl(theirs, termios.TIOCSWINSZ, struct.pack("HHHH", 24, 80, 0, 0))
    shown, typed = b"", False
    with subprocess.Popen(words, stdin=theirs, stdout=theirs, stderr=theirs, start_new_session=True, **how) as child:
        while child.poll() is None or select.select([ours], [], [], 0)[0]:
            if select.select([ours], [], [], 0.02)[0]:
                shown += os.read(ours, 65536)
            if FRAME in shown and not typed:
                os.write(ours, keys)
                typed = True
    os.close(ours)
    os.close(theirs)
    return child.returncode, shown, shown.rpartition(b"\x1b[?1049l")[2]


class Room:
    """A folder in which a session is made, ends in crashes, and goes on."""

    def __init__(self, program, session, made):
        self.program, self.session, self.made = program, session, made
        self.place = tempfile.TemporaryDirectory()
        self.folder, self.around = f"{self.place.name}/room", self.place.name
        os.mkdir(self.folder)
        for name in session.begun:
            with open(f"{self.folder}/{name}", "wb") as file:
                file.write(made[name])
        self.told, self.words, self.typed = 0, session.words, b""

    def read(self, name):
        if not os.path.exists(f"{self.folder}/{name}"):
            return None
        with open(f"{self.folder}/{name}", "rb") as file:
            return file.read()

    def remove(self, *names):
        for name in names:
            if os.path.exists(f"{self.folder}/{name}"):
                os.remove(f"{self.folder}/{name}")

    def run(self, keys, limit, tracer):
        """The status of a run with these keys, what it showed, and what it said."""
        self.typed = keys
        env = os.environ | {"CORDKIT": self.program, "TMPDIR": self.around}
        how = {"cwd": self.folder, "env": env, "preexec_fn": limit}
        if self.session.in_terminal:
            env["CORDKIT"] = f"{self.around}/program"
            with open(env["CORDKIT"], "w", encoding="utf-8") as file:
                file.write("#!/bin/sh\nexec " + " ".join([*tracer, self.program]) + ' "$@"\n')
            os.chmod(env["CORDKIT"], 0o755)
            return run_in_terminal([CORDEDIT, *self.words], keys, how)
        words = [*tracer, CORDEDIT if self.session.by_script else self.program, *self.words]
        done = subprocess.run(words, input=keys, capture_output=True, timeout=60, check=False, **how)
        return done.returncode, done.stdout, done.stderr

    def crashed(self, crash):
        return self.run(self.left(), crash.limit, crash.tracer())

    def whole(self):
        """What is typed where nothing crashes."""
        return KEYS + SAVE

    def kept(self):
        """The keys that are kept: those that were set aside, where there are no others."""
        keys = [(self.read(name) or b"")[HEADER:] for name in ("image.keys", "image.keys.saved")]
        return keys[0] or keys[1]

    def is_saved(self):
        return self.read("image") == self.made["newer"]

    def left(self):
        """The keys that are to be typed. Where the image is saved, a session that begins from the file is left, and one that goes on saves once more."""
        if not self.is_saved():
            return KEYS[len(self.kept()) :] + SAVE
        return SAVE if self.session.by_script or "--onto=image" in self.words or self.kept() else LEAVE

    def fault_behind(self, shown):
        """What is wrong behind a crash, or nothing."""
        self.told += max(0, shown.count(FRAME) - 1)
        if self.is_saved():
            self.told = len(KEYS)
            return None
        if self.read("image") != (self.made["image"] if "image" in self.session.begun else None):
            return "an image that is neither"
        kept = self.kept()
        if not KEYS.startswith(kept) or len(kept) < self.told:
            return f"{self.told} keys were told, and {kept} are kept"
        self.told = len(kept)
        return None

    def is_over(self, said):
        """Whether a session of its own cannot go on, since it was saved, and not told so."""
        return OWN in self.words and said.partition(b"\n")[0].strip() in (b"refused J3", b"refused J5") and self.is_saved()

    def go_on(self):
        """What the same command gives behind all crashes, with what docs/EDITOR.md and docs/FAQ.md say of each refusal."""
        if "--continue" in self.words and self.is_saved() and not self.kept():
            # It has begun and ended; from now on the new image is gone on with.
            self.words = ["image"]
        answer = self.crashed(NO_CRASH)
        if b"C1(I3): image.new is no image" in answer[2] and len(self.read("image.new")) < FRONT:
            self.remove("image.new")
            answer = self.crashed(NO_CRASH)
        if self.is_over(answer[2]):
            self.words = [word for word in self.words if word not in (OWN, "--no-clobber")]
            self.remove("session")
            answer = self.crashed(NO_CRASH)
        return answer

    def fault_at_end(self, answer):
        """What is wrong where a session went on and ended, or nothing."""
        # The digest of a file may be missing where a crash came behind the image.
        there = set(os.listdir(self.folder)) - {"image.sources", "image.sources.new"}
        if self.typed == LEAVE:
            # The next Save takes these away.
            there -= {"session", "image.new"}
        asked = {name: self.made[made] for name, made in self.session.asked.items()}
        # What was replaced has this name; and so has what a session goes on from, where a call failed that would have told so.
        kept = {"image.saved-1"} if "image" in self.session.begun and self.read("image.saved-1") == self.made["image"] else set()
        is_lost = "image" in self.session.begun and "--onto=other" in self.session.words and not kept
        if answer[0] or not self.is_saved() or is_lost or there - kept != {"image", *self.session.begun, *asked}:
            return f"{answer[0]} {answer[2]}, {'saved' if self.is_saved() else 'not saved'}, {sorted(there)}"
        stay = {name: self.made[name] for name in self.session.begun if name != "image"}
        changed = [name for name, data in (asked | stay).items() if self.read(name) != data]
        return f"{changed} have other bytes" if changed else None

    def fault(self, crashes):
        """What is wrong in a session with these crashes, or nothing."""
        for crash in crashes:
            answer = self.crashed(crash)
            fault = self.fault_behind(answer[1])
            if fault:
                return f"{fault}, behind {answer}"
        return self.fault_at_end(self.go_on())


class ServedRoom(Room):
    """The same of a session that is served: its lines in the place of keys, its answers in the place of frames."""

    def base(self):
        """How many of the lines the image has, or nothing, where it is none of those that may be there. One that is not there has none of them."""
        data = self.read("image") or self.made["images"][0]
        return self.made["images"].index(data) if data in self.made["images"] else None

    def lines_in(self, name):
        """The lines of a file that go on from the image, without a last one that has no end."""
        image = self.read("image") or self.made["images"][0]
        digest = hashlib.sha256(image + (self.made["file"] if "file" in self.words else b"")).hexdigest().encode()
        first, *lines = (self.read(name) or b"").split(b"\n")[:-1] or [b""]
        return lines if first.endswith(digest) else []

    def total(self):
        """How many lines are there, in the image and behind it."""
        base = self.base()
        kept = self.lines_in("image.lines") or self.lines_in("image.lines.saved")
        return base + len(kept) if base is not None and kept == self.made["lines"][base : base + len(kept)] else None

    def requests(self, start):
        given = []
        for number, line in enumerate(self.made["lines"][start:], start + 1):
            given += [line, SYNC, *([b"save"] if number in SAVED_AT else [])]
        return b"\n".join([*given, b"save", b"quit", b""])

    def whole(self):
        return self.requests(0)

    def left(self):
        return self.requests(self.total())

    def is_saved(self):
        return self.read("image") == self.made["newer"]

    def fault_behind(self, shown):
        numbers = [int(number) - self.made["first"] + 1 for number in NUMBERED.findall(shown)]
        self.told = max([self.told, *numbers])
        if self.base() is None:
            return "an image that is none of those"
        total = self.total()
        if total is None or total < self.told:
            return f"{self.told} lines were answered, and {self.read('image.lines')} is kept behind {self.base()} of them"
        return None


def room_of(program, session, made):
    return (ServedRoom if session.is_served else Room)(program, session, made)


def made_of_served(program, session):
    """What is there before, each image that a session which is served may leave, the last of them, and its lines."""
    files = [name for name in ("file",) if name in session.words]
    with tempfile.TemporaryDirectory() as folder:

        def run(*words, given=b""):
            return subprocess.run([program, *words, *files], input=given, stdout=subprocess.PIPE, cwd=folder, check=True).stdout

        def write(name, data):
            with open(f"{folder}/{name}", "wb") as file:
                file.write(data)

        write("file", b"one\ntwo\n")
        first = 0
        if "image" in session.begun:
            write("older", run("apply", "/dev/stdin", given=b'open 0\ninsert 0 3 "x"\n' if files else b'new\ninsert 0 0 "xy"\n'))
            first = 2
        else:
            write("older", run("apply", "/dev/stdin"))
        begin = [] if first else [b"open 0" if files else b"new"]
        lines = begin + [line.replace("LAST", str(first + len(begin) + k - 1)).encode() for k, line in enumerate(LINES)]
        images = [run("apply", "--onto", "older", "/dev/stdin", given=b"".join(line + b"\n" for line in lines[:count])) for count in range(len(lines) + 1)]
        return {"file": b"one\ntwo\n", "image": images[0], "images": images, "newer": images[-1], "lines": lines, "first": first}


def made_of(program, session):
    """What is there before, and what is there in the end."""
    over = [name for name in ("file", "copy") if name in (*session.words, *session.asked.values())]
    with tempfile.TemporaryDirectory() as folder:

        def run(words, keys=b"", files=over):
            return subprocess.run([program, *words, *files], input=keys, stdout=subprocess.PIPE, cwd=folder, check=True).stdout

        def read(name):
            with open(f"{folder}/{name}", "rb") as file:
                return file.read()

        for name, text in ("file", b"one\ntwo\n"), ("copy", b"z"):
            with open(f"{folder}/{name}", "wb") as file:
                file.write(text)
        run(["edit", "image"], b"xy" + SAVE)
        run(["edit", "other"], b"z" + SAVE, [] if "copy" in over else over)
        onto = ["--onto=image"] if session.by_script and "image" in session.begun else [word for word in session.words if word.startswith("--onto")]
        run(["edit", *onto, "newer"], KEYS + SAVE)
        last = int(run(["check", "newer"]).split()[1]) - 1
        return {name: read(name) for name in ("file", "copy", "image", "other", "newer")} | {"text": run(["show", "newer", str(last)])}


def crashes_of(program, session, made):
    """Each crash of a session: at each call in each way, of which one empties a file of keys that is left; and at each length of a file, by a script each 7th."""
    room = room_of(program, session, made)
    room.run(room.whole(), NO_CRASH.limit, ["strace", "-f", "-qq", "-A", "-o", f"{room.around}/trace", "-e", f"trace={CALLS}"])
    with open(f"{room.around}/trace", encoding="utf-8", errors="replace") as trace:
        counted = collections.Counter((line.split()[0], line.split(None, 1)[1].partition("(")[0]) for line in trace)
    most = {"ftruncate": 1} | {call: max(count for (_, other), count in counted.items() if other == call) for _, call in counted if call in CALLS.split(",")}
    calls = [Crash(way, call, k + 1) for way in WAYS for call in sorted(most) for k in range(most[call] + 1)]
    return calls + [Crash("cut", number=length) for length in range(0, len(made["newer"]) + 1, 7 if session.by_script else 1)]


def run_one(given):
    program, session, made, crashes = given
    try:
        fault = room_of(program, session, made).fault(crashes)
    except subprocess.TimeoutExpired:
        fault = "it does not end"
    return f"{session.name}, {crashes}: {fault}" if fault else None


def tried(program, count, first):
    """What is run: a session, and its crashes."""
    for session in SESSIONS:
        made = made_of_served(program, session) if session.is_served else made_of(program, session)
        each = crashes_of(program, session, made)
        few = random.Random(first).sample(each, min(count, len(each))) if count else each
        yield from ((program, session, made, [crash]) for crash in few)
        for seed in range(first, first + (count or 100)):
            chance = random.Random(seed)
            yield program, session, made, [chance.choice(each) for _ in range(chance.randrange(2, 6))]


def main():
    count = int(sys.argv[1]) if len(sys.argv) > 1 else 0
    program = os.path.abspath(sys.argv[2] if len(sys.argv) > 2 else PROGRAM)
    first = int(sys.argv[3]) if len(sys.argv) > 3 else 0
    if not shutil.which("strace"):
        print("LEFT OUT: crashes of sessions: there is no strace here", "0 passed, 0 failed", sep="\n")
        return 0
    with multiprocessing.Pool() as pool:
        results = list(pool.imap_unordered(run_one, tried(program, count, first)))
    found = [fault for fault in results if fault]
    print(*found, f"{len(results) - len(found)} passed, {len(found)} failed", sep="\n")
    return len(found) != 0


if __name__ == "__main__":
    sys.exit(main())
