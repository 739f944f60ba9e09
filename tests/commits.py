#!/usr/bin/env python3
"""Has the built cordkit commit files, state by state, and compares with the states themselves and with the second checker, which is written from
docs/FORMAT.md alone. The states are texts that chance changes: bytes of all kinds, lines moved, doubled, joined and all new, line ends of two kinds, no last
break, no byte, thousands of places at once, and as they are. Each commit tells the number of the last revision; its text is the state's, every earlier
section of the image is a front of the newer one's, each text before and its front and back keep where their bytes come from, and a state that is
there already changes no byte of the image. A state that an earlier revision has comes back by 80 bytes, with the origins that the latest such one has. Where
there is git, the bytes that all other commits put in are within 1.3 of what `git diff --minimal` puts in.

Images that chance makes, the worked ones and the vectors are gone on from too; what the second checker refuses is refused so, and stays as it is. Where
there is strace, and RUNS is 100 or more, a commit is killed before each of its calls of the system, or that call fails, and the same command again finds the older
image or the newer one; and another commit begins and ends while the first one stands before each of them: what either told is there, and none fails for it alone.

Usage: tests/commits.py [RUNS [PROGRAM [FIRST]]]; FIRST is the number of the first run. The last line is 'N passed, M failed'.
"""

import multiprocessing
import os
import random
import re
import shutil
import subprocess
import sys
import tempfile
import time

from going_on import LONGEST_TEXT, changed_sources, front_fault, refusal_of
from made_images import made
from random_blames import origins_of
from random_scripts import Room, random_bytes, worked_images
from second_checker import PROGRAM, verify

# What one command takes.
MOST_PLACES, MOST_BYTES = 4096, 65536
# Longer texts are shown, and not followed byte by byte.
LONGEST_FOLLOWED = 20_000
# What an image grows by where a state comes back: a revision and its row.
COMES_BACK = verify.REVISION_SIZE + verify.ROW_SIZE
# From so many runs on commits are killed too, and begun in pairs.
LONG = 100
ANSWER = re.compile(rb"(same|committed) (\d+)\n")
CALLS = "openat read write statx flock fsync linkat renameat2 rename unlink unlinkat".split()


# ---- States of a file


def lines_in(text):
    return re.findall(rb"[^\n]*\n|[^\n]+", text)


def new_line(chance):
    words = b" ".join(random_bytes(chance, 12) if chance.random() < 0.1 else b"%x" % chance.getrandbits(24) for _ in range(chance.randrange(8)))
    return words.replace(b"\n", b"") + b"\n"


def by_lines(chance, text):
    """A text of which lines are put in, moved, doubled, joined or left out."""
    lines = lines_in(text)
    for _ in range(chance.choice([1, 1, 2, 5, 40])):
        k = chance.randrange(len(lines) + 1)
        line = lines[k : k + 1]
        change = chance.randrange(6)
        if change == 0:
            lines[k:k] = [new_line(chance) for _ in range(chance.choice([1, 1, 3, 30]))]
        elif change == 1:
            del lines[k : k + chance.choice([1, 1, 3, 30])]
        elif change == 2:
            lines[k:k] = line
        elif change == 3 and line:
            lines.insert(chance.randrange(len(lines) + 1), lines.pop(k))
        elif change == 4 and line:
            lines[k] = line[0].rstrip(b"\n")
        elif line:
            lines[k] = chance.choice([line[0].replace(b"\n", b"\r\n"), line[0][::-1].strip() + b"\n", new_line(chance)])
    return b"".join(lines)


def by_bytes(chance, text):
    """A text of which bytes are changed, at some places or at thousands."""
    places = chance.choice([1, 2, 8]) if len(text) < 30_000 or chance.random() < 0.7 else 2 * MOST_PLACES
    cuts = sorted(chance.randrange(len(text) + 1) for _ in range(places))
    pieces, end = [], 0
    for cut in cuts:
        pieces += [text[end:cut], random_bytes(chance, 3)]
        end = max(end, cut + chance.randrange(3))
    return b"".join(pieces) + text[end:]


def next_state(chance, text):
    kind = chance.random()
    if kind < 0.1:
        return text
    if kind < 0.13:
        return b""
    if kind < 0.2 or not text:
        return b"".join(new_line(chance) for _ in range(chance.choice([1, 20, 300, 300, 6000])))
    if kind < 0.25:
        return text + random_bytes(chance, chance.choice([2, 300, 200_000]))
    return by_lines(chance, text) if kind < 0.8 else by_bytes(chance, text)


# ---- What a commit does


class Commits(Room):
    """A folder with an image, and files that are committed to it."""

    def image_bytes(self):
        if not os.path.exists(self.image):
            return None
        with open(self.image, "rb") as file:
            return file.read()

    def commit(self, state, *words):
        return self.run("commit", *words, self.image, self.put("file", state))


def front_of(first, second):
    """How many elements two lists have in common at the front."""
    for k, (one, other) in enumerate(zip(first, second)):
        if one != other:
            return k
    return min(len(first), len(second))


def earlier_with(older, state):
    """The latest revision of an image whose text is this one, or nothing."""
    texts = verify.all_texts(verify.checked(older, []), [])
    return next((k for k in reversed(range(len(texts))) if texts[k] == state), None)


def back_fault(older, newer, earlier):
    """What is wrong with a commit of the text that an earlier revision has, or nothing."""
    if len(newer) > len(older) + COMES_BACK:
        return f"{len(newer) - len(older)} bytes more for the text of revision {earlier}"
    image = verify.checked(newer, [])
    if image.revisions[-1][:4] != (verify.BACK, image.revisions[earlier].mark, image.revisions[earlier].root, earlier):
        return f"another command than back to {earlier}"
    if max(map(len, verify.all_texts(image, []))) > LONGEST_FOLLOWED:
        return None
    origins = origins_of(image, [])
    return None if origins[-1] == origins[earlier] else f"other origins than those of revision {earlier}"


def origin_fault(image, sources, count):
    """Whether a byte of the longest front that two texts have in common, or of the longest back of what is left, comes from elsewhere than before, or
    nothing."""
    texts = verify.all_texts(image, sources)
    last, before = len(texts) - 1, count - 1
    if max(map(len, texts)) > LONGEST_FOLLOWED:
        return None
    origins = origins_of(image, sources)
    front = front_of(texts[before], texts[last])
    back = min(front_of(texts[before][::-1], texts[last][::-1]), min(len(texts[before]), len(texts[last])) - front)
    if origins[before][:front] != origins[last][:front] or back and origins[before][-back:] != origins[last][-back:]:
        return "bytes that stayed come from elsewhere"
    return None


def told_of(room, older, answer):
    """What a commit tells of the older image's last text, which was not committed from the file."""
    texts = verify.all_texts(verify.checked(older, room.sources), room.sources)
    if not texts or not texts[-1] or answer.startswith(b"same"):
        return b""
    last, image, file = len(texts) - 1, room.image, os.path.join(room.folder, "file")
    told = f"revision {last} of {image} was not committed from {file}: what it had and {file} has not is taken out, "
    sources = "".join(f" {path}" for path in room.files)
    return f"{told}and cordkit show {image} {last}{sources} still gives it\n".encode()


def committed_fault(room, state, older, answer, is_own=True, is_known=True):
    """What is wrong with what a commit did behind the older image, which the program made itself or not, and whose last text was committed from the file
    or not, or nothing."""
    told = ANSWER.fullmatch(answer[1])
    if answer[0] or not told or answer[2] != (b"" if is_known else told_of(room, older, answer[1])):
        return f"{answer}"
    data = room.image_bytes()
    image = verify.checked(data, room.sources)
    if told[1] == b"same":
        return None if data == older and verify.all_texts(image, room.sources)[-1] == state else "another image, or text"
    texts = verify.all_texts(image, room.sources)
    if int(told[2]) != len(texts) - 1 or texts[-1] != state:
        return f"{answer[1]} of {len(texts)} revisions, or another text"
    if not verify.line(data, room.sources).startswith("accepted "):
        return verify.line(data, room.sources)
    if older is None:
        return None
    before = verify.checked(older, room.sources)
    if before.revisions and verify.all_texts(before, room.sources)[-1] == state:
        return "a state that was there is there again"
    if verify.all_texts(before, room.sources) != texts[: len(before.revisions)]:
        return "other texts before it"
    return front_fault(older, data) if is_own else None


def put_in(older, newer):
    """How many bytes a commit put in."""
    return len(verify.image_of(newer).pool) - (len(verify.image_of(older).pool) if older else 0)


def git_puts(folder, first, second):
    """How many bytes git puts in where it turns one text into another by lines."""
    for name, text in ("first", first), ("second", second):
        with open(os.path.join(folder, name), "wb") as file:
            file.write(text)
    words = ["git", "diff", "--no-index", "--minimal", "--text", "-U0", "first", "second"]
    lines = subprocess.run(words, cwd=folder, stdout=subprocess.PIPE, check=False).stdout.split(b"\n")
    behind = next((k for k, line in enumerate(lines) if line.startswith(b"@@")), len(lines))
    return sum(len(line) for line in lines[behind:] if line.startswith(b"+"))


def run_states(given):
    """How many bytes commits put in, how many git does, and what is wrong, or nothing."""
    program, seed = given
    chance = random.Random(seed)
    state, states, ours, gits, fault = b"", [], 0, 0, None
    with tempfile.TemporaryDirectory() as folder:
        room = Commits(program, folder, [])
        for number in range(chance.choice([2, 6, 12])):
            before, older = state, room.image_bytes()
            state = chance.choice(states) if states and chance.random() < 0.2 else next_state(chance, state)
            states.append(state)
            fault = committed_fault(room, state, older, room.commit(state))
            newer = room.image_bytes()
            earlier = earlier_with(older, state) if not fault and older and newer != older else None
            if earlier is not None:
                fault = back_fault(older, newer, earlier)
            elif not fault and older and newer != older:
                image = verify.checked(newer, [])
                fault = origin_fault(image, [], len(verify.image_of(older).revisions))
                if shutil.which("git"):
                    ours, gits = ours + put_in(older, newer), gits + git_puts(folder, before, state)
            if fault:
                break
    return "states", ours, gits, f"states {seed}, {number}: {fault}" if fault else None


# ---- Images that others wrote


def image_fault(room, data, chance):
    refusal = refusal_of(data, room.sources, None)
    room.save(data)
    if refusal:
        answer = room.commit(b"another\n")
        right = answer == (1, b"", f"{refusal}\n".encode()) and room.image_bytes() == data
        return None if right else f"{answer}, for {refusal}"
    image = verify.checked(data, room.sources)
    if max((image.length(revision.root) for revision in image.revisions), default=0) > LONGEST_TEXT:
        return None
    texts = verify.all_texts(image, room.sources)
    for number, state in enumerate([next_state(chance, texts[-1] if texts else b""), b"another\n", b"one more\n"]):
        older = room.image_bytes()
        fault = committed_fault(room, state, older, room.commit(state), number > 1, number > 0)
        if fault:
            return fault
    return None


def run_image(given):
    program, seed = given
    chance = random.Random(seed)
    image = made(random.Random(seed))
    data = b"".join(b"".join(section) for section in image.sections())
    with tempfile.TemporaryDirectory() as folder:
        fault = image_fault(Commits(program, folder, changed_sources(chance, image.sources)), data, chance)
    return "images", 0, 0, f"image {seed}: {fault}" if fault else None


def run_worked(given):
    program, (name, data, sources) = given
    with tempfile.TemporaryDirectory() as folder:
        fault = image_fault(Commits(program, folder, sources), data, random.Random(name))
    return "worked images", 0, 0, f"{name}: {fault}" if fault else None


# ---- Commits that are killed, and two at once


def traced(room, call, signal, number, state):
    """A commit that gets a signal before its call of this number."""
    words = ["strace", "-qq", "-o", os.devnull, "-e", f"inject={call}:signal={signal}:when={number}", room.program]
    return [*words, "commit", room.image, room.put("file", state)]


def begin(room, state):
    """No image but that of one state, or none."""
    for name in "image", "image.new":
        if os.path.exists(os.path.join(room.folder, name)):
            os.remove(os.path.join(room.folder, name))
    if state is not None:
        room.commit(state)
    return room.image_bytes()


def is_tidy(folder):
    """Whether there is nothing but the file, the image, and which file the image's last text was committed from."""
    return sorted(os.listdir(folder)) == ["file", "image", "image.committed"]


def run_killed(given):
    """A commit is killed before each call of this name; the same command again finishes it."""
    program, call, first = given
    with tempfile.TemporaryDirectory() as folder:
        room = Commits(program, folder, [])
        begin(room, first)
        room.commit(b"second\n")
        newer = room.image_bytes()
        for number in range(1, 1000):
            older = begin(room, first)
            killed = subprocess.run(traced(room, call, "KILL", number, b"second\n"), capture_output=True, check=False)
            if room.image_bytes() not in (older, newer):
                return "killed", 0, 0, f"killed at {call} {number}: an image that is neither"
            again = room.commit(b"second\n")
            if again[0] or room.image_bytes() != newer or not is_tidy(folder):
                return "killed", 0, 0, f"killed at {call} {number}: {again}, {os.listdir(folder)}"
            if killed.returncode >= 0:
                return "killed", 0, 0, None
    return "killed", 0, 0, f"{call}: without end"


def run_failing(given):
    """Each call of this name fails in turn: the image is the older one or the newer one, and the same command again finishes it."""
    program, call, first = given
    with tempfile.TemporaryDirectory() as folder, tempfile.NamedTemporaryFile() as trace:
        room = Commits(program, folder, [])
        begin(room, first)
        room.commit(b"second\n")
        newer = room.image_bytes()
        for number in range(1, 1000):
            older = begin(room, first)
            words = ["strace", "-qq", "-o", trace.name, "-e", f"inject={call}:error=EIO:when={number}", program, "commit", room.image]
            failed = subprocess.run([*words, room.put("file", b"second\n")], capture_output=True, check=False)
            with open(trace.name, "rb") as calls:
                if b"INJECTED" not in calls.read():
                    return "failing", 0, 0, None
            there = room.image_bytes()
            if there not in (older, newer) or failed.returncode == 0 and there != newer:
                return "failing", 0, 0, f"{call} {number} failed: {failed.returncode} {failed.stderr}, another image"
            again = room.commit(b"second\n")
            if again[0] or room.image_bytes() != newer or not is_tidy(folder):
                return "failing", 0, 0, f"{call} {number} failed: {failed.returncode} {failed.stderr}, then {again}, {os.listdir(folder)}"
    return "failing", 0, 0, f"{call}: without end"


def stopped(traced_commit):
    """Waits until a traced program stands still, or has ended; its number where it stands."""
    while traced_commit.poll() is None:
        found = subprocess.run(["pgrep", "-P", str(traced_commit.pid)], capture_output=True, text=True, check=False).stdout.split()
        if found:
            state = subprocess.run(["ps", "-o", "stat=", "-p", found[0]], capture_output=True, text=True, check=False).stdout
            if state[:1] in ("t", "T"):
                return int(found[0])
        time.sleep(0.01)
    return None


def run_two(given):
    """Another commit begins and ends while one stands before its calls of this name. What either told is there."""
    program, call, first = given
    with tempfile.TemporaryDirectory() as folder:
        room = Commits(program, folder, [])
        for number in range(1, 1000):
            begin(room, first)
            with subprocess.Popen(traced(room, call, "STOP", number, b"of one\n"), stdout=subprocess.PIPE, stderr=subprocess.PIPE) as one:
                child = stopped(one)
                other = room.run("commit", room.image, room.put("other", b"of another\n"))
                if child:
                    os.kill(child, 18)
                told, said = one.communicate()
            texts = verify.all_texts(verify.checked(room.image_bytes(), []), [])
            for status, what, text in (one.returncode, said, b"of one\n"), (other[0], other[2], b"of another\n"):
                well = text in texts if status == 0 else what == b"refused J4\n" or call == "read" and what == b"read\n"
                if not well:
                    return "two", 0, 0, f"two at {call} {number}: {status} {what}, {texts}"
            if one.returncode and other[0]:
                return "two", 0, 0, f"two at {call} {number}: both are refused: {said} {other}"
            if child is None:
                return "two", 0, 0, None
    return "two", 0, 0, f"{call}: without end"


def main():
    runs = int(sys.argv[1]) if len(sys.argv) > 1 else 1000
    program = os.path.abspath(sys.argv[2] if len(sys.argv) > 2 else PROGRAM)
    first = int(sys.argv[3]) if len(sys.argv) > 3 else 0
    seeds = [(program, seed) for seed in range(first, first + runs)]
    jobs = [(run_states, seeds), (run_image, seeds), (run_worked, [(program, image) for image in worked_images()])]
    if runs < LONG:
        pass
    elif shutil.which("strace"):
        calls = [(program, call, begun) for call in CALLS for begun in (None, b"first\n")]
        jobs += [(run_killed, calls), (run_failing, calls), (run_two, calls)]
    else:
        print("LEFT OUT: commits that are killed, and two at once: there is no strace here")
    found, tried, ours, gits = [], 0, 0, 0
    with multiprocessing.Pool() as pool:
        for results in [pool.imap_unordered(job, given) for job, given in jobs]:
            for _, put, git, fault in results:
                ours, gits, tried = ours + put, gits + git, tried + 1
                found += [fault] if fault else []
    if ours > 1.3 * gits > 0:
        found, tried = [*found, "the commits put in too many bytes"], tried + 1
    for fault in found:
        print(fault)
    print(f"{ours} bytes put in, {gits} by git")
    print(f"{tried - len(found)} passed, {len(found)} failed")
    return len(found) != 0


if __name__ == "__main__":
    sys.exit(main())
