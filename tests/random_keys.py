#!/usr/bin/env python3
"""Types keys into the built cordkit, and compares with an editor of plain lists: every frame with its message, and the image that is saved, which
is of version 2, keeps the rules of the second checker, and has every revision's text. What chance types: a few keys over a few bytes; more
cut spans than are kept; hundreds of revisions; a file of thousands of lines; one of lines of up to 200,000 bytes. Each session that is saved, and some that a script makes, are gone on
from, up to three times: the editor of plain lists then has what the second checker reads of the older image, whose sections are fronts of the newer
one's. Beside these: images whose every byte is known, sessions by hand, and the refusals that a long session meets.

Usage: tests/random_keys.py [RUNS [PROGRAM [FIRST]]]; FIRST is the number of the first run. The last line is 'N passed, M failed'.
"""

import collections
import multiprocessing
import os
import random
import subprocess
import sys
import tempfile

from going_on import front_fault
from random_scripts import Session, lines_of
from second_checker import PROGRAM, TOP, verify

ROWS, COLUMNS, ABOVE, CUTS = 23, 80, 11, 16
LONGEST = (1 << 31) - 1
SAVE, LEAVE, UNDO = b"\x18", b"\x03", b"\x15"
MARK, CUT, PASTE, DROP, BALANCE, LINE_START, LINE_END = b"\0", b"\x17", b"\x19", b"\x14", b"\x0c", b"\x01", b"\x05"
LONG_FROM = 500


class Refused(Exception):
    """A key that is refused, with its message."""


class Same:
    """A long text of one byte again and again, of which the length is kept alone."""

    def __init__(self, byte, length):
        self.byte, self.length = byte, length

    def __len__(self):
        return self.length

    def __iter__(self):
        return iter(bytes([self.byte]) * self.length)

    def __getitem__(self, span):
        return Same(self.byte, len(range(*span.indices(self.length))))

    def __add__(self, other):
        return Same(self.byte, self.length + len(other))

    def find(self, *_):
        return -1

    rfind = find

    def count(self, *_):
        return 0

    def split(self, _):
        return [self]


class Plain:
    """What the editor holds, each text a bytes object."""

    def __init__(self, text):
        self.texts, self.priors = [text], [None]
        self.place, self.mark, self.cuts, self.dropped, self.message = 0, None, [], 0, None

    def line_start(self, place):
        return self.texts[-1].rfind(b"\n", 0, place) + 1

    def line_end(self, place):
        found = self.texts[-1].find(b"\n", place)
        return len(self.texts[-1]) if found < 0 else found

    def revise(self, text, prior, place):
        if len(text) > LONGEST:
            raise Refused("K1")
        self.texts.append(text)
        self.priors.append(prior)
        self.place, self.mark = place, None

    def replace(self, start, end, new, place):
        text = self.texts[-1]
        self.revise(text[:start] + new + text[end:], len(self.texts) - 1, place)

    def up(self):
        start = self.line_start(self.place)
        if start > 0:
            above = self.line_start(start - 1)
            self.place = min(above + self.place - start, start - 1)

    def down(self):
        end = self.line_end(self.place)
        if end < len(self.texts[-1]):
            column = self.place - self.line_start(self.place)
            self.place = min(end + 1 + column, self.line_end(end + 1))

    def cut(self):
        if self.mark is not None and self.mark != self.place:
            start, end = sorted((self.mark, self.place))
            cuts = self.cuts + [self.texts[-1][start:end]]
            self.replace(start, end, b"", start)
            self.dropped += max(len(cuts) - CUTS, 0)
            self.cuts = cuts[-CUTS:]

    def undo(self):
        prior = self.priors[-1]
        if prior is not None:
            text = self.texts[prior]
            self.revise(text, self.priors[prior], min(self.place, len(text)))

    def key(self, byte, refusal=None):
        """Takes a key, or sets the message: where the text would be too long, or where the key is known to be refused so."""
        self.message = refusal
        if refusal is None:
            try:
                self.take(byte)
            except Refused as refused:
                self.message = str(refused)

    def take(self, byte):
        place, length = self.place, len(self.texts[-1])
        if 0x20 <= byte <= 0x7E or byte == 0x09:
            self.replace(place, place, bytes([byte]), place + 1)
        elif byte in (0x0A, 0x0D):
            self.replace(place, place, b"\n", place + 1)
        elif byte in (0x08, 0x7F):
            if place > 0:
                self.replace(place - 1, place, b"", place - 1)
        elif byte == 0x04:
            if place < length:
                self.replace(place, place + 1, b"", place)
        elif byte == 0x02:
            self.place = max(place - 1, 0)
        elif byte == 0x06:
            self.place = min(place + 1, length)
        elif byte == 0x01:
            self.place = self.line_start(place)
        elif byte == 0x05:
            self.place = self.line_end(place)
        elif byte == 0x10:
            self.up()
        elif byte == 0x0E:
            self.down()
        elif byte == 0x00:
            self.mark = place
        elif byte == 0x17:
            self.cut()
        elif byte == 0x19:
            if self.cuts:
                self.replace(place, place, self.cuts[-1], place + len(self.cuts[-1]))
        elif byte == 0x14:
            self.cuts = self.cuts[:-1]
        elif byte == 0x15:
            self.undo()
        elif byte == 0x0C:
            self.revise(self.texts[-1], len(self.texts) - 1, place)

    def frame(self):
        text, place = self.texts[-1], self.place
        line, column = text.count(b"\n", 0, place), place - self.line_start(place)
        first, left = max(line - ABOVE, 0), column // COLUMNS * COLUMNS
        rows = (text.split(b"\n")[first : first + ROWS] + [b""] * ROWS)[:ROWS]
        shown = b"".join(
            bytes(b if 0x20 <= b <= 0x7E else 0x3F for b in row[left : left + COLUMNS]) + b"\r\n" for row in rows
        )
        message = f" {self.message}" if self.message else ""
        status = f"rev {len(self.texts) - 1} byte {place} of {len(text)}{message}"
        cursor = f"\x1b[{line - first + 1};{column - left + 1}H"
        return b"\x1b[2J\x1b[H" + shown + status.encode() + cursor.encode()


# ---- What is typed

KEYS = [0, 1, 2, 4, 5, 6, 8, 10, 13, 14, 16, 20, 21, 23, 25, 12, 127, 97, 98, 32, 9]
MOVES = [b"\x01", b"\x02", b"\x05", b"\x06", b"\x0e", b"\x10"]


def random_text(chance):
    alphabet = chance.choice([b"ab\n", b"x", b"xy z\n\t", bytes(range(256))])
    return bytes(chance.choice(alphabet) for _ in range(chance.randrange(chance.choice([3, 100, 2000]))))


def random_keys(chance, most):
    picked = bytes(chance.choice(KEYS) if chance.random() < 0.95 else chance.randrange(256) for _ in range(chance.randrange(most)))
    return picked.replace(SAVE, b"s").replace(LEAVE, b"l")


def few_keys(chance):
    return random_text(chance), random_keys(chance, 120)


def many_cuts(chance):
    """More cut spans than are kept, and then pastes and drops down to the first one."""
    keys = b""
    for _ in range(2 * CUTS + chance.randrange(8)):
        keys += b"abc de\n"[: chance.randrange(2, 8)] + chance.choice([b"\x02", b"\x01\x06", b"\x10"]) + MARK
        keys += b"".join(chance.choice(MOVES) for _ in range(chance.randrange(1, 4))) + CUT
    return random_text(chance), keys + b"".join(chance.choice([PASTE, DROP, PASTE + DROP, b"x"]) for _ in range(60))


def many_revisions(chance):
    """Hundreds of keys, most of which change the text."""
    keys = [*KEYS, *b"abcdefgh \n" * 4]
    return random_text(chance), bytes(chance.choice(keys) for _ in range(chance.randrange(400, 900)))


def many_lines(chance):
    """A file of thousands of lines, and ways over it."""
    lines = [b"word " * chance.randrange(30) + b"x" * chance.randrange(3) for _ in range(chance.randrange(2000, 5000))]
    keys = b""
    for _ in range(chance.randrange(3, 12)):
        keys += chance.choice(MOVES) * chance.randrange(60) + random_keys(chance, 12)
    return b"\n".join(lines), keys


def long_lines(chance):
    """Lines of no byte up to 200,000, ways over them, breaks typed and erased at their borders, spans cut there and put in elsewhere, and all these undone."""
    widths = [chance.choice([0, 1, 80, 600, 4_096, 4_097, 65_535, 65_536, 70_000, 200_000]) for _ in range(chance.randrange(2, 30))]
    lines = [bytes([chance.choice(b"abc ")]) * width for width in widths]
    borders = [b"\x05\n", b"\x01\n", b"\x01\x7f", b"\x05\x04", b"\x05a", b"\x01b", b"\x02\x02\n", b"\x06\x06\n", b"\x06c\x7f", PASTE]
    cuts = [MARK + move * 3 + CUT for move in (b"\x02", b"\x06")] + [LINE_START + MARK + b"\x0e" + CUT, LINE_END + MARK + b"\x06\x06" + CUT + PASTE]
    undone = [UNDO, UNDO * 4, *(before + UNDO for before in (b"a", b"\n", b"\x7f", PASTE, *cuts))]
    keys = b""
    for _ in range(chance.randrange(4, 24)):
        keys += chance.choice([chance.choice(MOVES) * chance.randrange(1, 9), *map(chance.choice, (borders, cuts, undone)), random_keys(chance, 4)])
    return b"\n".join(lines), keys


KINDS = {few_keys: 80, many_cuts: 8, many_revisions: 6, many_lines: 6, long_lines: 3}


# ---- A run, and what comes of it


class Room:
    """A folder with an image, a file to edit, if any, and the program that is asked about them."""

    def __init__(self, program, folder, text):
        self.program, self.folder, self.sources = program, folder, [] if text is None else [text]
        self.image, self.files = os.path.join(folder, "image"), []
        if text is not None:
            self.files = [self.put("file", text)]

    def run(self, command, *words, keys=b""):
        words = [self.program, command, self.image, *words, *self.files]
        done = subprocess.run(words, input=keys, capture_output=True, check=False)
        return done.returncode, done.stdout, done.stderr

    def apply(self, script):
        """The image of the session that a script makes."""
        done = subprocess.run([self.program, "apply", self.put("script", script), *self.files], capture_output=True, check=False)
        return done.returncode, done.stdout, done.stderr

    def put(self, name, data):
        path = os.path.join(self.folder, name)
        with open(path, "wb") as file:
            file.write(data)
        return path

    def saved(self):
        """The bytes of the image, or nothing where there is none."""
        if not os.path.exists(self.image):
            return None
        with open(self.image, "rb") as file:
            return file.read()

    def save(self, data):
        self.put("image", data)


def typed(plain, keys, refusals=None):
    """The frames that come of these keys, of which some are known to be refused, by their number from the end."""
    frames = [plain.frame()]
    for k, byte in enumerate(keys):
        plain.key(byte, (refusals or {}).get(k - len(keys)))
        frames.append(plain.frame())
    return b"".join(frames)


def image_fault(room, data, plain):
    """What is wrong with an image that was saved, or nothing."""
    line = verify.line(data, room.sources)
    if not line.startswith(f"accepted {len(plain.texts)} revisions "):
        return f"the second checker answers {line!r} of the image"
    image = verify.checked(data, room.sources)
    if image.version != 2 or verify.all_texts(image, room.sources) != plain.texts:
        return "the image has another version or other texts"
    if not all(verify.denotes(image, room.sources, image.revisions[k].root, text) for k, text in enumerate(plain.texts)):
        return "a root of the image has another text"
    if room.run("check") != (0, f"{line}\n".encode(), b""):
        return f"check answers {room.run('check')} for {line!r}"
    if room.run("migrate") != (0, data, b""):
        return "the image is written anew as another one"
    for k, text in enumerate(plain.texts):
        if room.run("show", str(k)) != (0, text, b""):
            return f"revision {k} is shown as another text"
    return None


# What an image does not replace.
NO_IMAGE = b"no image"


def older_image(chance, room):
    """What stands where the image will be: nothing, no bytes, what is left of an image, more bytes than a session has, or no image."""
    older = chance.choice([None, None, b"", b"CORDSESS", b"CORDSESS" + bytes(1 << 20), NO_IMAGE])
    if older is not None:
        room.save(older)
    return older


def without_kept(room, older, answer, is_kept):
    """An answer without the line on an image that was replaced, where that is kept by another name, which is taken away."""
    name = f"{os.path.realpath(room.image)}.saved-1"
    if not is_kept:
        return answer
    with open(name, "rb") as file:
        is_whole = file.read() == older
    os.remove(name)
    line = f"the image that was there is kept as {name}\n".encode()
    return (answer[0], answer[1], answer[2].removesuffix(line) if is_whole and answer[2].endswith(line) else b"nothing is kept")


def run(program, seed):
    """What chance typed, whether a cut span was dropped, and what is wrong with the run, or nothing."""
    chance = random.Random(seed)
    kind = chance.choices(list(KINDS), KINDS.values())[0]
    text, keys = kind(chance)
    with tempfile.TemporaryDirectory() as folder:
        room = Room(program, folder, text if chance.random() < 0.7 or kind in (many_lines, long_lines) else None)
        older, end = older_image(chance, room), chance.choice([SAVE, SAVE, LEAVE, b""])
        plain = Plain(room.sources[0] if room.sources else b"")
        wanted = typed(plain, keys)
        answer = room.run("edit", keys=keys + end)
        answer = without_kept(room, older, answer, older and end == SAVE and room.saved() != older)
        fault = None
        if older == NO_IMAGE:
            if answer != (1, b"", b"refused C1(I3)\n") or room.saved() != older:
                fault = f"a file that is no image: status {answer[0]}, {answer[2]!r}"
        elif answer != (0, wanted, b""):
            fault = f"other frames: status {answer[0]}, {answer[2]!r}"
        elif end != SAVE and room.saved() != older:
            fault = "an image was written without Save"
        elif end == SAVE:
            fault = image_fault(room, room.saved(), plain) or onto_faults(room, chance)
        note = f"run {seed}, {kind.__name__}: {fault}" if fault else None
        return kind.__name__, plain.dropped, len(plain.texts), note


# ---- Sessions that are gone on from

LONGEST_MADE = 1 << 16


def reopened(image, sources):
    """What the editor holds that goes on from an image: its texts, and what undo leads back to, by its commands alone; or where it has no revision, the
    text with which a session begins. It stands at the first byte, without a mark or a cut span."""
    plain, priors = Plain(sources[0] if sources else b""), []
    for revision in image.revisions:
        if revision.command in (verify.NEW, verify.OPEN):
            priors.append(None)
        else:
            priors.append(priors[revision.r] if revision.command == verify.BACK else revision.r)
    if priors:
        plain.texts, plain.priors = verify.all_texts(image, sources), priors
    return plain


def onto_fault(room, chance):
    """What is wrong with a session that goes on from the image that stands there, by its name or by another one, or nothing."""
    older = room.saved()
    plain = reopened(verify.checked(older, room.sources), room.sources)
    undone = bytes(chance.choice(b"\x15\x15\x15\x15ab\x05") for _ in range(chance.randrange(20)))
    keys, end = chance.choice([random_keys(chance, 60), undone, undone]), chance.choice([SAVE, SAVE, LEAVE, b""])
    wanted = typed(plain, keys)
    begun = chance.choice([room.image, room.put("older", older)])
    answer = room.run("edit", "--onto", begun, keys=keys + end)
    answer = without_kept(room, older, answer, begun != room.image and end == SAVE and room.saved() != older)
    if answer != (0, wanted, b""):
        return f"other frames behind an image: status {answer[0]}, {answer[2]!r}"
    if end != SAVE:
        return None if room.saved() == older else "an image was written without Save"
    return image_fault(room, room.saved(), plain) or front_fault(older, room.saved())


def onto_faults(room, chance):
    """What is wrong with sessions that go on one from the other, or nothing."""
    for _ in range(chance.choice([1, 1, 2, 3])):
        fault = onto_fault(room, chance)
        if fault:
            return fault
    return None


def run_scripted(program, seed):
    """The same of sessions that go on from one that a script made."""
    chance = random.Random(f"script {seed}")
    text = random_text(chance) if chance.random() < 0.7 else None
    with tempfile.TemporaryDirectory() as folder:
        room = Room(program, folder, text)
        session = Session(room.sources)
        script = b"\n".join(lines_of(chance, session, chance.randrange(chance.choice([2, 12, 40]))))
        if max(map(len, session.texts), default=0) > LONGEST_MADE:
            return "a script of long texts", 0, 0, None
        status, image, told = room.apply(script)
        room.save(image)
        fault = f"a script: status {status}, {told!r}" if status else onto_faults(room, chance)
        return "a script", 0, len(session.texts), f"run {seed}, behind a script: {fault}" if fault else None


# ---- Images whose every byte is known


def worked(name, changes):
    """A worked image in version 2, with some bytes changed."""
    with open(os.path.join(TOP, "tests/vectors", f"{name}.hex"), encoding="ascii") as file:
        data = bytearray.fromhex(file.read())
    for place, value in {11: 2, **changes}.items():
        data[place] = value
    return bytes(data)


def known_images():
    """Keys, the file that they are typed over, if any, and the image: worked images of a Leaf row and a mark, and of the byte a instead of abc."""
    yield b"", None, worked("new_alone", {})
    yield b"", b"abc", worked("bytes_row_over_a_source", {81: 1, 136: verify.LEAF})
    yield b"a", None, worked("one_insert", {39: 1, 55: 1, 175: 1, 199: 1})[:-2]
    yield b"a\x08", None, worked("delete_all", {39: 1, 55: 1, 175: 1, 231: 1, 255: 1})[:-2]


def known(program):
    """What is wrong with images whose every byte is known."""
    found = []
    for keys, text, wanted in known_images():
        with tempfile.TemporaryDirectory() as folder:
            room = Room(program, folder, text)
            room.run("edit", keys=keys + SAVE)
            if room.saved() != wanted:
                found.append(f"the image of the keys {keys!r} has other bytes")
    return found


# ---- Sessions by hand

TWO_OF_ONE = b'new\ninsert 0 0 "abc"\ninsert 1 0 "x"\ninsert 1 3 "y"\n'


def known_sessions():
    """A script, if a session begins by one, the file that it is made over, if any, the keys of each session that goes on from the one before, how the
    last frame ends, and the texts in the end. Undo follows the commands: from `abcy` to `abc`, of which `y` was made, and not to `xabc`."""
    yield None, None, [b"ab", b"c\x15", b"\x15\x15"], b"rev 6 byte 0 of 0\x1b[1;1H", [b"", b"a", b"ab", b"cab", b"ab", b"a", b""]
    yield TWO_OF_ONE, None, [b"\x15"], b"rev 4 byte 0 of 3\x1b[1;1H", [b"", b"abc", b"xabc", b"abcy", b"abc"]
    yield TWO_OF_ONE, None, [b"\x15\x15\x15"], b"rev 5 byte 0 of 0\x1b[1;1H", [b"", b"abc", b"xabc", b"abcy", b"abc", b""]
    yield TWO_OF_ONE, None, [b"\x15", b"\x15\x15"], b"rev 5 byte 0 of 0\x1b[1;1H", [b"", b"abc", b"xabc", b"abcy", b"abc", b""]
    yield b"", b"abc", [b""], b"rev 0 byte 0 of 3\x1b[1;1H", [b"abc"]
    yield b"", None, [b"", b"z\x15"], b"rev 2 byte 0 of 0\x1b[1;1H", [b"", b"z", b""]


def known_onto(program):
    """What is wrong with sessions by hand."""
    found = []
    for script, text, parts, end, texts in known_sessions():
        with tempfile.TemporaryDirectory() as folder:
            room = Room(program, folder, text)
            if script is not None:
                room.save(room.apply(script)[1])
            for keys in parts:
                words = ["--onto", room.image] if room.saved() is not None else []
                answer = room.run("edit", *words, keys=keys + SAVE)
            image = verify.checked(room.saved(), room.sources)
            if answer[0] or not answer[1].endswith(end) or verify.all_texts(image, room.sources) != texts:
                found.append(f"behind {script or b'nothing'!r}, the keys {parts}: status {answer[0]}, {answer[1][-40:]!r}")
    return found


# ---- The refusals that a long session meets

DOUBLED = LINE_START + MARK + LINE_END + CUT + PASTE + PASTE


def long_sessions():
    """Keys over a file of one byte again and again, the key that ends them, and the keys that are refused, by their number from the end, with
    their messages. A text of 40 bytes doubled is one of as many pieces as it was doubled to. A balance makes a node less than it has
    pieces, and a row a piece: one of 2^21 pieces is too many; of 2^20 pieces the sixteenth has too few nodes left, of 2^19 the
    thirty-second too few rows, and their images are too large for the second checker. The text that is too long is found by the
    editor of plain lists too."""
    yield 1 << 20, 11 * DOUBLED + b"x", SAVE, {}
    yield 40, 21 * DOUBLED + BALANCE + b"\x02", SAVE, {-2: "E8"}
    yield 40, 20 * DOUBLED + 16 * BALANCE + b"\x02", LEAVE, {-2: "E7"}
    yield 40, 19 * DOUBLED + 32 * BALANCE + b"\x02", LEAVE, {-2: "E6"}
    yield 0, ((1 << 20) - 1) * BALANCE + b"\x0c\x02", SAVE, {-2: "E5"}


def long_session(program, size, keys, end, refusals):
    """What is wrong with a long session, or nothing. Its texts are compared by their lengths alone."""
    with tempfile.TemporaryDirectory() as folder:
        room = Room(program, folder, b"x" * size)
        plain = Plain(Same(ord("x"), size))
        wanted = typed(plain, keys, refusals)
        if room.run("edit", keys=keys + end) != (0, wanted, b""):
            return f"a long session over {size} bytes has other frames"
        data = room.saved()
        if end != SAVE:
            return None if data is None else f"a long session over {size} bytes is saved without Save"
        line = verify.line(data, room.sources)
        if not line.startswith("accepted ") or room.run("check") != (0, f"{line}\n".encode(), b""):
            return f"the image of a long session over {size} bytes: {line!r}"
        image = verify.image_of(data)
        if [image.length(revision.root) for revision in image.revisions] != [len(text) for text in plain.texts]:
            return f"the image of a long session over {size} bytes has texts of other lengths"
        return None


def batch(given):
    return run(*given)


def batch_scripted(given):
    return run_scripted(*given)


def main():
    runs = int(sys.argv[1]) if len(sys.argv) > 1 else 1000
    program = sys.argv[2] if len(sys.argv) > 2 else PROGRAM
    first = int(sys.argv[3]) if len(sys.argv) > 3 else 0
    found, kinds, dropped, revisions = known(program) + known_onto(program), collections.Counter(), 0, 0
    seeds = [(program, seed) for seed in range(first, first + runs)]
    scripted = seeds[: -(-runs // 4)]
    with multiprocessing.Pool() as pool:
        for results in pool.imap_unordered(batch, seeds), pool.imap_unordered(batch_scripted, scripted):
            for kind, spans, texts, fault in results:
                kinds[kind] += 1
                dropped += spans
                revisions += texts
                found += [fault] if fault else []
    tried = len(seeds) + len(scripted) + len(list(known_images())) + len(list(known_sessions()))
    if runs >= LONG_FROM:
        for session in long_sessions():
            fault = long_session(program, *session)
            tried, found = tried + 1, found + ([fault] if fault else [])
    for fault in found:
        print(fault)
    print("; ".join(f"{kind}: {count}" for kind, count in sorted(kinds.items())))
    print(f"{revisions} revisions; {dropped} cut spans dropped by a seventeenth")
    print(f"{tried - len(found)} passed, {len(found)} failed")
    return len(found) != 0


if __name__ == "__main__":
    sys.exit(main())
