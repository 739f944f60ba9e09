#!/usr/bin/env python3
"""Has the built cordkit apply scripts that chance writes, and compares with a session of plain bytes, written from docs/SCRIPTS.md alone: which line is
refused, and why; or an image that keeps the rules of the second checker, in which every revision has its command and its text. What chance
writes: all commands, with comments, blanks, line ends of both kinds, bytes written in every way, and leading zeros; lines that are no command
or are refused, for several reasons at once; texts at the limit of what a command takes; and scripts of which some bytes were changed. Of a line that
is no command `--explain` has to say why.

Where the program has `log`, it prints the script of each of these images, and of images that chance makes and of the worked ones; that one is
applied again, and has the same texts. Where it has none, that is told.

Usage: tests/random_scripts.py [RUNS [PROGRAM [FIRST]]]; FIRST is the number of the first run. From 500 runs on scripts of a million lines and
the limits that a long one meets are tried too. The last line is 'N passed, M failed'.
"""

import collections
import multiprocessing
import os
import random
import re
import subprocess
import sys
import tempfile

from made_images import made
from second_checker import PROGRAM, TOP, verify

LONGEST, MOST_BYTES, MOST_CHANGES = (1 << 40) - 1, 65536, 4096
LONG_FROM = 500
# `log --brief` prints so many bytes of a text.
BRIEF = 60
# A longer text is not made here.
LONGEST_MADE = 1 << 22

# The words behind each name: a revision or source, a place or length, a byte, a text; of `many` the last three again and again.
SHAPES = {
    b"new": "", b"open": "r", b"insert": "rpt", b"delete": "rpp", b"replace": "rppt", b"paste": "rprpp",
    b"join": "rr", b"cut": "rpp", b"fill": "rpbp", b"back": "r", b"balance": "r", b"many": "rppt",
}  # fmt: skip
BELOW = {"r": 1 << 32, "p": 1 << 64, "b": 256}


class Refused(Exception):
    """A line is not taken, for this reason."""


class TooLong(Exception):
    """A text is too long to be made here."""


# ---- What a line says

WORD = re.compile(rb'[ \t\r]*(?:("(?:[\t !#-\[\]-~\x80-\xff]|\\[ntr\\"]|\\x[0-9a-fA-F]{2})*")|([^ \t\r#"][^ \t\r#]*))(?=[ \t\r#]|\Z)')
END = re.compile(rb"[ \t\r]*(?:#.*)?", re.S)
ESCAPE = re.compile(rb"\\(?:x(..)|(.))")
SHORT = {b"n": b"\n", b"t": b"\t", b"r": b"\r", b"\\": b"\\", b'"': b'"'}


def unescaped(found):
    return bytes([int(found[1], 16)]) if found[1] else SHORT[found[2]]


def words_of(line):
    """The words of a line, each as it is spelled."""
    words, place = [], 0
    while not END.fullmatch(line, place):
        found = WORD.match(line, place)
        if not found:
            raise Refused("P")
        words.append(found[1] or found[2])
        place = found.end()
    return words


def value_of(word, kind):
    if (kind == "t") != word.startswith(b'"'):
        raise Refused("P")
    if kind == "t":
        return ESCAPE.sub(unescaped, word[1:-1])
    if not word.isdigit() or int(word) >= BELOW[kind]:
        raise Refused("P")
    return int(word)


def command_in(line):
    """The name and the values of a line's command, or nothing where it has no words."""
    words = words_of(line)
    if not words:
        return None
    name, given = words[0], words[1:]
    kinds = SHAPES.get(name)
    if kinds is None:
        raise Refused("P")
    if name == b"many":
        kinds = kinds[0] + kinds[1:] * (max(len(given) - 1, 0) // 3)
    if len(kinds) != len(given):
        raise Refused("P")
    return name, [value_of(word, kind) for word, kind in zip(given, kinds)]


# ---- What it does


class Session:
    """Texts as plain bytes."""

    def __init__(self, sources):
        self.sources, self.texts, self.commands, self.splices = sources, [], [], 0

    def take(self, name, values):
        self.texts.append(self.text_of(name, values))
        self.commands.append((name, values))
        self.splices += len(values) // 3 if name == b"many" else 0

    def text_of(self, name, values):
        """The text of a command, or the first reason why it is refused."""
        changes = list(zip(values[1::3], values[2::3], values[3::3])) if name == b"many" else []
        if any(r >= len(self.texts) for r, kind in zip(values, SHAPES[name]) if kind == "r" and name != b"open"):
            raise Refused("E1")
        if name == b"many" and not 1 <= len(changes) <= MOST_CHANGES:
            raise Refused("E9")
        if name == b"new":
            return b""
        if name == b"open":
            if values[0] >= len(self.sources):
                raise Refused("E2")
            return self.sources[values[0]]
        text = self.texts[values[0]]
        if name != b"many":
            changes = self.changes_of(name, text, values[1:])
        return self.changed(name, text, changes)

    def changes_of(self, name, text, values):
        """What gives way in the text of a command, and what takes its place: bytes, or bytes again and again."""
        if name == b"insert":
            return [(values[0], 0, values[1])]
        if name == b"delete":
            return [(values[0], values[1], b"")]
        if name == b"replace":
            return [tuple(values)]
        if name == b"paste":
            p, q, i, n = values
            if i + n > len(self.texts[q]):
                raise Refused("E3")
            return [(p, 0, self.texts[q][i : i + n])]
        if name == b"join":
            return [(len(text), 0, self.texts[values[0]])]
        if name == b"cut":
            i, n = values
            if i + n > len(text):
                raise Refused("E3")
            return [(0, i, b""), (i + n, len(text) - i - n, b"")]
        if name == b"fill":
            p, c, n = values
            return [(p, 0, Again(c, n))]
        return []

    def changed(self, name, text, changes):
        hands_in = name in (b"insert", b"replace", b"many")
        if any(p + m > len(text) for p, m, _ in changes):
            raise Refused("E3")
        if name == b"many" and any(p >= q or p + m > q for (p, m, _), (q, _, _) in zip(changes, changes[1:])):
            raise Refused("E3")
        if hands_in and any(len(added) == 0 and (m == 0 or name == b"replace") for _, m, added in changes):
            raise Refused("E4")
        if name == b"many" and self.splices + len(changes) > 1 << 24:
            raise Refused("E10")
        sizes = [added.count if isinstance(added, Again) else len(added) for _, _, added in changes]
        length = len(text) + sum(sizes) - sum(m for _, m, _ in changes)
        if length > LONGEST or hands_in and max(sizes) > MOST_BYTES:
            raise Refused("E7(N1)")
        if length > LONGEST_MADE:
            raise TooLong
        pieces, end = [], 0
        for p, m, added in changes:
            pieces += [text[end:p], bytes(added)]
            end = p + m
        return b"".join([*pieces, text[end:]])


class Again:
    """So many of one byte."""

    def __init__(self, byte, count):
        self.byte, self.count = byte, count

    def __bytes__(self):
        return bytes([self.byte]) * self.count


def session_of(script, sources):
    """The session that a script makes, and why it is refused, if it is."""
    session = Session(sources)
    for number, line in enumerate(script.split(b"\n"), 1):
        try:
            command = command_in(line)
            if command:
                session.take(*command)
        except Refused as refused:
            code = str(refused)
            return session, f"refused {code[:-1]},{number})" if code.endswith(")") else f"refused {code}({number})"
    return session, None


# ---- How lines may be written

PRINTED = {10: b"\\n", 9: b"\\t", 13: b"\\r", 92: b"\\\\", 34: b'\\"'}


def printed_byte(byte):
    return PRINTED.get(byte) or (bytes([byte]) if 32 <= byte < 127 else b"\\x%02x" % byte)


PRINTED_BYTES = [printed_byte(byte) for byte in range(256)]


def printed(name, values, most=None):
    """The line as `log` prints it, with at most so many bytes of each text, and three dots where it has more."""
    words = [name]
    for value in values:
        if isinstance(value, bytes):
            dots = b"..." if most is not None and len(value) > most else b""
            words.append(b'"' + b"".join(PRINTED_BYTES[byte] for byte in value[:most]) + b'"' + dots)
        else:
            words.append(b"%d" % value)
    return b" ".join(words)


def written_byte(chance, byte):
    ways = [b"\\x%02x" % byte, b"\\x%02X" % byte]
    if byte == 9 or byte >= 32 and byte not in b'"\\\x7f':
        ways += [bytes([byte])] * 6
    return chance.choice(ways + [PRINTED[byte]] * 3 if byte in PRINTED else ways)


def written(chance, name, values):
    """The line in one of the ways in which it may be written."""
    blanks = [b" ", b" ", b" ", b"\t", b"  ", b" \r", b" \t "]
    line = chance.choice([b"", b"", b"", b" ", b"\t\t"]) + name
    for value in values:
        if isinstance(value, bytes):
            plain = chance.random() < 0.5 or len(value) > 1000
            word = b'"' + b"".join(PRINTED_BYTES[byte] if plain else written_byte(chance, byte) for byte in value) + b'"'
        else:
            word = b"0" * chance.choice([0, 0, 0, 0, 1, 25]) + b"%d" % value
        line += chance.choice(blanks) + word
    return line + chance.choice([b"", b"", b"", b" ", b"\r", b"#", b" # a \"comment\" \\", b"\t#\xff\0 12"])


# ---- What chance writes


def random_bytes(chance, most):
    alphabet = chance.choice([b"ab", b"x y\n", b'"\\#\t\r\n', bytes(range(256))])
    return bytes(chance.choice(alphabet) for _ in range(chance.randrange(1, most)))


def random_changes(chance, size, most):
    changes, start = [], 0
    for _ in range(chance.randrange(1, most)):
        if start > size:
            break
        p = chance.randrange(start, min(size, start + 9) + 1)
        m = chance.randrange(min(size - p, 5) + 1)
        changes += [p, m, random_bytes(chance, 9) if not m or chance.random() < 0.7 else b""]
        start = p + max(m, 1)
    return changes


def random_command(chance, session):
    """A command that is taken."""
    count = len(session.texts)
    name = chance.choice(list(SHAPES))
    if name == b"open" and session.sources:
        return name, [chance.randrange(len(session.sources))]
    if name in (b"new", b"open") or not count:
        return b"new", []
    r, q = (max(chance.randrange(count), chance.randrange(count)) for _ in range(2))
    size = len(session.texts[r])
    p = chance.randrange(size + 1)
    n = chance.randrange(size - p + 1)
    i = chance.randrange(len(session.texts[q]) + 1)
    return name, {
        b"insert": lambda: [r, p, random_bytes(chance, 30)],
        b"delete": lambda: [r, p, n],
        b"replace": lambda: [r, p, n, random_bytes(chance, 30)],
        b"paste": lambda: [r, p, q, i, chance.randrange(len(session.texts[q]) - i + 1)],
        b"join": lambda: [r, q],
        b"cut": lambda: [r, p, n],
        b"fill": lambda: [r, p, chance.randrange(256), chance.randrange(40)],
        b"back": lambda: [r],
        b"balance": lambda: [r],
        b"many": lambda: [r, *random_changes(chance, size, 20)],
    }[name]()


def edges(kind, count, size):
    """Values at the edge of what a session of so many revisions takes, for a text of this size."""
    if kind == "r":
        return [0, count - 1, count, 2**32 - 1]
    if kind == "p":
        return [0, size, size + 1, LONGEST - size, LONGEST + 1 - size, 2**63, 2**64 - 1]
    return [0, 255] if kind == "b" else [b"", bytes(MOST_BYTES), bytes(MOST_BYTES + 1)]


def spoiled(chance, session, name, values):
    """The command with some of its values at the edge of what is taken, or past it."""
    values, count = list(values), len(session.texts)
    size = len(session.texts[values[0]]) if values and values[0] < count else 0
    for _ in range(chance.randrange(1, 4)):
        kinds = SHAPES[name] if name != b"many" else "r" + "ppt" * (len(values) // 3)
        if name == b"many" and chance.random() < 0.3:
            values = values[:1] + random_changes(chance, size, 3) * chance.choice([0, 1, 2, MOST_CHANGES + 1])
        elif kinds:
            k = chance.randrange(len(kinds))
            past = kinds[k] in BELOW and chance.random() < 0.05
            values[k] = BELOW[kinds[k]] if past else chance.choice(edges(kinds[k], count, size))
    return values


NO_COMMANDS = [
    b"insert 0 0 abc", b'insert 0 0 "abc', b'insert 0 0 "a"b', b'insert 0 0 "\\q"', b'insert 0 0 "\\x4"', b'insert 0 0 "a\rb"', b'insert 0 0 "\x7f"',
    b"New", b"new 1", b"newer", b"back", b"back -1", b"back +1", b"back 1.0", b"back 0x1", b"back 1,", b'back "1"', b"join 0", b"delete 0 0", b"cut 0 0 0 0",
    b"many 0 0", b'many 0 0 0 "a" 1', b"many", b"\0", b"new\0", b"new\x0b", b"\xc2\xa0new", b'"new"', b"open", b"fill 0 0 0", b"\\n", b"1 2 3", b"back 1 1",
]  # fmt: skip


def lines_of(chance, session, count):
    """So many lines that are taken, with some between them that say nothing."""
    lines = []
    while len(session.texts) < count:
        if chance.random() < 0.15:
            lines.append(chance.choice([b"", b" ", b"\t\r", b"# a comment", b"  #", b"#\xff\""]))
            continue
        command = random_command(chance, session)
        try:
            session.take(*command)
        except TooLong:
            continue
        lines.append(written(chance, *command))
    return lines


def taken_lines(chance, session):
    return lines_of(chance, session, chance.randrange(chance.choice([2, 10, 40])))


def refused_lines(chance, session):
    """A line that is no command, or a command at an edge, with lines before and behind it."""
    before = lines_of(chance, session, chance.randrange(12))
    while True:
        if chance.random() < 0.2:
            line = chance.choice(NO_COMMANDS)
            break
        name, values = random_command(chance, session)
        values = spoiled(chance, session, name, values)
        line = written(chance, name, values)
        try:
            session.take(*command_in(line))
            break
        except Refused:
            break
        except TooLong:
            pass
    return [*before, line, *lines_of(chance, session, len(session.texts) + chance.randrange(4))]


def long_lines(chance, session):
    """Texts of as many bytes as a command takes, and of one more; as many changes as it takes, and one more."""
    text = bytes(chance.choice(b"abc\n\0\xff") for _ in range(MOST_BYTES))
    lines = [b"new", printed(b"insert", [0, 0, text])]
    for command in [b"new", []], [b"insert", [0, 0, text]]:
        session.take(*command)
    count = MOST_CHANGES + chance.randrange(2)
    changes = [value for k in range(count) for value in (2 * k, 1, b"X" * chance.randrange(3))]
    more = chance.choice([0, 0, 1])
    long_changes = [0, 1, text, 9, 0, text[more:] + b"x" * 2 * more]
    for name, values in [(b"many", [1, *changes]), (b"many", [1, *long_changes]), (b"replace", [1, 5, 9, text + b"x" * more]), (b"insert", [1, 0, text])]:
        lines.append(written(chance, name, values))
        try:
            session.take(name, values)
        except Refused:
            break
    return lines


def changed_lines(chance, session):
    """Lines that are taken, of which some bytes were changed, left out or doubled."""
    script = bytearray(b"\n".join(lines_of(chance, session, chance.randrange(1, 12))))
    for _ in range(chance.randrange(1, 4)):
        k = chance.randrange(len(script) + 1)
        new = bytes(chance.choice(b'  \t\r\n#"\\xn0129af') for _ in range(chance.randrange(2))) or bytes([chance.randrange(256)] * chance.randrange(2))
        script[k : k + chance.randrange(2)] = new
    return [bytes(script)]


KINDS = {taken_lines: 45, refused_lines: 30, changed_lines: 23, long_lines: 2}


def random_script(chance, sources):
    kind = chance.choices(list(KINDS), KINDS.values())[0]
    lines = kind(chance, Session(sources))
    end = chance.choice([b"\n", b"\n", b"\r\n"])
    return kind.__name__, end.join(lines) + chance.choice([b"", end])


# ---- A run, and what comes of it


class Room:
    """A folder with the files of the sources, and the program that is asked about scripts and images."""

    def __init__(self, program, folder, sources):
        self.program, self.folder, self.sources = program, folder, sources
        self.image = os.path.join(folder, "image")
        self.files = [self.put(f"source{s}", source) for s, source in enumerate(sources)]

    def put(self, name, data):
        path = os.path.join(self.folder, name)
        with open(path, "wb") as file:
            file.write(data)
        return path

    def run(self, command, *words, given=b""):
        words = [self.program, command, *words, *self.files]
        done = subprocess.run(words, input=given, capture_output=True, check=False)
        return done.returncode, done.stdout, done.stderr

    def apply(self, script):
        return self.run("apply", "/dev/stdin", given=script)

    def save(self, data):
        self.put("image", data)


def words_in(image, revision):
    """The name and the values that an image's revision has, its bytes in place of their place in the pool."""
    r, q, p, m, a, n = revision.r, revision.q, revision.p, revision.m, revision.a, revision.n
    added = image.pool[a : a + n]
    changes = [value for splice in revision.splices for value in (splice.p, splice.m, image.pool[splice.a : splice.a + splice.n])]
    return [
        (b"new", []), (b"open", [q]), (b"insert", [r, p, added]), (b"delete", [r, p, n]), (b"replace", [r, p, m, added]), (b"paste", [r, p, q, a, n]),
        (b"join", [r, q]), (b"cut", [r, a, n]), (b"fill", [r, p, a, n]), (b"back", [r]), (b"balance", [r]), (b"many", [r, *changes]),
    ][revision.command - 1]  # fmt: skip


def log_of(image, most=None):
    """The script of an image as `log` prints it, with at most so many bytes of each text."""
    lines = []
    for k, revision in enumerate(image.revisions):
        depth = 0 if revision.root == verify.NIL else image.nodes[revision.root].depth
        balanced = ", balanced" if revision.mark else ""
        note = f" # {k}: {image.length(revision.root)} bytes, depth {depth}{balanced}, {revision.row_count} rows\n"
        lines.append(printed(*words_in(image, revision), most) + note.encode())
    return b"".join(lines)


def image_fault(room, data, texts, commands):
    """What is wrong with an image that a script made, or nothing."""
    line = verify.line(data, room.sources)
    if not line.startswith(f"accepted {len(texts)} revisions "):
        return f"the second checker answers {line!r} of the image"
    image = verify.checked(data, room.sources)
    if image.version != 2 or verify.all_texts(image, room.sources) != texts:
        return "the image has another version or other texts"
    if commands is not None and [words_in(image, revision) for revision in image.revisions] != commands:
        return "the image has other commands"
    if not all(verify.denotes(image, room.sources, revision.root, text) for revision, text in zip(image.revisions, texts)):
        return "a root of the image has another text"
    room.save(data)
    if room.run("check", room.image) != (0, f"{line}\n".encode(), b""):
        return f"check answers {room.run('check', room.image)} for {line!r}"
    for k in {0, len(texts) // 2, len(texts) - 1} & set(range(len(texts))):
        if room.run("show", room.image, str(k)) != (0, texts[k], b""):
            return f"revision {k} is shown as another text"
    return None


def log_fault(room, data, is_own=False):
    """What is wrong with the log of an image and what is made of it, or nothing. A session's own image is made again byte by byte."""
    room.save(data)
    line = verify.line(data, room.sources)
    answer = room.run("log", room.image)
    if not line.startswith("accepted "):
        return None if answer == (1, b"", f"{line}\n".encode()) else f"log answers {answer} for {line!r}"
    image = verify.checked(data, room.sources)
    if answer != (0, log_of(image), b""):
        return f"log prints {answer[1][:200]!r}, status {answer[0]}, {answer[2]!r}"
    long = next((k for k, (_, values) in enumerate(words_in(image, it) for it in image.revisions) if longest_in(values) > MOST_BYTES), None)
    status, again, told = room.apply(answer[1])
    if long is not None:
        return None if (status, again, told) == (1, b"", f"refused E7(N1,{long + 1})\n".encode()) else f"what is too long is answered by {told!r}"
    if (status, told) != (0, b"") or is_own and again != data:
        return f"apply of the log: status {status}, {told!r}, {'the same' if again == data else 'another'} image"
    return again_fault(room, image, again) or brief_fault(room, data, image)


def again_fault(room, image, again):
    """What is wrong with the image that was made of an image's log, or nothing. Texts that are too long to be made here are compared by their lengths."""
    commands = [words_in(image, revision) for revision in image.revisions]
    lengths = [image.length(revision.root) for revision in image.revisions]
    if max(lengths, default=0) <= LONGEST_MADE:
        return image_fault(room, again, verify.all_texts(image, room.sources), commands)
    made_again = verify.checked(again, room.sources)
    same = commands == [words_in(made_again, revision) for revision in made_again.revisions]
    same = same and lengths == [made_again.length(revision.root) for revision in made_again.revisions]
    return None if same else "the image of the log has other commands or lengths"


def longest_in(values):
    return max((len(value) for value in values if isinstance(value, bytes)), default=0)


def brief_fault(room, data, image):
    """What is wrong with the brief log of an image whose log is right. Its first line that is not whole is no command."""
    room.save(data)
    answer = room.run("log", "--brief", room.image)
    if answer != (0, log_of(image, BRIEF), b""):
        return f"log --brief prints {answer[1][:200]!r}, status {answer[0]}, {answer[2]!r}"
    first = next((k for k, revision in enumerate(image.revisions, 1) if longest_in(words_in(image, revision)[1]) > BRIEF), None)
    if first and room.apply(answer[1]) != (1, b"", f"refused P({first})\n".encode()):
        return f"a brief log is applied: {room.apply(answer[1])}"
    return None


def has_log(program):
    with tempfile.TemporaryDirectory() as folder:
        room = Room(program, folder, [])
        room.save(b"")
        return room.run("log", room.image)[0] != 2


def reason_fault(room, script, refusal):
    """What is wrong with what --explain tells of a line that is no command, or nothing: it says why."""
    path, code = room.put("script", script), refusal.split(" ")[1]
    answer = room.run("apply", "--explain", path)
    front = f"{refusal}\n{code}: line {code[2:-1]} of {path} is no command: ".encode()
    says_why = answer[2].startswith(front) and answer[2].count(b"\n") == 2 and len(answer[2]) > len(front) + 1
    return None if says_why else f"it is explained by {answer}"


def run_script(given):
    """The kind of a script, how many revisions it made, and what is wrong with it, or nothing."""
    program, logs, seed = given
    chance = random.Random(seed)
    sources = [random_bytes(chance, 200) for _ in range(chance.randrange(3))]
    kind, script = random_script(chance, sources)
    try:
        session, refusal = session_of(script, sources)
    except TooLong:
        return "too long", 0, None
    with tempfile.TemporaryDirectory() as folder:
        room = Room(program, folder, sources)
        status, data, told = room.apply(script)
        fault = None
        if refusal:
            if (status, data, told) != (1, b"", f"{refusal}\n".encode()):
                fault = f"status {status}, {told!r}, for {refusal}"
            elif refusal.startswith("refused P"):
                fault = reason_fault(room, script, refusal)
        elif (status, told) != (0, b""):
            fault = f"status {status}, {told!r}"
        else:
            fault = image_fault(room, data, session.texts, session.commands)
            if logs and not fault:
                fault = log_fault(room, data, is_own=True)
        return f"{kind}, {'refused' if refusal else 'taken'}", len(session.texts), f"script {seed}, {kind}: {fault}" if fault else None


def run_image(given):
    program, seed = given
    image = made(random.Random(seed))
    data = b"".join(b"".join(section) for section in image.sections())
    with tempfile.TemporaryDirectory() as folder:
        fault = log_fault(Room(program, folder, image.sources), data)
    return "images", len(image.texts), f"image {seed}: {fault}" if fault else None


# ---- Worked images


def worked_images():
    """Each worked image that is accepted, with its sources."""
    sources = {"abc": b"abc", "ab": b"ab", "ramp": bytes(k % 256 for k in range(300))}
    for folder in ["tests/vectors", "tests/vectors/version2"]:
        with open(os.path.join(TOP, folder, "answers"), encoding="ascii") as file:
            for row in file:
                name, source, status, _ = row.split(";")
                if status == "0":
                    with open(os.path.join(TOP, folder, f"{name}.hex"), encoding="ascii") as spelled:
                        yield name, bytes.fromhex(spelled.read()), [sources[source]] if source else []


# ---- Scripts of a million lines

MOST_REVISIONS = 1 << 20


def typed_lines():
    """As many revisions as there may be: bytes typed in the middle of what was typed before, and the last text. The bytes of odd places in the order
    stand in front, and then the others from the last to the first."""
    count = MOST_REVISIONS - 1
    lines = [b"new", *(b'insert %d %d "%c"' % (k, k // 2, 97 + k % 26) for k in range(count))]
    letters = [97 + k % 26 for k in range(count)]
    return lines, bytes(letters[1::2] + letters[::2][::-1])


def doubled(times):
    return [b"new", b'insert 0 0 "%s"' % (b"x" * 40), *(b"join %d %d" % (k, k) for k in range(1, times + 1))]


def long_scripts():
    """Long scripts, and what refuses them. A text of 40 bytes doubled is one of as many pieces as it was doubled to. A balance makes a node less than it
    has pieces, and a row a piece: one of 2^21 pieces is too many; of 2^20 pieces the sixteenth has too few nodes left, of 2^19 the thirty-second too few
    rows. A text of 4,096 bytes that go one by one has no node."""
    typed, _ = typed_lines()
    yield [*typed, b"back 0"], f"refused E5({MOST_REVISIONS + 1})"
    yield [*doubled(21), b"balance 22"], "refused E8(24)"
    yield [*doubled(20), *[b"balance 21"] * 16], "refused E7(N3,38)"
    yield [*doubled(19), *[b"balance 20"] * 32], "refused E6(53)"
    each = b"many 1" + b"".join(b' %d 1 ""' % k for k in range(MOST_CHANGES))
    yield [b"new", b"fill 0 0 97 4096", *[each] * 4096, b'many 1 0 1 ""'], "refused E10(4099)"


def typing_fault(program, logs):
    lines, text = typed_lines()
    script = b"\n".join(lines) + b"\n"
    with tempfile.TemporaryDirectory() as folder:
        room = Room(program, folder, [])
        status, data, told = room.apply(script)
        if (status, told) != (0, b""):
            return f"a million lines: status {status}, {told!r}"
        room.save(data)
        if not room.run("check", room.image)[1].startswith(f"accepted {MOST_REVISIONS} revisions ".encode()):
            return "the image of a million lines is not accepted"
        if room.run("show", room.image, str(MOST_REVISIONS - 1)) != (0, text, b""):
            return "the last text of a million lines is another one"
        if logs:
            log = room.run("log", room.image)[1]
            if [line.rpartition(b" # ")[0] for line in log.split(b"\n")[:-1]] != lines or room.apply(log) != (0, data, b""):
                return "the log of a million lines is another script"
    return None


def long_fault(program, lines, refusal):
    with tempfile.TemporaryDirectory() as folder:
        answer = Room(program, folder, []).apply(b"\n".join(lines))
    return None if answer == (1, b"", f"{refusal}\n".encode()) else f"status {answer[0]}, {answer[2]!r}, for {refusal}"


def main():
    runs = int(sys.argv[1]) if len(sys.argv) > 1 else 1000
    program = os.path.abspath(sys.argv[2] if len(sys.argv) > 2 else PROGRAM)
    first = int(sys.argv[3]) if len(sys.argv) > 3 else 0
    logs = has_log(program)
    found, kinds, revisions, tried = [], collections.Counter(), 0, 0
    images = range(first, first + 3 * runs) if logs else []
    with multiprocessing.Pool() as pool:
        scripts = pool.imap_unordered(run_script, [(program, logs, seed) for seed in range(first, first + runs)])
        logged = pool.imap_unordered(run_image, [(program, seed) for seed in images])
        for results in scripts, logged:
            for kind, texts, fault in results:
                kinds[kind] += 1
                revisions += texts
                found += [fault] if fault else []
                tried += 1
    for name, data, sources in worked_images() if logs else []:
        with tempfile.TemporaryDirectory() as folder:
            fault = log_fault(Room(program, folder, sources), data)
        tried, found = tried + 1, found + ([f"{name}: {fault}"] if fault else [])
    if runs >= LONG_FROM:
        faults = [typing_fault(program, logs), *(long_fault(program, *script) for script in long_scripts())]
        tried, found = tried + len(faults), found + [fault for fault in faults if fault]
    for fault in found:
        print(fault)
    print("; ".join(f"{kind}: {count}" for kind, count in sorted(kinds.items())))
    print(f"{revisions} revisions")
    if not logs:
        print("LEFT OUT: the logs of these scripts and of random and worked images: the program has no log")
    print(f"{tried - len(found)} passed, {len(found)} failed")
    return len(found) != 0


if __name__ == "__main__":
    sys.exit(main())
