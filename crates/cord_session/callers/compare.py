#!/usr/bin/env python3
"""Gives the callers of the library the same random calls, and compares each answer with what plain lists give: sessions in each language, ropes and all
questions in those that have a wrapper. Each image that a caller saves is accepted by the second checker, bin/cordkit-verify, with the texts and the
commands that were given, and taken up again; where the built cordkit is named, it accepts each image too, and its `apply` of the same commands writes
the same bytes. Images of tests/vectors are taken up or refused as the second checker says. Each number out of its range has its code.

Usage: compare.py RUNS PROGRAM NAME=CALLER...: the callers by their names, c, cpp, rust and python; PROGRAM may be empty. The last line is
'N passed, M failed'.
"""

import os
import random
import subprocess
import sys
import tempfile

HERE = os.path.dirname(os.path.abspath(__file__))
TOP = os.path.dirname(os.path.dirname(os.path.dirname(HERE)))
sys.path.insert(0, os.path.join(TOP, "tests"))
sys.dont_write_bytecode = True

from going_on import refusal_of  # noqa: E402
from random_scripts import Refused, Session, TooLong, printed, random_bytes, random_command, spoiled, words_in  # noqa: E402
from second_checker import verify  # noqa: E402
from worked_images import worked  # noqa: E402

CODES = {"E1": 11, "E2": 12, "E3": 13, "E4": 14, "E9": 19, "E7(N1)": 31}
RANGE, NO_REVISION, NO_COMMAND, NO_ROPE, TOO_LONG, BAD_SPAN = 13, 11, 3, 39, 31, 35
EVERYBODY = ("c", "cpp", "rust", "python")
WRAPPED = ("cpp", "rust", "python")
FAR = [(1 << 32) - 1, 1 << 32, (1 << 64) - 1, 1 << 64]
LONGEST_TEXT, LONGEST_ROPE, AT_ONCE, LONGEST = 20000, 6000, 65536, (1 << 40) - 1
FUNCTIONS = {1: lambda p, k: p[0], 2: lambda p, k: (p[0] + k) % 256, 3: lambda p, k: p[k % len(p)]}


def spelled(data):
    return data.hex() or "-"


class Lines:
    """Lines of calls, each with what has to be answered, or a test of the answer, and who is given it."""

    def __init__(self, chance):
        self.chance, self.lines = chance, []

    def add(self, line, answer, callers=EVERYBODY):
        self.lines.append((line, answer, callers))


# ---- Questions


def below(text):
    """The first place of a pattern from a place on, as a search tells it."""
    return "none" if text < 0 else str(text)


def is_part(text, place, size):
    """Whether a read answers the bytes there, or the first of them."""
    wanted = text[place : place + size]

    def test(answer):
        got = bytes.fromhex(answer[2:].replace("-", ""))
        return answer.startswith("0 ") and wanted.startswith(got) and (got != b"" or wanted == b"")

    return test


def is_run(text, place, sources):
    """Whether a run has the bytes there, as far as they can be known without the pool."""

    def test(answer):
        code, kind, source, function, start, size = (int(word) for word in answer.split()[:6])
        pattern = bytes.fromhex(answer.split()[6].replace("-", ""))
        wanted = text[place : place + size]
        if code != 0 or size < 1 or len(wanted) != size:
            return False
        if kind == 2:
            return sources[source][start : start + size] == wanted
        return kind == 1 or bytes(FUNCTIONS[function](pattern, start + k) for k in range(size)) == wanted

    return test


def order(x, y):
    return (x > y) - (x < y)


def question(lines, owner, texts, sources):
    """A question about a text that there is, or is not."""
    chance, none = lines.chance, NO_REVISION if owner == "s" else NO_ROPE
    x = chance.randrange(len(texts)) if texts and chance.random() < 0.9 else len(texts) + chance.choice([0, 1, *FAR])
    text = texts[x] if x < len(texts) else None
    size = len(text) if text is not None else 0
    place = chance.choice([chance.randrange(size + 2), chance.randrange(size + 1), 0, size, *FAR[2:]])
    call = chance.choice(["len", "read", "text", "locate", "find", "chr", "rchr", "compare"])
    pattern = chance.choice([text[place : place + chance.randrange(1, 6)] if text else b"x", random_bytes(chance, 4), b""])
    byte = chance.choice(text) if text and chance.random() < 0.7 else chance.randrange(256)
    many = chance.randrange(1, 400)
    call, words, answer = {
        "len": lambda: ("len", "", lambda: f"0 {size}"),
        "read": lambda: ("read", f" {place} {many}", lambda: is_part(text, place, many)),
        "text": lambda: ("text", "", lambda: f"0 {spelled(text)}"),
        "locate": lambda: ("locate", f" {place}", lambda: is_run(text, place, sources) if place < size else str(RANGE)),
        "find": lambda: ("find", f" {place} {spelled(pattern)}", lambda: f"0 {below(text.find(pattern, place) if place <= size else -1)}"),
        "chr": lambda: ("chr", f" {place} {byte}", lambda: f"0 {below(text.find(bytes([byte]), min(place, size)))}"),
        "rchr": lambda: ("rchr", f" {place} {byte}", lambda: f"0 {below(text.rfind(bytes([byte]), 0, min(place, size) + 1))}"),
        "compare": lambda: compared(chance, texts, place, text, many),
    }[call]()
    in_c = owner == "s" and call in ("len", "read", "find")
    lines.add(f"{owner} {call} {x}{words}", str(none) if text is None else answer(), EVERYBODY if in_c else WRAPPED)


def compared(chance, texts, place, text, many):
    y = chance.randrange(len(texts)) if texts else 0
    other = texts[y] if texts else b""
    j = chance.randrange(len(other) + 2)
    return "compare", f" {place} {y} {j} {many}", lambda: f"0 {order(text[place : place + many], other[j : j + many])}"


# ---- Sessions


def are_sizes(session):
    """Whether these are the numbers of revisions and sources, and of bytes of a pool that has all that were handed in: it may have some twice."""
    front = f"0 {len(session.texts)} {len(session.sources)} "
    handed_in = sum(len(value) for _, values in session.commands for value in values if isinstance(value, bytes))
    return lambda answer: answer.startswith(front) and int(answer[len(front) :]) >= handed_in


def command_line(name, values):
    """A command as a call, or nothing where a word of it cannot be said."""
    if name == b"many":
        changes = list(zip(values[1::3], values[2::3], values[3::3]))
        taken = spelled(b"".join(text for _, _, text in changes))
        return " ".join(map(str, ["s many", values[0], taken, len(changes), *(word for p, m, text in changes for word in (p, m, len(text)))]))
    if name == b"fill" and values[2] > 255:
        return None
    return " ".join(["s", name.decode(), *(spelled(value) if isinstance(value, bytes) else str(value) for value in values)])


def command(lines, session, taken):
    """A command, which may be refused; where it is taken, its line of a script too."""
    name, values = random_command(lines.chance, session)
    if lines.chance.random() < 0.25:
        values = spoiled(lines.chance, session, name, values)
    line = command_line(name, values)
    if line is None or len(line) > 1 << 19:
        return
    try:
        if len(session.text_of(name, values)) > LONGEST_TEXT:
            return
        session.take(name, values)
        taken.append(printed(name, values))
        lines.add(line, f"0 {len(session.texts) - 1}")
    except Refused as refused:
        lines.add(line, str(CODES[str(refused)]))
    except TooLong:
        return


def wrong_command(lines, session):
    """A command that is none."""
    chance = lines.chance
    if chance.random() < 0.5:
        lines.add(f"s code {chance.choice([0, 13, 200, 255])}", str(NO_COMMAND), ("c", "cpp"))
    elif session.texts:
        lines.add(f"s many {chance.randrange(len(session.texts))} 616263 1 0 0 {chance.choice([0, 2, 4, (1 << 64) - 1])}", str(NO_COMMAND), ("c", "cpp", "rust"))


def session_lines(lines, session, count):
    """So many calls of a session; the script of the commands that were taken."""
    taken = []
    for _ in range(count):
        kind = lines.chance.random()
        if kind < 0.5 or not session.texts:
            command(lines, session, taken)
        elif kind < 0.55:
            wrong_command(lines, session)
        elif kind < 0.58:
            lines.add("s sizes", are_sizes(session), WRAPPED)
        else:
            question(lines, "s", session.texts, session.sources)
    return b"\n".join([*taken, b""])


def whole_session(chance):
    """A session from nothing, saved, taken up again and gone on with; its scripts up to there and on."""
    sources = [random_bytes(chance, 200) for _ in range(chance.randrange(3))]
    lines, session = Lines(chance), Session(sources)
    lines.add("s begin", "0")
    for k, source in enumerate(sources):
        lines.add(f"s source {spelled(source)}", f"0 {k}")
    first = session_lines(lines, session, chance.randrange(10, 120))
    lines.add("s save NAME.1", lambda answer: answer.startswith("0 "))
    half = len(session.texts)
    lines.add(" ".join(["s resume NAME.1", *map(spelled, sources)]), lambda answer: answer.startswith(f"0 0 {half} "))
    second = session_lines(lines, session, chance.randrange(10, 60))
    lines.add("s save NAME.2", lambda answer: answer.startswith("0 "))
    return lines.lines, session, (first, second)


# ---- Ropes


def rope_call(lines, ropes, sources):
    """A call that makes a rope, or is refused."""
    chance = lines.chance
    x, y = (chance.randrange(len(ropes)) if ropes else 0 for _ in range(2))
    if chance.random() < 0.08:
        x = len(ropes) + chance.choice([0, 5, *FAR])
    text, other = ropes[x] if x < len(ropes) else None, ropes[y] if ropes else None
    some = random_bytes(chance, 40)
    size = len(text) if text is not None else 0
    i, n = (chance.choice([chance.randrange(size + 3), chance.randrange(size + 3), (1 << 64) - 1]) for _ in range(2))
    call = chance.choice(["bytes", "part", "function", "cat", "cat", "append", "substr", "balance"])
    if call == "part":
        return part_call(lines, ropes, sources)
    if call == "function":
        return function_call(lines, ropes)
    made = {
        "bytes": lambda: (f"t bytes {spelled(some)}", some),
        "cat": lambda: (f"t cat {x} {y}", None if text is None or other is None else text + other),
        "append": lambda: (f"t append {x} {spelled(some)}", None if text is None else text + some),
        "substr": lambda: (f"t substr {x} {i} {n}", None if text is None else text[i : i + n]),
        "balance": lambda: (f"t balance {x}", text),
    }[call]()
    return add_rope(lines, ropes, *made, NO_ROPE)


def part_call(lines, ropes, sources):
    chance = lines.chance
    s = chance.choice([*range(len(sources) + 1), *FAR])
    size = len(sources[s]) if s < len(sources) else 9
    i, n = chance.choice([chance.randrange(size + 1), size, *FAR[2:]]), chance.choice([0, 1, chance.randrange(size + 1), *FAR[2:]])
    text = sources[s][i : i + n] if s < len(sources) and i + n <= size else None
    return add_rope(lines, ropes, f"t part {s} {i} {n}", text, BAD_SPAN)


def function_call(lines, ropes):
    chance = lines.chance
    function, pattern, n = chance.choice([0, 1, 2, 3, 3, 4, FAR[1]]), random_bytes(chance, 18), chance.choice([0, 1, chance.randrange(400)])
    is_one = function in FUNCTIONS and 1 <= len(pattern) <= (16 if function == 3 else 17)
    text = bytes(FUNCTIONS[function](pattern, k) for k in range(n)) if is_one else None
    return add_rope(lines, ropes, f"t function {function} {spelled(pattern)} {n}", text, NO_COMMAND)


def add_rope(lines, ropes, line, text, refusal):
    if text is None:
        lines.add(line, str(refusal), WRAPPED)
    elif len(text) <= LONGEST_ROPE:
        lines.add(line, f"0 {len(ropes)}", WRAPPED)
        ropes.append(text)


def rope_lines(chance):
    """Calls of a store."""
    lines, ropes = Lines(chance), []
    sources = [random_bytes(chance, 200) for _ in range(chance.randrange(3))]
    lines.add("t begin", "0", WRAPPED)
    for k, source in enumerate(sources):
        lines.add(f"t source {spelled(source)}", f"0 {k}", WRAPPED)
    for _ in range(chance.randrange(20, 150)):
        kind = chance.random()
        if kind < 0.5 or not ropes:
            rope_call(lines, ropes, sources)
        elif kind < 0.9:
            question(lines, "t", ropes, sources)
        else:
            x = chance.randrange(len(ropes))
            place = chance.choice([chance.randrange(len(ropes[x]) + 2), *FAR[2:]])
            lines.add(f"t fetch {x} {place}", f"0 {ropes[x][place]}" if place < len(ropes[x]) else str(RANGE), WRAPPED)
            lines.add(f"t depth {x}", lambda answer: answer.startswith("0 ") and 0 <= int(answer[2:]) <= 64, WRAPPED)
    return lines.lines


# ---- Calls that are worked by hand


def closed_lines():
    """A handle of zero bytes, and one that was ended: CORD_CLOSED, whatever is asked."""
    session = ["len 0", "read 0 0 9", "find 0 0 61", "new", "insert 0 0 61", "length 5", "save NAME.none", "many 0 61 1 0 0 1"]
    wrapped = ["text 0", "locate 0 0", "chr 0 0 97", "rchr 0 5 97", "compare 0 0 0 0 5", "sizes"]
    store = ["bytes 61", "part 0 0 1", "function 1 61 5", "length 5"]
    each = [(f"s {call}", "2", EVERYBODY) for call in session] + [(f"s {call}", "2", WRAPPED) for call in wrapped]
    each += [(f"t {call}", "2", WRAPPED) for call in store]
    begun = [("s begin", "0", EVERYBODY), ("s new", "0 0", EVERYBODY), ("t begin", "0", WRAPPED), ("t bytes 6162", "0 0", WRAPPED)]
    ended = [("s end", "0", EVERYBODY), ("s end", "0", EVERYBODY), ("t end", "0", WRAPPED), ("t end", "0", WRAPPED)]
    return [*each, *begun, *ended, *each]


def limit_lines():
    """Sources that are too many or too long, bytes that are not held, a pattern and texts that are too long."""
    texts = [
        ("s begin", "0"), ("s length 10", "0 0"), (f"s length {LONGEST}", "0 1"), (f"s length {LONGEST + 1}", "31"), (f"s length {FAR[3]}", "31"),
        ("s open 0", "0 0"), ("s open 1", "0 1"), ("s open 2", "12"), (f"s open {FAR[1]}", "12"), ("s len 1", f"0 {LONGEST}"), ("s join 1 0", "31"),
        ("s read 0 0 9", "52"), ("s find 0 0 61", "52"), (f"s find 0 0 {'61' * 4097}", "41"), (f"s insert 0 0 {'61' * 65537}", "31"),
        ("s insert 0 0 -", "14"), ("s many 0 - 0", "19"), ("s many 0 - 1 3 0 0", "14"), ("s many 0 6162 2 5 0 1 3 0 1", "13"), ("s insert 0 11 61", "13"),
        (f"s fill 0 0 97 {LONGEST}", "31"), (f"s delete 0 0 {FAR[3]}", "13"), ("s new", "0 2"), (f"s many 2 - 4097{' 0 0 0' * 4097}", "19"),
    ]  # fmt: skip
    wrapped = [
        ("s locate 0 3", "0 2 0 0 3 7 -"), ("s locate 0 10", "13"), ("s text 0", "52"), ("s chr 0 0 97", "52"), ("s rchr 0 9 97", "52"),
        ("s compare 0 0 1 0 5", "52"), ("s compare 0 0 9 0 5", "11"), ("t begin", "0"), ("t length 10", "0 0"), (f"t length {LONGEST + 1}", "31"),
        ("t part 0 2 5", "0 0"), ("t read 0 0 5", "52"), ("t fetch 0 0", "52"), ("t fetch 0 5", "13"), ("t locate 0 1", "0 2 0 0 3 4 -"),
        (f"t function 1 61 {LONGEST + 1}", "31"), (f"t function 1 61 {LONGEST}", "0 1"), ("t cat 1 0", "31"), ("t append 1 61", "31"), ("t cat 0 2", "39"),
        ("t compare 0 0 2 0 1", "39"), (f"t find 1 0 {'61' * 4097}", "41"), ("t function 2 - 1", "3"), (f"t function 3 {'61' * 17} 1", "3"),
    ]  # fmt: skip
    too_much = [(f"t {call} {'61' * (AT_ONCE + 1)}", "31", ("cpp", "rust")) for call in ("bytes", "append 0")]
    sources = [("s begin", "0", EVERYBODY), *((f"s length {k}", f"0 {k}", EVERYBODY) for k in range(255)), ("s length 1", "36", EVERYBODY)]
    return [*((*line, EVERYBODY) for line in texts), *((*line, WRAPPED) for line in wrapped), *too_much, *sources]


def resumed_lines(folder):
    """Images of tests/vectors: each is taken up, and has its last text, or is refused by its fault, and the session stays."""
    lines = [("s begin", "0", EVERYBODY), ("s new", "0 0", EVERYBODY)]
    is_kept = True
    for number, (data, sources, line) in enumerate(worked()):
        if len(data) > 1 << 20:
            continue
        path = os.path.join(folder, f"worked{number}")
        with open(path, "wb") as file:
            file.write(data)
        call = " ".join([f"s resume {path}", *map(spelled, sources)])
        if not line.startswith("accepted "):
            lines.append((call, f"62 {fault_number(line)} 0 0", EVERYBODY))
        elif refusal_of(data, sources, None):
            lines.append((call, lambda answer: answer.split()[0] == "61", EVERYBODY[:2]))
        else:
            counts = line.split()
            lines.append((call, f"0 0 {counts[1]} {counts[5]}", EVERYBODY))
            is_kept = False
        if is_kept:
            lines.append(("s len 0", "0 0", EVERYBODY))
        elif line.startswith("accepted ") and not refusal_of(data, sources, None):
            lines += taken_lines(verify.checked(data, sources), sources)
    return lines


def taken_lines(image, sources):
    """The texts of an image that was taken up, where they are short."""
    lengths = [image.length(revision.root) for revision in image.revisions]
    lines = [(f"s len {k}", f"0 {length}", EVERYBODY) for k, length in enumerate(lengths[:20])]
    if max(lengths, default=0) <= LONGEST_TEXT:
        lines += [(f"s text {k}", f"0 {spelled(text)}", WRAPPED) for k, text in enumerate(verify.all_texts(image, sources)[:20])]
    return [*lines, (f"s back {len(lengths)}", "11", EVERYBODY)]


def fault_number(line):
    """The number of the code of a refusal; 13 of sources that cannot be a session's."""
    word = line.split()[1]
    return 13 if word.startswith("S") else int(word[1:].split("(")[0])


# ---- Runs


class Runs:
    """The callers, and what was found of them."""

    def __init__(self, program, callers):
        self.program, self.callers, self.passed, self.failed = program, callers, 0, 0

    def note(self, what, fault):
        self.passed, self.failed = self.passed + (not fault), self.failed + bool(fault)
        if fault:
            print(f"FAILED: {what}: {fault[:600]}")

    def give(self, what, lines, folder):
        """Gives the lines to each caller that may have them, and compares the answers. The callers whose answers were all right."""
        right = []
        for name, command_words in self.callers.items():
            own = [(line.replace("NAME", os.path.join(folder, name)), answer) for line, answer, callers in lines if name in callers]
            ran = subprocess.run(command_words, input="".join(f"{line}\n" for line, _ in own).encode(), capture_output=True, check=False)
            fault = answers_fault(own, ran)
            self.note(f"{what}, {name}", fault)
            right += [] if fault else [name]
        return right

    def session(self, seed, folder):
        lines, session, scripts = whole_session(random.Random(seed))
        images = {}
        for name in self.give(f"session {seed}", lines, folder):
            images[name] = [read(os.path.join(folder, f"{name}.{k}")) for k in (1, 2)]
            self.note(f"the images of session {seed}, {name}", self.images_fault(session, images[name], next(iter(images.values()))))
        if images:
            self.note(f"apply of session {seed}", self.apply_fault(session, scripts, next(iter(images.values())), folder))

    def images_fault(self, session, images, first):
        """What is wrong with both images of a session, or nothing."""
        image = None
        for data, count in zip(images, (None, len(session.texts))):
            line = verify.line(data, session.sources)
            if not line.startswith("accepted "):
                return f"the second checker answers {line!r}"
            image = verify.checked(data, session.sources)
            if count is not None and len(image.revisions) != count:
                return f"{len(image.revisions)} revisions and not {count}"
        if verify.all_texts(image, session.sources) != session.texts:
            return "other texts"
        if [words_in(image, revision) for revision in image.revisions] != session.commands:
            return "other commands"
        return None if images == first else "other bytes than the first caller's"

    def apply_fault(self, session, scripts, images, folder):
        """Whether cordkit makes other images of the same commands, or nothing."""
        if not self.program:
            return None
        files = []
        for k, data in enumerate([*session.sources, *images]):
            files.append(os.path.join(folder, f"file{k}"))
            with open(files[-1], "wb") as file:
                file.write(data)
        sources, saved = files[: len(session.sources)], files[len(session.sources) :]
        for k, words in enumerate([["apply"], ["apply", "--onto", saved[0]]]):
            ran = subprocess.run([self.program, *words, "/dev/stdin", *sources], input=scripts[k], capture_output=True, check=False)
            if (ran.returncode, ran.stdout) != (0, images[k]):
                return f"{' '.join(words[:2])}: status {ran.returncode}, {ran.stderr!r}, {len(ran.stdout)} bytes where the callers have {len(images[k])}"
            ran = subprocess.run([self.program, "check", saved[k], *sources], capture_output=True, check=False)
            if ran.stdout.decode() != verify.line(images[k], session.sources) + "\n":
                return f"check answers {ran.stdout!r}"
        return None


def answers_fault(own, ran):
    """The first answer that is not what it has to be, or nothing."""
    answers = ran.stdout.decode().splitlines()
    for number, ((line, wanted), got) in enumerate(zip(own, answers)):
        is_right = wanted(got) if callable(wanted) else got == wanted
        if not is_right:
            return f"call {number}, {line[:200]!r}, answers {got[:200]!r}{'' if callable(wanted) else f' and not {wanted[:200]!r}'}"
    if ran.returncode != 0 or len(answers) != len(own):
        return f"status {ran.returncode}, {len(answers)} answers to {len(own)} calls, {ran.stderr[-300:]!r}"
    return None


def read(path):
    with open(path, "rb") as file:
        return file.read()


def main():
    count, program, callers = int(sys.argv[1]), sys.argv[2], dict(word.split("=", 1) for word in sys.argv[3:])
    runs = Runs(program, {name: path.split() for name, path in callers.items()})
    with tempfile.TemporaryDirectory() as folder:
        runs.give("a closed handle", closed_lines(), folder)
        runs.give("limits", limit_lines(), folder)
        runs.give("worked images", resumed_lines(folder), folder)
        for seed in range(count):
            runs.session(seed, folder)
            runs.give(f"ropes {seed}", rope_lines(random.Random(f"ropes {seed}")), folder)
    print(f"{runs.passed} passed, {runs.failed} failed")
    return runs.failed != 0


if __name__ == "__main__":
    sys.exit(main())
