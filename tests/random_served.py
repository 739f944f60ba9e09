#!/usr/bin/env python3
"""Feeds the built `cordkit serve` with requests that chance writes, and compares each answer with that of a session of plain bytes, written from
docs/SERVE.md and docs/SCRIPTS.md alone: commands of all kinds, in every way in which they may be written, lines that are refused, questions,
`sync` and `save`, one by one or many at once. At random places the program is killed by kill -9, also while it saves, and begun again by the same
command: each line that was answered is there, and of the others that it was given only the next ones; of one that was given alone at most that
one. Sometimes another image is put in the place of IMAGE: then `save` writes its own beside it, and the session goes on over that; or, where the run
is killed first, what is kept goes on from the second name of the image that was there. Sometimes the run ends, and
what is kept is made again by `apply --onto`, as docs/SERVE.md says it. In the end the image has each text, and the second checker accepts it.

Usage: tests/random_served.py [RUNS [PROGRAM [FIRST]]]; FIRST is the number of the first run. The last line is 'N passed, M failed'.
"""

import collections
import multiprocessing
import os
import random
import subprocess
import sys
import tempfile
import time

from random_scripts import NO_COMMANDS, PRINTED_BYTES, Refused, Room, Session, TooLong
from random_scripts import command_in, image_fault, random_bytes, random_command, spoiled, unescaped, value_of, words_of, written
from random_scripts import ESCAPE
from second_checker import PROGRAM

# The words behind the name of each question, as SHAPES of random_scripts.py has those of commands.
QUESTIONS = {b"last": "", b"length": "r", b"bytes": "rpp", b"find": "rpt", b"sync": "", b"save": "", b"quit": ""}
NO_QUESTIONS = [b"last 1", b"length", b"length x", b"bytes 0 0", b'bytes 0 0 "a"', b"find 0 0", b"find 0 0 a", b"sync 1", b"save now", b"quit 0", b"Last", b'"last"']
LONGEST_PATTERN, MOST_TEXT, MOST_TEXTS = 4096, 1 << 16, 1 << 22


class Differs(Exception):
    """What is wrong with the program."""


# ---- What plain bytes answer


def quoted(text):
    return b'"' + b"".join(PRINTED_BYTES[byte] for byte in text) + b'"'


def question_in(line):
    """The name and the values of a question, or nothing where the line asks nothing."""
    name, *given = words_of(line) or [b""]
    kinds = QUESTIONS.get(name)
    if kinds is None:
        return None
    if len(kinds) != len(given):
        raise Refused("P")
    return name, [value_of(word, kind) for word, kind in zip(given, kinds)]


def last_of(session):
    count = len(session.texts)
    return b"%d %d" % (count - 1, len(session.texts[-1])) if count else b"none"


def answer_to(session, name, values):
    """The answer to a question, or the first reason why it is refused."""
    if name == b"last":
        return last_of(session)
    if name in (b"sync", b"save"):
        told = {b"sync": b"synced", b"save": b"saved"}[name]
        return told + (b" %d" % (len(session.texts) - 1) if session.texts else b" none")
    if values[0] >= len(session.texts):
        raise Refused("E1")
    text = session.texts[values[0]]
    if name == b"length":
        return b"%d %d" % (values[0], len(text))
    if values[1] + (values[2] if name == b"bytes" else 0) > len(text):
        raise Refused("E3")
    if name == b"bytes":
        return quoted(text[values[1] :][: values[2]])
    if len(values[2]) > LONGEST_PATTERN:
        raise Refused("F1")
    place = text.find(values[2], values[1])
    return b"none" if place < 0 else b"%d" % place


def answered(session, line):
    """The answer to a line. A command is taken."""
    try:
        question = question_in(line)
        if question:
            return answer_to(session, *question)
        command = command_in(line)
        if not command:
            return b"none"
        session.take(*command)
        return last_of(session)
    except Refused as refused:
        return b"refused " + str(refused).encode()


def shortened(session, count):
    """Has a session lose its last texts, but for so many."""
    del session.texts[count:], session.commands[count:]
    session.splices = sum(len(values) // 3 for name, values in session.commands if name == b"many")


# ---- What chance writes


def random_question(chance, session):
    r = chance.randrange(len(session.texts) + 2)
    text = session.texts[r] if r < len(session.texts) else b""
    i = chance.randrange(len(text) + 2)
    n = chance.choice([0, chance.randrange(len(text) + 2), 2**64 - 1 - i])
    there = text[i:][: chance.randrange(6)]
    pattern = chance.choice([there, there, random_bytes(chance, 9), b"a" * chance.choice([LONGEST_PATTERN, LONGEST_PATTERN + 1])])
    name = chance.choice([b"last", b"length", b"bytes", b"bytes", b"find", b"find"])
    return written(chance, name, {b"last": [], b"length": [r], b"bytes": [r, i, n], b"find": [r, i, pattern]}[name])


def random_line(chance, session):
    kind = chance.random()
    if kind < 0.35:
        return random_question(chance, session)
    if kind < 0.4:
        return chance.choice([*NO_COMMANDS, *NO_QUESTIONS])
    if kind < 0.45:
        return chance.choice([b"", b" ", b"\t\r", b"# a comment", b"#\xff\"", b"\r"])
    name, values = random_command(chance, session)
    return written(chance, name, spoiled(chance, session, name, values) if kind < 0.55 else values)


def random_group(chance, session, alone):
    """Lines that are given together, each with its answer, and how many revisions there are behind it."""
    group = []
    for _ in range(1 if alone else chance.choice([1, 1, 2, 5, 40])):
        line = random_line(chance, session)
        try:
            answer = answered(session, line)
        except TooLong:
            continue
        group.append((line, answer, len(session.texts)))
        if len(session.texts[-1:]) and len(session.texts[-1]) > MOST_TEXT or sum(map(len, session.texts)) > MOST_TEXTS:
            break
    return group


# ---- A run


class Run:
    """A session that is served in a folder, beside one of plain bytes."""

    def __init__(self, program, seed, folder):
        self.chance = random.Random(seed)
        sources = [random_bytes(self.chance, 200) for _ in range(self.chance.randrange(2))]
        os.mkdir(f"{folder}/looks")
        self.room, self.looks = Room(program, folder, sources), Room(program, f"{folder}/looks", sources)
        self.session, self.child = Session(sources), None
        self.counts = collections.Counter()
        self.begin_again(0, 0)

    def start(self):
        words = [self.room.program, "serve", self.room.image, *self.room.files]
        self.child = subprocess.Popen(words, stdin=subprocess.PIPE, stdout=subprocess.PIPE, stderr=subprocess.PIPE)

    def give(self, lines):
        try:
            self.child.stdin.write(b"".join(line + b"\n" for line in lines))
            self.child.stdin.flush()
        except BrokenPipeError:
            pass

    def answer(self):
        return self.child.stdout.readline()

    def want(self, line, wanted):
        got = self.answer()
        self.counts["requests"] += 1
        if got != wanted + b"\n":
            raise Differs(f"{line[:200]!r} is answered {got[:200]!r} for {wanted[:200]!r}, {self.ended() if not got else ''}")

    def ask(self, line):
        self.give([line])
        return self.answer()

    def ended(self):
        """The status of the run, whose input ends here, and what it said."""
        try:
            self.child.stdin.close()
        except BrokenPipeError:
            pass
        self.child.stdout.read()
        said = self.child.stderr.read()
        return self.child.wait(), said

    def kill(self):
        self.child.kill()
        self.ended()
        self.counts["killed"] += 1

    def begin_again(self, least, most):
        """Begins the program again, which has so many revisions at least and at most, and takes the session back to what it has."""
        self.start()
        told = self.ask(b"last")
        if not told:
            raise Differs(f"it does not begin again: {self.ended()}")
        there = 0 if told == b"none\n" else int(told.split()[0]) + 1
        if not least <= there <= most:
            raise Differs(f"{there} revisions are there for {least} to {most}")
        self.counts["further"] += there - least
        shortened(self.session, there)
        if told != last_of(self.session) + b"\n":
            raise Differs(f"the last revision is {told!r} for {last_of(self.session)!r}")

    def take_group(self):
        before, alone = len(self.session.texts), self.chance.random() < 0.5
        group = random_group(self.chance, self.session, alone)
        is_killed = self.chance.random() < 0.06
        told = self.chance.randrange(len(group) + 1) if is_killed else len(group)
        self.give([line for line, _, _ in group])
        for line, answer, _ in group[:told]:
            self.want(line, answer)
        if is_killed:
            time.sleep(self.chance.choice([0, 0, 0.001, 0.01]) * self.chance.random())
            self.kill()
            self.begin_again(group[told - 1][2] if told else before, group[-1][2] if group else before)

    def save(self):
        count = len(self.session.texts)
        if self.chance.random() < 0.4:
            self.give([b"save"])
            time.sleep(self.chance.choice([0, 0.002, 0.02]) * self.chance.random())
            self.kill()
            self.counts["killed at a save"] += 1
            self.begin_again(count, count)
        else:
            self.give([b"save"])
            self.want(b"save", answer_to(self.session, b"save", []))

    def put_other(self):
        """Puts an image without a text in the place of the one that is there, and gives its bytes."""
        other = self.room.apply(b"new\n")[1]
        with open(f"{self.room.image}.other", "wb") as file:
            file.write(other)
        os.replace(f"{self.room.image}.other", self.room.image)
        return other

    def save_beside(self):
        """Puts another image in the place of the one that is there, has the session saved beside it, and goes on over that."""
        other = self.put_other()
        told = self.ask(b"save")
        if told == answer_to(self.session, b"save", []) + b"\n" and not self.saved_fault(self.room.image):
            # The other image is just that of the session.
            self.counts["twins"] += 1
            return
        if not told.startswith(b'beside "') or not told.endswith(b'"\n'):
            raise Differs(f"a save where another image is was answered {told!r}, {self.ended() if not told else ''}")
        name = ESCAPE.sub(unescaped, told[len(b'beside "') : -2]).decode()
        if self.saved_fault(name) or self.read(self.room.image) != other:
            raise Differs(f"the image beside: {self.saved_fault(name)}, or the other one was changed")
        left = [ending for ending in (".lines", ".lines.saved", ".lines.over") if os.path.exists(self.room.image + ending)]
        if left or self.read(name) != self.read(f"{name}.lines.over"):
            raise Differs(f"{left} is left, or the image beside has no second name")
        self.room.image = name
        self.counts["beside"] += 1

    def replaced(self):
        """Puts another image in the place of the one that is there behind a kill. The lines go on from that one's second name."""
        self.kill()
        lines, over = f"{self.room.image}.lines", f"{self.room.image}.lines.over"
        kept = self.read(lines).split(b"\n")[1:-1]
        own = self.read(self.room.image)
        if self.read(over) != own:
            raise Differs("the second name is of another image")
        if kept and self.put_other() != own:
            self.start()
            status, said = self.ended()
            if status != 1 or said != b"refused J1\n":
                raise Differs(f"lines of another image: status {status}, {said!r}")
            status, data, said = self.room.run("apply", "--onto", over, lines)
            fault = image_fault(self.looks, data, self.session.texts, self.session.commands)
            if status or said or fault:
                raise Differs(f"what is kept: status {status}, {said!r}, {fault}")
            os.replace(over, self.room.image)
            self.counts["replaced"] += 1
        self.begin_again(len(self.session.texts), len(self.session.texts))

    def read(self, name):
        with open(name, "rb") as file:
            return file.read()

    def saved_fault(self, name):
        """What is wrong with the image of this name, or nothing."""
        return image_fault(self.looks, self.read(name), self.session.texts, self.session.commands)

    def recover_by_hand(self):
        """Ends the run, makes an image of what is kept, and begins again."""
        self.give([b"quit"])
        status, said = self.ended()
        if status or said:
            raise Differs(f"quit: status {status}, {said!r}")
        lines = f"{self.room.image}.lines"
        if os.path.exists(lines):
            status, data, said = self.room.run("apply", "--onto", self.room.image, lines)
            if status or said:
                raise Differs(f"what is kept is answered {status} {said!r} by apply")
            fault = image_fault(self.looks, data, self.session.texts, self.session.commands)
            if fault:
                raise Differs(f"what is kept: {fault}")
            self.counts["by hand"] += 1
        elif self.saved_fault(self.room.image):
            raise Differs(f"nothing is kept, and the image: {self.saved_fault(self.room.image)}")
        self.begin_again(len(self.session.texts), len(self.session.texts))

    def end(self):
        for k, text in enumerate(self.session.texts):
            self.give([b"bytes %d 0 %d" % (k, len(text))])
            self.want(b"bytes", quoted(text))
        self.give([b"save", b"quit"])
        self.want(b"save", answer_to(self.session, b"save", []))
        status, said = self.ended()
        own = os.path.basename(self.room.image) + "."
        there = sorted(name for name in os.listdir(self.room.folder) if name.startswith(own) and name != f"{own}sources")
        if status or said or there:
            raise Differs(f"quit: status {status}, {said!r}, {there}")
        fault = self.saved_fault(self.room.image)
        if fault:
            raise Differs(fault)
        self.counts["revisions"] += len(self.session.texts)

    def go(self):
        for _ in range(self.chance.choice([5, 20, 60])):
            step = self.chance.choices([self.take_group, self.save, self.save_beside, self.replaced, self.recover_by_hand], [88, 6, 2, 2, 2])[0]
            step()
            if sum(map(len, self.session.texts)) > MOST_TEXTS:
                break
        self.end()


def run_one(given):
    """What a run did, and what is wrong with it, or nothing."""
    program, seed = given
    with tempfile.TemporaryDirectory() as folder:
        run = Run(program, seed, folder)
        try:
            run.go()
            fault = None
        except Differs as differs:
            fault = f"run {seed}: {differs}"
            run.kill()
        return run.counts, fault


def main():
    count = int(sys.argv[1]) if len(sys.argv) > 1 else 40
    program = os.path.abspath(sys.argv[2] if len(sys.argv) > 2 else PROGRAM)
    first = int(sys.argv[3]) if len(sys.argv) > 3 else 0
    with multiprocessing.Pool() as pool:
        results = list(pool.imap_unordered(run_one, [(program, seed) for seed in range(first, first + count)]))
    counts = sum((counts for counts, _ in results), collections.Counter())
    faults = [fault for _, fault in results if fault]
    print(*faults, ", ".join(f"{counts[name]} {name}" for name in sorted(counts)), sep="\n")
    print(f"{len(results) - len(faults)} passed, {len(faults)} failed")
    return len(faults) != 0


if __name__ == "__main__":
    sys.exit(main())
