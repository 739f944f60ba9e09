#!/usr/bin/env python3
"""Has the built cordkit go on from images, and compares with a session of plain bytes and with the second checker, written from docs/SCRIPTS.md and
docs/FORMAT.md alone. A script that chance writes is cut into two or three pieces, which are applied one onto the image of the other: each image keeps
the rules of the second checker and has the commands and texts of all pieces so far, each section of the older image is a front of the newer one's, a
script of no command gives the image back byte by byte, and the log of the last one is the whole script. The last piece may be refused, at a line of
its own and for the reasons of docs/SCRIPTS.md.

Images that chance makes, the worked ones and the vectors are gone on from too, also with sources that are not theirs and under a limit of looks: what
the second checker refuses is refused so; `G1` comes at the first revision that has a row of bytes over a source, where python finds one under either
side; else the texts, the commands and the nodes are the image's, and stay so.

Usage: tests/going_on.py [RUNS [PROGRAM [FIRST]]]; FIRST is the number of the first run. The last line is 'N passed, M failed'.
"""

import collections
import copy
import multiprocessing
import os
import random
import sys
import tempfile

from made_images import made
from random_scripts import NO_COMMANDS, Refused, Room, Session, TooLong, command_in, image_fault, lines_of, log_of, printed
from random_scripts import random_bytes, random_command, spoiled, words_in, worked_images, written
from second_checker import PROGRAM, verify

LONGEST_TEXT = 1 << 20


# ---- What an image is that is gone on from


class Watch(verify.Tree):
    """Nodes of which it is told whether bytes of a source were asked for."""

    met = False

    def leaf_bytes(self, node, start, length):
        self.met = self.met or node.kind == verify.SOURCE_PART
        return super().leaf_bytes(node, start, length)


class Over(verify.Check):
    """A check that finds the first revision with a row of bytes over a source."""

    def __init__(self, image, sources):
        super().__init__(image, sources)
        self.tree, self.now, self.first = Watch(image, sources), None, None

    def check_rows(self, k, revision, parts):
        self.now = k
        super().check_rows(k, revision, parts)

    def fits(self, row, part, of_part, root, of_root):
        self.tree.met = part.origin == "source"
        answer = super().fits(row, part, of_part, root, of_root)
        if row.tag == verify.BYTES and self.tree.met and self.first is None:
            self.first = self.now
        return answer


def refusal_of(data, sources, at_most):
    """Why no session goes on from these bytes, as the program has to tell it, or nothing."""
    line = verify.line(data, sources, at_most)
    if not line.startswith("accepted "):
        return line
    over = Over(verify.image_of(data), sources)
    over.run(None)
    return None if over.first is None else f"refused G1({over.first})"


def sections_of(data):
    """The sections of an image behind its header."""
    sections, place = [], 0
    for size in verify.header_of(data).sections():
        sections.append(data[place : place + size])
        place += size
    return sections[1:]


# ---- A room in which scripts go on


class Onto(Room):
    def onto(self, older, script, *words):
        """What comes of a script behind an image."""
        return self.run("apply", "--onto", self.put("older", older), *words, "/dev/stdin", given=script)


def front_fault(older, newer):
    """What of an image that a session wrote is not a front of the one that goes on from it, or nothing."""
    names = ["sources", "nodes", "revisions", "splices", "rows", "pool"]
    for name, old, new in zip(names, sections_of(older), sections_of(newer)):
        if not new.startswith(old):
            return f"the {name} are not those of the older image and others"
    return None


def empty_fault(room, data):
    """What is wrong with a script of no command behind an image that a session wrote, or nothing."""
    for script in b"", b"\n # no command\r\n":
        answer = room.onto(data, script)
        if answer != (0, data, b""):
            return f"no command behind it: status {answer[0]}, {answer[2]!r}, {'the same' if answer[1] == data else 'another'} image"
    return None


# ---- Scripts in pieces


def continued(session, script):
    """Lets a session take a script; why that is refused, if it is."""
    for number, line in enumerate(script.split(b"\n"), 1):
        try:
            command = command_in(line)
            if command:
                session.take(*command)
        except Refused as refused:
            code = str(refused)
            return f"refused {code[:-1]},{number})" if code.endswith(")") else f"refused {code}({number})"
    return None


def refused_line(chance, session):
    """A line that is no command, or a command at an edge, which may be taken."""
    if chance.random() < 0.2:
        return chance.choice(NO_COMMANDS)
    name, values = random_command(chance, session)
    return written(chance, name, spoiled(chance, session, name, values))


def piece_of(chance, session):
    """The lines of a piece, most of which are taken behind this session."""
    lines = lines_of(chance, session, len(session.texts) + chance.randrange(chance.choice([1, 3, 12])))
    if chance.random() < 0.3:
        lines.append(refused_line(chance, session))
    end = chance.choice([b"\n", b"\n", b"\r\n"])
    return end.join(lines) + chance.choice([b"", end])


def piece_fault(room, older, session, script):
    """The image of a piece behind the older one, or of one without an older one, and what is wrong with it, or nothing."""
    refusal = continued(session, script)
    status, data, told = room.onto(older, script) if older is not None else room.apply(script)
    if refusal:
        right = (status, data, told) == (1, b"", f"{refusal}\n".encode())
        return None, None if right else f"status {status}, {told!r}, for {refusal}"
    if (status, told) != (0, b""):
        return None, f"status {status}, {told!r}"
    fault = image_fault(room, data, session.texts, session.commands) or empty_fault(room, data)
    return data, fault or (front_fault(older, data) if older is not None else None)


def whole_fault(room, data):
    """What is wrong with the log of an image of pieces, or nothing."""
    room.save(data)
    log = log_of(verify.checked(data, room.sources))
    return None if room.run("log", room.image) == (0, log, b"") else "its log is another one"


def run_pieces(given):
    """How far the pieces of a script came, how many revisions they made, and what is wrong, or nothing."""
    program, seed = given
    chance = random.Random(seed)
    sources = [random_bytes(chance, 200) for _ in range(chance.randrange(3))]
    session, data, fault = Session(sources), None, None
    with tempfile.TemporaryDirectory() as folder:
        room = Onto(program, folder, sources)
        for number in range(chance.choice([2, 2, 3])):
            try:
                script = piece_of(chance, copy.deepcopy(session))
                data, fault = piece_fault(room, data, session, script)
            except TooLong:
                return "pieces, too long", 0, None
            if fault or data is None:
                break
        else:
            fault = whole_fault(room, data)
    return f"pieces, {'refused' if data is None else 'taken'}", len(session.texts), f"script {seed}, piece {number}: {fault}" if fault else None


# ---- Images that others wrote


def line_behind(image, chance):
    """A line that is taken behind an image, its command, and its text."""
    texts = verify.all_texts(image[0], image[1])
    if not texts:
        return printed(b"new", []), (b"new", []), b""
    r = chance.randrange(len(texts))
    p = chance.randrange(len(texts[r]) + 1)
    command = b"insert", [r, p, b"onto\n"]
    return printed(*command), command, texts[r][:p] + b"onto\n" + texts[r][p:]


def taken_fault(room, data, newer):
    """What is wrong with what no command made of an image that is taken up, or nothing."""
    image, again = verify.checked(data, room.sources), verify.checked(newer, room.sources)
    if again.version != 2 or again.nodes != image.nodes or again.pool != image.pool or again.sources != image.sources:
        return "no command behind it: another version, or other nodes, pool or sources"
    said = [(words_in(image, revision), revision.root) for revision in image.revisions]
    if said != [(words_in(again, revision), revision.root) for revision in again.revisions]:
        return "no command behind it: other commands or roots"
    return empty_fault(room, newer)


def onto_fault(room, data, chance, at_most=None):
    """Whether an image is gone on from, and what is wrong with that, or nothing."""
    words = [] if at_most is None else ["--at-most", str(at_most)]
    refusal, answer = refusal_of(data, room.sources, at_most), room.onto(data, b"", *words)
    if refusal:
        first = room.onto(data, b"news", *words)
        right = answer == first == (1, b"", f"{refusal}\n".encode())
        return "refused", None if right else f"{answer}, and behind what is no command {first}, for {refusal}"
    if answer[0] or answer[2]:
        return "taken", f"status {answer[0]}, {answer[2]!r}"
    fault = taken_fault(room, data, answer[1])
    image = verify.checked(data, room.sources), room.sources
    if fault or max((image[0].length(revision.root) for revision in image[0].revisions), default=0) > LONGEST_TEXT:
        return "taken", fault
    line, command, text = line_behind(image, chance)
    status, newer, told = room.onto(data, line)
    if (status, told) != (0, b""):
        return "taken", f"{line!r} behind it: status {status}, {told!r}"
    commands = [words_in(image[0], revision) for revision in image[0].revisions]
    texts = verify.all_texts(*image)
    return "taken", image_fault(room, newer, [*texts, text], [*commands, command]) or front_fault(answer[1], newer)


def changed_sources(chance, sources):
    """The sources, or others than those of an image."""
    sources = list(sources)
    if chance.random() < 0.1:
        sources = sources[:-1] if sources and chance.random() < 0.5 else [*sources, b"x"]
    elif sources and chance.random() < 0.1:
        s = chance.randrange(len(sources))
        sources[s] = chance.choice([sources[s] + b"x", bytes(len(sources[s]))])
    return sources


def run_image(given):
    program, seed = given
    chance = random.Random(seed)
    image = made(random.Random(seed))
    data = b"".join(b"".join(section) for section in image.sections())
    at_most = None
    if chance.random() < 0.1:
        at_most = chance.choice([0, verify.image_of(data).looks() - 1, verify.image_of(data).looks()])
    with tempfile.TemporaryDirectory() as folder:
        room = Onto(program, folder, changed_sources(chance, image.sources))
        kind, fault = onto_fault(room, data, chance, at_most)
    return f"images, {kind}", len(image.texts), f"image {seed}: {fault}" if fault else None


def run_worked(given):
    program, (name, data, sources) = given
    with tempfile.TemporaryDirectory() as folder:
        kind, fault = onto_fault(Onto(program, folder, sources), data, random.Random(name))
    return f"worked images, {kind}", 0, f"{name}: {fault}" if fault else None


def main():
    runs = int(sys.argv[1]) if len(sys.argv) > 1 else 1000
    program = os.path.abspath(sys.argv[2] if len(sys.argv) > 2 else PROGRAM)
    first = int(sys.argv[3]) if len(sys.argv) > 3 else 0
    found, kinds, revisions, tried = [], collections.Counter(), 0, 0
    seeds = [(program, seed) for seed in range(first, first + runs)]
    with multiprocessing.Pool() as pool:
        for results in (
            pool.imap_unordered(run_pieces, seeds),
            pool.imap_unordered(run_image, seeds),
            pool.imap_unordered(run_worked, [(program, image) for image in worked_images()]),
        ):
            for kind, texts, fault in results:
                kinds[kind] += 1
                revisions += texts
                found += [fault] if fault else []
                tried += 1
    for fault in found:
        print(fault)
    print("; ".join(f"{kind}: {count}" for kind, count in sorted(kinds.items())))
    print(f"{revisions} revisions")
    print(f"{tried - len(found)} passed, {len(found)} failed")
    return len(found) != 0


if __name__ == "__main__":
    sys.exit(main())
