#!/usr/bin/env python3
"""Checks images by the built cordkit and by the second checker: images that chance makes (tests/made_images.py), whole and damaged (bits, bytes,
single fields by name, records put elsewhere, twice or left out, other sources), and the worked image of many replacements with each byte
changed. Every line is the second checker's; an accepted image has the texts that its commands give on plain bytes, and is written anew as it
is; what its nodes and marks record is what their bytes say.

Usage: tests/damaged_images.py [IMAGES [PROGRAM [FIRST]]]; FIRST is the number of the first made image. The last line is 'N passed, M failed'.
"""

import collections
import multiprocessing
import os
import random
import re
import struct
import subprocess
import sys
import tempfile

from second_checker import PROGRAM, TOP, verify
from made_images import made

LONGEST_SHOWN = 1 << 20
MEGABYTE = 1 << 20
IMAGES_OF_A_BATCH = 21
PLACES_OF_A_BATCH = 4
ALL_FAULTS_FROM = 50_000

# The fields of each kind of record: their names, places and sizes.
HEADER = {"magic": (0, 8), "version": (8, 4), "sources": (12, 4), "nodes": (16, 4), "revisions": (20, 4), "rows": (24, 4), "splices": (28, 4),
          "pool": (32, 8)}  # fmt: skip
SOURCE = {"length": (0, 8)}
NODE = {"kind": (0, 1), "depth": (1, 1), "function": (2, 1), "pattern length": (3, 1), "x": (4, 4), "length": (8, 8), "place": (16, 8),
        "right": (16, 4), "first byte": (16, 1), "behind right": (20, 4), "behind place": (24, 8)}  # fmt: skip
REVISION = {"command": (0, 1), "mark": (1, 1), "zero": (2, 2), "root": (4, 4), "r": (8, 4), "q": (12, 4), "p": (16, 8), "m": (24, 8),
            "a": (32, 8), "n": (40, 8), "rows": (48, 4), "end": (52, 4)}  # fmt: skip
SPLICE = {"p": (0, 8), "m": (8, 8), "a": (16, 8), "n": (24, 8)}
ROW = {"tag": (0, 1), "zeros": (1, 3), "node": (4, 4), "length": (8, 8), "offset": (16, 8)}
FIELDS = [HEADER, SOURCE, NODE, REVISION, SPLICE, ROW, {}]
OFTEN = [1, 1, 5, 6, 3, 5, 1]

# Numbers at which rules turn.
TURNS = [0, 1, 2, 3, 16, 17, 64, 65, 255, 256, 4096, 4097, verify.MOST_REVISIONS, verify.MOST_NODES, verify.NIL, verify.NIL + 1,
         verify.LONGEST_TEXT, verify.LONGEST_TEXT + 1, (1 << 63) - 1, 1 << 63, (1 << 64) - 1]  # fmt: skip

NODE_KINDS = ["", "literal", "part of a source", "function", "concatenation", "substring"]
COMMANDS = ["", "New", "Open", "Insert", "Delete", "Replace", "Paste", "Join", "Cut", "Fill", "Back", "Balance", "Many"]
TAGS = ["", "Shared row", "Leaf row", "Bytes row"]


# ---- Damage


def damaged(sections, chance):
    """The bytes with one thing or a few changed: bits, a field, a record put elsewhere or taken away, the end."""
    sections = [list(section) for section in sections]
    for _ in range(chance.choice([1, 1, 1, 1, 2, 4])):
        number = chance.choices(range(len(sections)), [bool(section) * weight for section, weight in zip(sections, OFTEN)])[0]
        section = sections[number]
        k, other = chance.randrange(len(section)), chance.randrange(len(section))
        change = chance.randrange(10)
        if change == 0:
            section[k], section[other] = section[other], section[k]
        elif change == 1 and chance.random() < 0.3:
            section.insert(other, section[k])
        elif change == 2 and chance.random() < 0.3 and number != 0:
            del section[k]
        elif change <= 4 and section[k]:
            section[k] = with_number(bytearray(section[k]), chance)
        elif FIELDS[number]:
            section[k] = with_field(section, k, FIELDS[number], chance)
    if chance.random() < 0.15:
        sections[0][0] = counted(sections)
    data = b"".join(b"".join(section) for section in sections)
    if chance.random() < 0.04:
        return data[: chance.randrange(len(data) + 1)]
    return data + b"\0" if chance.random() < 0.02 else data


def counted(sections):
    """The header with the numbers of records that there are."""
    header, sources, nodes, revisions, splices, rows, pool = sections
    counts = [len(sources), len(nodes), len(revisions), len(rows), len(splices), sum(map(len, pool))]
    return header[0][:12] + struct.pack(">LLLLLQ", *counts)


def with_number(data, chance):
    """One byte, or a number of four or eight bytes, changed by a little or by much."""
    size = chance.choice([1, 1, 4, 8])
    if size > len(data):
        size = 1
    return with_value(data, chance.randrange(len(data) // size) * size, size, chance, [0])


def with_field(section, k, fields, chance):
    """A record with one field changed by a little or by much, or as in another record; a mark that is not there, set."""
    name = chance.choice([*fields, "mark"] if "mark" in fields else list(fields))
    start, size = fields[name]
    if name == "mark" and section[k][start] == 0:
        return section[k][:start] + b"\1" + section[k][start + size :]
    others = [int.from_bytes(chance.choice(section)[start : start + size], "big")]
    return with_value(bytearray(section[k]), start, size, chance, others)


def with_value(data, start, size, chance, others):
    old = int.from_bytes(data[start : start + size], "big")
    near = [old + 1, old - 1, old + chance.randrange(20), old - chance.randrange(20)]
    new = chance.choice([*near, old ^ 1 << chance.randrange(8 * size), chance.randrange(20), chance.choice(TURNS), *others])
    data[start : start + size] = (new % 256**size).to_bytes(size, "big")
    return bytes(data)


def other_sources(sources, chance):
    """The sources, one more or one less, or one of them changed."""
    sources = list(sources)
    change = chance.randrange(4) if sources else 0
    if change == 0:
        return [*sources, b"abc"]
    s = chance.randrange(len(sources))
    if change == 1:
        return sources[:s] + sources[s + 1 :]
    if change == 2 or not sources[s]:
        sources[s] = sources[s][:-1] if chance.random() < 0.5 else sources[s] + b"x"
        return sources
    place = chance.randrange(len(sources[s]))
    sources[s] = sources[s][:place] + bytes([sources[s][place] ^ 1]) + sources[s][place + 1 :]
    return sources


# ---- What the program answers


class Room:
    """A folder with an image and its sources, and the program that is asked about them."""

    def __init__(self, program, folder, data, sources):
        self.program, self.sources = program, [os.path.join(folder, f"source{s}") for s in range(len(sources))]
        self.image = os.path.join(folder, "image")
        self.write(data)
        for path, source in zip(self.sources, sources):
            with open(path, "wb") as file:
                file.write(source)

    def write(self, data):
        with open(self.image, "wb") as file:
            file.write(data)

    def run(self, command, *words):
        words = [self.program, command, self.image, *words, *self.sources]
        done = subprocess.run(words, stdin=subprocess.DEVNULL, capture_output=True, check=False)
        return done.returncode, done.stdout, done.stderr

    def is_checked(self, line, *words):
        """What is wrong with the answer to check, or nothing."""
        status = 0 if line.startswith("accepted ") else 1
        answer = self.run("check", *words)
        return None if answer == (status, f"{line}\n".encode(), b"") else f"answered {answer} for {line!r}"


def shown_texts(image, sources):
    """The texts that the commands of an accepted image give, up to the first one that is too long to be shown here."""
    count = 0
    for revision in image.revisions:
        if image.length(revision.root) > LONGEST_SHOWN:
            break
        count += 1
    return verify.all_texts(image._replace(revisions=image.revisions[:count]), sources)


def refused_fault(room, line):
    """What is wrong with what show and migrate say of a refused image, or nothing."""
    for words in [("show", "0"), ("migrate",)]:
        if room.run(*words) != (1, b"", f"{line}\n".encode()):
            return f"{words[0]} answers {room.run(*words)} for {line!r}"
    return None


def accepted_fault(room, data, image, sources, with_long_pool):
    """What is wrong with the texts of an accepted image, or with the image that is written anew, or nothing."""
    texts = shown_texts(image, sources)
    fault = record_fault(image, texts, sources)
    if fault:
        return fault
    if room.run("migrate") != (0, data[:11] + b"\2" + data[12:], b""):
        return "it is written anew as another one"
    for longer in [False, True] if with_long_pool else [False]:
        if longer:
            room.write(with_pool(data, len(image.pool) + MEGABYTE))
        for k, text in enumerate(texts):
            shown = room.run("show", str(k))
            if shown != (0, text, b""):
                return f"revision {k} is shown as {shown}{' with a long pool' if longer else ''}"
    return None


def record_fault(image, texts, sources):
    """Whether what the nodes record is not what their bytes say, bottom up, or a root or a mark is wrong."""
    known = []
    for node in image.nodes:
        known.append(node_bytes(image, node, known, sources))
        if known[-1] is not None and (len(known[-1][0]), known[-1][1]) != (node.length, node.depth):
            return f"node {len(known) - 1} has another length or depth"
    for k, text in enumerate(texts):
        root, mark = image.revisions[k].root, image.revisions[k].mark
        found = (b"", 0) if root == verify.NIL else known[root]
        if found is not None and found[0] != text:
            return f"the root of revision {k} has another text"
        if found is not None and mark and (root == verify.NIL or len(text) < fibonacci(found[1] + 2)):
            return f"revision {k} has a mark and is not balanced"
    return None


def node_bytes(image, node, known, sources):
    """The bytes of a node and its depth, from those of the nodes before it, or nothing where it is long."""
    children = [known[child] for child in node.children()]
    if node.length > LONGEST_SHOWN or None in children:
        return None
    depth = 1 + max(depth for _, depth in children) if children else 0
    end = node.place + node.length
    if node.kind == verify.CONCATENATION:
        return children[0][0] + children[1][0], depth
    if node.kind == verify.FUNCTION:
        return bytes(function_byte(node, place) for place in range(node.length)), depth
    whole = {verify.LITERAL: lambda: image.pool, verify.SOURCE_PART: lambda: sources[node.x], verify.SUBSTRING: lambda: children[0][0]}
    return whole[node.kind]()[node.place : end], depth


def function_byte(node, place):
    if node.function == verify.RAMP:
        return (node.pattern[0] + place) % 256
    return node.pattern[place % len(node.pattern)]


def fibonacci(number):
    here, above = 0, 1
    for _ in range(number):
        here, above = above, here + above
    return here


def with_pool(data, size):
    """The image with a pool of so many bytes, of which the last ones are zeros."""
    old = struct.unpack(">Q", data[32:40])[0]
    return data[:32] + struct.pack(">Q", size) + data[40:] + bytes(size - old)


def answers(program, folder, data, sources, chance, with_long_pool):
    """The line for an image, and what is wrong with the answers for it, or nothing."""
    line = verify.line(data, sources)
    room = Room(program, folder, data, sources)
    fault = room.is_checked(line)
    if fault is None and chance.random() < 0.1:
        looks = chance.choice([0, 100, looks_of(data, sources)]) + chance.choice([-1, 0, 1])
        limit = max(looks, 0)
        fault = room.is_checked(verify.line(data, sources, limit), "--at-most", str(limit))
    if fault is None and line.startswith("refused ") and chance.random() < 0.05:
        fault = refused_fault(room, line)
    if fault is None and line.startswith("accepted "):
        fault = accepted_fault(room, data, verify.checked(data, sources), sources, with_long_pool)
    return line, fault


def looks_of(data, sources):
    """How many looks the check may take, where the bytes spell an image."""
    refused = re.fullmatch(r"refused looks (\d+)", verify.line(data, sources, 0))
    return int(refused[1]) if refused else 0


# ---- Which faults came


def named(line, data):
    """The fault of a line, with the kind of record that has it."""
    found = re.fullmatch(r"refused (C\d+)\((\d+)(?:,(\d+))?\)", line)
    if not found:
        return line.removeprefix("refused ") if line.startswith("refused ") else "accepted"
    code, k, row = found[1], int(found[2]), found[3]
    if code == "C3":
        return code
    image = verify.image_of(data)
    if code in ("C4", "C5", "C6", "C7"):
        return f"{code} of a {NODE_KINDS[image.nodes[k].kind]}"
    if code in ("C8", "C9", "C10"):
        return f"{code} of {COMMANDS[image.revisions[k].command]}"
    rows = image.revisions[k].rows
    return f"{code} of a {TAGS[rows[int(row)].tag]}" if int(row) < len(rows) else f"{code} of text left uncovered"


def all_faults():
    """Every fault with every kind of record that may have it."""
    yield from [f"C1(I{number})" for number in (1, 2, 3, 4, 5, 6, 7)]
    yield from ["C2", "C3"]
    rules = {"C4": (2, 4, 5), "C5": (1, 2, 3, 4, 5), "C6": (1, 2, 3, 4, 5), "C7": (1, 2, 5)}
    yield from [f"{code} of a {NODE_KINDS[kind]}" for code, kinds in rules.items() for kind in kinds]
    yield from [f"C8 of {command}" for command in COMMANDS[2:]]
    yield from [f"{code} of {command}" for code in ("C9", "C10") for command in COMMANDS[1:]]
    yield from [f"C11 of a {tag}" for tag in TAGS[1:]]
    yield "C11 of text left uncovered"


# ---- Batches


def made_batch(program, seed):
    """One made image and damaged ones: how many times each fault came, and what was wrong."""
    chance = random.Random(seed)
    image = made(chance)
    sections = image.sections()
    data, found, faults = b"".join(b"".join(section) for section in sections), [], collections.Counter()
    with tempfile.TemporaryDirectory() as folder:
        for k in range(IMAGES_OF_A_BATCH):
            tried = data if k == 0 else damaged(sections, chance)
            sources = image.sources if k == 0 or chance.random() < 0.95 else other_sources(image.sources, chance)
            line, fault = answers(program, folder, tried, sources, chance, seed % 10 == 0)
            if k == 0:
                fault = fault or whole_fault(image, line)
            faults[named(line, tried) if k else "whole"] += 1
            if fault:
                found.append(f"seed {seed}, image {k}: {fault}")
    return faults, found


def whole_fault(image, line):
    """What is wrong with the line of a whole image, or nothing."""
    if image.too_deep() is not None:
        return None if line == f"refused C6({image.too_deep()})" else f"a node too deep is answered {line!r}"
    wanted = f"accepted {len(image.revisions)} revisions {len(image.nodes)} nodes {len(image.rows)} rows"
    return None if line == wanted else f"a whole image is answered {line!r}"


def set_batch(program, data, first):
    """An image with the byte of a few places changed, each by a little and by much."""
    chance, faults, found = random.Random(first), collections.Counter(), []
    with tempfile.TemporaryDirectory() as folder:
        for place in range(first, min(first + PLACES_OF_A_BATCH, len(data))):
            old = data[place]
            for new in sorted({0, 1, (old + 1) % 256, (old - 1) % 256, 255} - {old}):
                tried = data[:place] + bytes([new]) + data[place + 1 :]
                line, fault = answers(program, folder, tried, [], chance, True)
                faults[named(line, tried)] += 1
                if fault:
                    found.append(f"byte {place} set to {new}: {fault}")
    return faults, found


def batch(given):
    return given[0](*given[1:])


def batches_of(program, images, first):
    with open(os.path.join(TOP, "tests/vectors/version2/many_replacements.hex"), encoding="ascii") as file:
        worked = bytes.fromhex(file.read())
    places = range(0, len(worked), PLACES_OF_A_BATCH) if images >= ALL_FAULTS_FROM else []
    seeds = range(first, first - (-images // IMAGES_OF_A_BATCH))
    return [(set_batch, program, worked, place) for place in places] + [(made_batch, program, seed) for seed in seeds]


def main():
    images = int(sys.argv[1]) if len(sys.argv) > 1 else 100_000
    program = sys.argv[2] if len(sys.argv) > 2 else PROGRAM
    first = int(sys.argv[3]) if len(sys.argv) > 3 else 0
    failed, faults = 0, collections.Counter()
    with multiprocessing.Pool() as pool:
        for came, found in pool.imap_unordered(batch, batches_of(program, images, first)):
            faults += came
            failed += len(found)
            for line in found:
                print(line)
    print("; ".join(f"{fault}: {count}" for fault, count in sorted(faults.items())))
    missing = [fault for fault in all_faults() if faults[fault] == 0] if images >= ALL_FAULTS_FROM else []
    for fault in missing:
        print(f"no image had the fault {fault}")
    failed += len(missing)
    print(f"{sum(faults.values()) + len(missing) - failed} passed, {failed} failed")
    return failed != 0


if __name__ == "__main__":
    sys.exit(main())
