#!/usr/bin/env python3
"""Compares the library, by cordkit.py, and programs over it, with what has to be answered: the worked images, images that chance makes
(tests/made_images.py) and damaged ones. Each line is that of the second checker, bin/cordkit-verify; each text of an accepted image is what the
commands give on plain bytes; each byte is where it is said to stand, up to the end of its leaf's span, and was brought by the revision that it is
said to be of, asked for alone or with those behind it.

Usage: compare.py [IMAGES [PROGRAM [CHECK SHOW]...]]: the built cordkit, where PROGRAM names it, and each pair of callers, as check_c and show_c, are
asked for each line, with its status, and for the newest text of each accepted image. The last line is 'N passed, M failed'.
"""

import multiprocessing
import os
import random
import struct
import subprocess
import sys
import tempfile
import time

HERE = os.path.dirname(os.path.abspath(__file__))
TOP = os.path.dirname(os.path.dirname(os.path.dirname(HERE)))
sys.path[:0] = [HERE, os.path.join(TOP, "tests")]

from second_checker import verify  # noqa: E402
from damaged_images import damaged, other_sources  # noqa: E402
from made_images import made  # noqa: E402
from worked_images import worked  # noqa: E402

import cordkit  # noqa: E402

LONGEST_SHOWN = 1 << 16
PLACES_OF_A_TEXT = 100
RUNS_OF_A_TEXT = 2000
FAR_BACK = 200_000
SECONDS_BACK = 5
IMAGES_OF_A_SEED = 21


def tried(seed):
    """Images of a seed, one whole and the others damaged: data, sources, and the line of the second checker."""
    chance = random.Random(seed)
    image = made(chance)
    sections = image.sections()
    for k in range(IMAGES_OF_A_SEED):
        data = b"".join(b"".join(section) for section in sections) if k == 0 else damaged(sections, chance)
        sources = image.sources if k == 0 or chance.random() < 0.95 else other_sources(image.sources, chance)
        yield data, sources, verify.line(data, sources)


def brought(image, revision, k, before):
    """The revision that brought each byte of revision k, where those of the revisions before it are known: by plain lists."""
    c = revision
    r = before[c.r] if c.command not in (verify.NEW, verify.OPEN) else []
    if c.command == verify.NEW:
        return []
    if c.command == verify.OPEN:
        return [k] * image.sources[c.q]
    if c.command == verify.MANY:
        pieces, end = [], 0
        for splice in c.splices:
            pieces += r[end : splice.p] + [k] * splice.n
            end = splice.p + splice.m
        return pieces + r[end:]
    return {
        verify.INSERT: lambda: r[: c.p] + [k] * c.n + r[c.p :],
        verify.DELETE: lambda: r[: c.p] + r[c.p + c.n :],
        verify.REPLACE: lambda: r[: c.p] + [k] * c.n + r[c.p + c.m :],
        verify.PASTE: lambda: r[: c.p] + before[c.q][c.a : c.a + c.n] + r[c.p :],
        verify.JOIN: lambda: r + before[c.q],
        verify.CUT: lambda: r[c.a : c.a + c.n],
        verify.FILL_IN: lambda: r[: c.p] + [k] * c.n + r[c.p :],
        verify.BACK: lambda: r,
        verify.BALANCE: lambda: r,
    }[c.command]()


def leaf_span(image, node, place):
    """Where place of a node lies in a leaf, and how many bytes follow it there: by the nodes' records alone."""
    left = image.nodes[node].length - place
    while True:
        this = image.nodes[node]
        if this.kind == verify.CONCATENATION:
            l, r = this.children()
            first = image.nodes[l].length
            if place < first:
                node, left = l, min(left, first - place)
            else:
                node, place = r, place - first
        elif this.kind == verify.SUBSTRING:
            node, place = this.children()[0], place + this.place
        else:
            return this, place, left


def run_fault(image, opened, k, place, text, sources):
    """What is wrong with where a byte is said to stand, or nothing."""
    run = opened.locate(k, place)
    leaf, start, left = leaf_span(image, image.revisions[k].root, place)
    wanted = text[place : place + run.len]
    if run.len != left or len(wanted) != left:
        return f"a run of {run.len} bytes where {left} are left"
    if run.kind == cordkit.POOL:
        found = image.pool[run.start : run.start + run.len]
        is_right = leaf.kind == verify.LITERAL and run.start == leaf.place + start
    elif run.kind == cordkit.SOURCE:
        found = sources[run.source][run.start : run.start + run.len]
        is_right = leaf.kind == verify.SOURCE_PART and run.start == leaf.place + start and run.source == leaf.x
    else:
        found = bytes(run.answer(j) for j in range(run.len))
        is_first = run.start < run.pattern_len if run.function == cordkit.CYCLE else run.start == 0
        is_right = leaf.kind == verify.FUNCTION and run.function == leaf.function and is_first
    return None if is_right and found == wanted else f"byte {place} of revision {k} is said to stand in {run}"


def texts_of(image, sources):
    """The texts of an accepted image up to the first that is too long, and the revision that brought each of their bytes."""
    origins = []
    for k, revision in enumerate(image.revisions):
        if image.length(revision.root) > LONGEST_SHOWN:
            break
        origins.append(brought(image, revision, k, origins))
    return verify.all_texts(image._replace(revisions=image.revisions[: len(origins)]), sources), origins


def image_fault(image, data, sources, texts, origins):
    """What is wrong with the texts of an accepted image, or nothing."""
    opened = cordkit.Image(data, sources)
    if opened.revisions != len(image.revisions):
        return f"{opened.revisions} revisions"
    for k, text in enumerate(texts):
        if opened.length(k) != len(text) or opened.text(k) != text or opened.text(k, 3, 7) != text[3:10]:
            return f"revision {k} has another text"
        for place in range(0, len(text), 1 + len(text) // PLACES_OF_A_TEXT):
            fault = run_fault(image, opened, k, place, text, sources)
            if fault is None and opened.byte(k, place) != text[place]:
                fault = f"byte {place} of revision {k} is {opened.byte(k, place)}"
            if fault is None:
                fault = origin_fault(opened, texts, origins, k, place)
            if fault:
                return fault
        fault = runs_fault(opened, k, len(text))
        if fault:
            return fault
    return lengths_fault(image, data, sources, texts)


def origin_fault(opened, texts, origins, k, place):
    """What is wrong with the origin of a byte: each byte of its run is of that revision, and stood there with this origin."""
    found = opened.blame(k, place)
    there = slice(found.place, found.place + found.len)
    run = slice(place, place + found.len)
    if found.len < 1 or run.stop > len(texts[k]) or found.revision > k:
        return f"byte {place} of revision {k} has {found!r}"
    if origins[k][run] != [found.revision] * found.len or origins[found.revision][there] != [found.revision] * found.len:
        return f"byte {place} of revision {k} has {found!r}, and is of {origins[k][place]}"
    if texts[k][run] != texts[found.revision][there]:
        return f"byte {place} of revision {k} has {found!r}, where other bytes stood"
    return None


def runs_fault(opened, k, size):
    """What is wrong with the runs that rooms of several sizes are filled with, or nothing: each is what is told of its first byte alone."""
    if size > RUNS_OF_A_TEXT:
        return None
    wanted, place = [], 0
    while place < size:
        wanted.append(repr(opened.blame(k, place)))
        place += opened.blame(k, place).len
    for room in (1, 2, 3, 7, 64, 4096):
        told = [repr(run) for run in opened.origins(k, 0, room)]
        if told != wanted:
            return f"revision {k} has other runs in a room of {room}: {told[:8]}, and not {wanted[:8]}"
    return None


def lengths_fault(image, data, sources, texts):
    """The same over lengths alone: such an image is accepted, or wants the bytes of a source; then bytes of a source are not held."""
    try:
        opened = cordkit.Image(data, [len(source) for source in sources])
    except cordkit.Refused as refused:
        return None if str(refused) == "refused C12(S2)" else f"{refused} over lengths alone"
    for k, text in enumerate(texts):
        for place in range(0, len(text), 1 + len(text) // 20):
            try:
                if opened.byte(k, place) != text[place]:
                    return f"another byte {place} of revision {k} over lengths alone"
            except cordkit.NotHeld:
                if leaf_span(image, image.revisions[k].root, place)[0].kind != verify.SOURCE_PART:
                    return f"byte {place} of revision {k} is not held, and is of no source"
    return None


def looks_fault(data, sources):
    """Whether the library tells another number of looks than the second checker, or nothing."""
    bound = cordkit.looks_bound(data)
    line = verify.line(data, sources, 0)
    if bound is None:
        return None if line.startswith("refused C1(") else "no looks are told"
    is_told = bound == 0 or line == f"refused looks {bound}" or line.startswith(("refused C2", "refused C3"))
    return None if is_told else f"{bound} looks are told and not {line!r}"


def programs_fault(programs, folder, data, sources, line, newest):
    """Whether a program answers otherwise: for the line, and for the newest text, where there is one that is not too long. Or nothing."""
    names = [os.path.join(folder, name) for name in ["image", *map(str, range(len(sources)))]]
    for name, content in zip(names, [data, *sources]):
        with open(name, "wb") as file:
            file.write(content)
    status = 0 if line.startswith("accepted ") else 1
    for check, show in programs:
        ran = subprocess.run([*check, *names], capture_output=True, check=False)
        if ran.stdout != line.encode() + b"\n" or ran.returncode != status:
            return f"{' '.join(check)} prints {ran.stdout!r} with status {ran.returncode} and not {line!r}"
        if newest:
            k, text = newest
            ran = subprocess.run([*show, names[0], str(k), *names[1:]], capture_output=True, check=False)
            if ran.stdout != text or ran.returncode != 0:
                return f"{' '.join(show)} shows revision {k} as another text, with status {ran.returncode}"
    return None


def fault_of(data, sources, line, programs, folder):
    told = str(cordkit.check(data, sources))
    if told != line:
        return f"{told!r} and not {line!r}"
    fault, newest = looks_fault(data, sources), None
    if fault is None and line.startswith("accepted "):
        image = verify.checked(data, sources)
        texts, origins = texts_of(image, sources)
        fault = image_fault(image, data, sources, texts, origins)
        if texts and len(texts) == len(image.revisions):
            newest = len(texts) - 1, texts[-1]
    return fault or programs_fault(programs, folder, data, sources, line, newest)


def batch(given):
    """Of a seed's images, or where it is None of the worked ones: how many there are, how many of them are accepted, and what is wrong."""
    seed, programs = given
    count, accepted, faults = 0, 0, []
    with tempfile.TemporaryDirectory() as folder:
        for data, sources, line in worked() if seed is None else tried(seed):
            count, accepted = count + 1, accepted + line.startswith("accepted ")
            fault = fault_of(data, sources, line, programs, folder)
            if fault:
                faults.append(f"image {count - 1} of seed {seed}, {data[:4000].hex()}: {fault}")
    return count, accepted, faults


def gone_back(times):
    """The image of `abc`, gone back to so many times, each time to the revision before."""
    header = b"CORDSESS" + struct.pack(">6IQ", 1, 0, 1, times + 2, times + 1, 0, 3)
    node = struct.pack(">B11xI16x", 1, 3)
    none = (0, 0, 0, 0)
    texts = [(1, 0, 0xFFFFFFFF, 0, 0, *none, 0), (3, 1, 0, 0, 0, 0, 0, 0, 3, 1)] + [(10, 1, 0, k, 0, *none, 1) for k in range(1, times + 1)]
    revisions = [struct.pack(">BBHIIIQQQQII", code, mark, 0, root, r, q, p, m, a, n, rows, 0) for code, mark, root, r, q, p, m, a, n, rows in texts]
    rows = [struct.pack(">B11xIQ", 2, 3, 0)] + [struct.pack(">B11xIQ", 1, 3, 0)] * times
    return b"".join([header, node, *revisions, *rows, b"abc"])


def far_fault():
    """What is wrong with origins far back, or nothing: a walk that goes through all records before each text anew takes minutes."""
    opened = cordkit.Image(gone_back(FAR_BACK))
    start, last = time.monotonic(), FAR_BACK + 1
    found = [repr(run) for run in (opened.blame(last, 0), *opened.origins(last))]
    wanted = "Origin(revision=1, kind=1, source=0, byte=0, place=0, start=0, len=3)"
    took = time.monotonic() - start
    return None if found == [wanted, wanted] and took < SECONDS_BACK else f"{found} far back, in {took} s"


def main():
    images = int(sys.argv[1]) if len(sys.argv) > 1 else 2100
    program, callers = sys.argv[2] if len(sys.argv) > 2 else "", sys.argv[3:]
    programs = [([check], [show]) for check, show in zip(callers[::2], callers[1::2])]
    if program:
        programs.append(([program, "check"], [program, "show"]))
    seeds = [None, *range(-(-images // IMAGES_OF_A_SEED))]
    count = accepted = failed = 0
    with multiprocessing.Pool() as pool:
        for came, good, faults in pool.imap_unordered(batch, [(seed, programs) for seed in seeds]):
            count, accepted, failed = count + came, accepted + good, failed + len(faults)
            for fault in faults:
                print(fault)
    fault = far_fault()
    count, failed = count + 1, failed + (fault is not None)
    if fault:
        print(fault)
    print(f"{accepted} of {count} images are accepted, with each text, place and origin; {len(programs)} programs besides")
    print(f"{count - failed} passed, {failed} failed")
    return failed != 0


if __name__ == "__main__":
    sys.exit(main())
