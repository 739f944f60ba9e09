#!/usr/bin/env python3
"""Whole matches: a `match` over the kinds of nodes, recorded commands, commands, keys or tools names each kind, so that a new one is asked for at
each place. Told is, with its file and line, an arm that takes all kinds that are left: `_`, or a name alone, also inside `Some(..)` or a tuple where
another arm has a kind in that place. Those that are left are excused below, each with its reason, and listed; an excuse that is not needed is wrong
too. The status is 1 where something is wrong. The crates of tests are left out, and so is what asks of one kind alone: `if let`, `let .. else` and `matches!`.

matches.py"""

import glob
import os
import re
import sys

TOP = os.path.dirname(os.path.dirname(os.path.abspath(__file__)))
KIND = re.compile(r"\b(?:NodeView|Edit|Command|Key|Action)::[A-Z]")
# Kinds that a file brings in without their enum's name would be missed.
BROUGHT = re.compile(r"\buse [^;]*\b(?:NodeView|Edit|Command|Key|Action)::[{*A-Z]")
OPEN, CLOSED = "([{", ")]}"

# A file and its function: why an arm there takes all kinds that are left.
EXCUSED = {
    ("crates/cordkit/src/main.rt", "run_over_image"): "run names each tool, and hands some of them here: one dispatch in six short functions",
    ("crates/cordkit/src/main.rt", "run_over_records"): "run names each tool, and hands some of them here: one dispatch in six short functions",
    ("crates/cordkit/src/main.rt", "run_blame_or_stdin"): "run names each tool, and hands some of them here: one dispatch in six short functions",
    ("crates/cordkit/src/main.rt", "run_session"): "run names each tool, and hands some of them here: one dispatch in six short functions",
    ("crates/cordkit/src/main.rt", "run_states"): "run names each tool, and hands some of them here: one dispatch in six short functions",
    ("crates/edit_commands/src/known.rt", "over_its_own"): "gives back each command as it is but the one with splices; full_edit says what each means",
    ("crates/session_origins/src/history.rt", "over_its_own"): "gives back each command as it is but the one with splices; full_edit says what each means",
    ("crates/rebalance/src/pieces.rt", "leaf_part"): "a test stands beside its one kind: every leaf but a short function is cut, a long function too",
    ("crates/saved_session/src/taking.rt", "splices_named"): "only one kind has splices, and named_splices says what each kind names",
    ("crates/screen_editor/src/known.rt", "lines_after"): "of each key LinesBehind is proved, so one that changes lines cannot pass for one that keeps them",
    ("crates/screen_editor/src/known.rt", "taken_out"): "of each key TakesSpan is proved, so one that deletes bytes cannot pass for one that deletes none",
    ("crates/command_parts/src/edit.rt", "splice_count"): "only one kind has splices, and splices_of says how many each kind has",
}


def bare(text):
    """A source with blanks for comments, texts, characters and the arguments of types."""

    def blank(found):
        return re.sub(r"[^\n]", " ", found.group())

    text = re.sub(r"//[^\n]*|b?\"(?:\\.|[^\"\\])*\"|b?'(?:\\.[^']*|[^'\\])'", blank, text)
    return re.sub(r"::<(?:[^<>]|<[^<>]*>)*>", blank, text)


def end_of(text, at, stops):
    """Where the first of these stands behind a place, outside of brackets that open behind it."""
    depth = 0
    while depth or not text.startswith(stops, at):
        depth += (text[at] in OPEN) - (text[at] in CLOSED)
        at += 1
    return at


def arms(text, at):
    """Each arm of a match whose first one begins here: its place and its pattern, with what it is asked besides."""
    while True:
        at = re.compile(r"[\s,]*").match(text, at).end()
        if text[at] == "}":
            return
        arrow = end_of(text, at, "=>")
        yield at, text[at:arrow].strip()
        at = re.compile(r"=>\s*").match(text, arrow).end()
        at = end_of(text, at + 1, "}") + 1 if text[at] == "{" else end_of(text, at, (",", "}"))


def split(text, mark):
    """The parts of a text between marks that stand outside of brackets."""
    parts, at = [], 0
    while at <= len(text):
        stop = end_of(text + mark, at, mark)
        parts.append(text[at:stop].strip())
        at = stop + 1
    return parts


def places(pattern):
    """What a pattern has at each place: a place is the way to it, as `Some 0`."""
    for one in split(pattern, "|"):
        inner = re.fullmatch(r"(&|Some|Ok|Err|)\s*\((.*)\)", one, re.S)
        if inner:
            for i, part in enumerate(split(inner.group(2), ",")):
                yield from ((f"{inner.group(1)}{i} {way}", what) for way, what in places(part))
        else:
            yield "", one.lstrip("&")


def takes_all(text, at):
    """Where in a match over one of the enums an arm takes all kinds that are left."""
    found = [(place, dict(places(re.split(r"\bif\b", pattern)[0].strip())), " if " in f"{pattern} ") for place, pattern in arms(text, at)]
    asked = {way for _, whats, _ in found for way, what in whats.items() if KIND.search(what)}
    for place, whats, is_tested in found:
        whole = [way for way, what in whats.items() if re.fullmatch(r"_|[a-z]\w*", what)]
        if not is_tested and any(way.startswith(one) for one in whole for way in asked):
            yield place


def matches(text):
    """The line and the function of each arm of a source that takes all kinds that are left."""
    for match in re.finditer(r"\bmatch\b", text):
        for at in takes_all(text, end_of(text, match.end(), "{") + 1):
            yield text.count("\n", 0, at) + 1, re.findall(r"\bfn (\w+)", text[:at])[-1]


def main():
    wrong, needed = 0, set()
    for path in sorted(glob.glob(f"{TOP}/crates/*/src/**/*.rt", recursive=True)):
        name = os.path.relpath(path, TOP)
        if name.split(os.sep)[1].endswith("_tests"):
            continue
        with open(path, encoding="utf-8") as file:
            text = bare(file.read())
        if BROUGHT.search(text):
            wrong += 1
            print(f"{name} brings in kinds without the name of their enum")
        for line, function in matches(text):
            needed.add((name, function))
            if (name, function) not in EXCUSED:
                wrong += 1
                print(f"{name}:{line}: {function} takes all kinds that are left by one arm: name each, or ask a function that does")
    for name, function in sorted(set(EXCUSED) & needed):
        print(f"left in {name}: {function}: {EXCUSED[name, function]}")
    for name, function in sorted(set(EXCUSED) - needed):
        wrong += 1
        print(f"{name}: {function} names each kind now: take it out of EXCUSED")
    print(f"{len(needed)} functions take all kinds that are left by one arm; {wrong} wrong")
    return bool(wrong)


sys.exit(main())
