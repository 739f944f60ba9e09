"""The words of the command line."""

import argparse
import os
import sys

from . import looking, named
from .keeping import Keeper, Lost, cut_off
from .messages import NoMessage
from .server import Server

ABOUT = """Records what is typed into files that you name: a language server over standard input and output. Each change that an editor tells becomes a
revision of FILE.cord, and stays there, also what was deleted again. Only files that a PATTERN names are recorded, or ~/.config/cordkit/recorded."""


class Wrong(Exception):
    """Why a command is refused."""


def words():
    reader = argparse.ArgumentParser(prog="cordkit-lsp", description=ABOUT, allow_abbrev=False)
    reader.add_argument("patterns", nargs="*", metavar="PATTERN", help="a file to record: a path, or, without a slash, a name; * and ? stand for any characters")
    reader.add_argument("--whole", action="store_true", help="ask the editor for whole texts, at each change")
    one = reader.add_mutually_exclusive_group()
    one.add_argument("--start", metavar="FILE", help="record a file from now on")
    one.add_argument("--stop", metavar="FILE", help="record a file no more; what is kept stays")
    one.add_argument("--continue", dest="goes_on", metavar="FILE", help="keep what there is under another name, and begin anew at the next opening")
    one.add_argument("--show", nargs=2, metavar=("FILE", "TIME"), help="write the text as it was at the end of a minute or a day, 2026-11-29 09:31")
    one.add_argument("--runs", nargs=3, metavar=("FILE", "START", "COUNT"), help="print where bytes come from, and when: place, length, revision, minute")
    return reader


def start(path):
    """Names a file, and begins its image where it is there."""
    if not named.is_own(path):
        raise Wrong(f"{path} belongs to another user")
    if "\n" in path:
        raise Wrong("a name with the end of a line in it cannot stand in the list")
    named.name_file(path)
    if os.path.exists(path):
        with open(path, encoding="utf-8", errors="surrogateescape", newline="") as file:
            Keeper(path, file.read(), "utf-8", False, print).close()
    print(f"{path} is recorded from its next opening on: {path}.cord")


def stop(path):
    if not named.unname_file(path):
        raise Wrong(f"{path} is not named in {named.list_path()}")
    matching = [pattern for pattern in named.patterns() if named.matches(path, pattern)]
    if matching:
        raise Wrong(f"the pattern {matching[0]} in {named.list_path()} names it too")
    print(f"{path} is not recorded from its next opening on")


def go_on(path):
    """Keeps the image under another name, so that the next opening begins one."""
    if not os.path.exists(path + ".cord"):
        raise Wrong(f"{path}.cord is not there")
    if os.path.exists(path + ".cord.lines"):
        raise Wrong(f"{path} is open, or lines of it are not saved: close it, or open it and close it")
    print(f"{path}.cord is {path}.cord-{cut_off(path)} now")


def show(path, minute):
    known = looking.times_of(path)
    with looking.whole_image(path + ".cord") as image:
        sys.stdout.buffer.write(looking.text_of(image, known, minute))


def runs(path, first, count):
    if not (first.isdigit() and count.isdigit()):
        raise Wrong("START and COUNT are numbers of bytes")
    known = looking.times_of(path)
    with looking.whole_image(path + ".cord") as image:
        for place, length, revision, minute in looking.runs(image, known, "last", int(first), int(count)):
            print(place, length, revision, minute)


def path_word(word):
    return os.path.realpath(word)


def done(given):
    if given.start:
        start(path_word(given.start))
    elif given.stop:
        stop(path_word(given.stop))
    elif given.goes_on:
        go_on(path_word(given.goes_on))
    elif given.show:
        show(path_word(given.show[0]), given.show[1])
    elif given.runs:
        runs(path_word(given.runs[0]), *given.runs[1:])
    else:
        Server(given.patterns, given.whole).run()


def main():
    """Status: 0 done; 1 refused, and why is on standard error; 2 other words; 3 where a file could not be read or written."""
    reader = words()
    given = reader.parse_args()
    try:
        done(given)
    except (Wrong, Lost, NoMessage, looking.Unseen) as fault:
        print(f"cordkit-lsp: {fault}", file=sys.stderr)
        return 1
    except OSError as fault:
        print(f"cordkit-lsp: {fault.filename or 'output'}: {fault.strerror}", file=sys.stderr)
        return 3
    return 0
