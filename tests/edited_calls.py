#!/usr/bin/env python3
"""Which public calls have a wrong edit of their own: in crates/CRATE/must-fail/, which the gate tries, or in audit/CRATE/ alone; and which have none by
name: calls of traits, whose edits stand where types have them; laws, which have no code; and others, mostly over functions below that have it. The line
of CONTRIBUTING.md that counts them has to be right.

edited_calls.py          compares; the status is 1 where the line is another
edited_calls.py --write  writes the line anew
edited_calls.py --bare   lists those others"""

import glob
import os
import re
import sys

sys.dont_write_bytecode = True
from definitions import TOP, Crates

PAGE = f"{TOP}/CONTRIBUTING.md"
LINE = re.compile(r"(?m)^Of \d+ public calls .*$")


def edited(folder):
    """The crate, the file and the function of each edit of a folder of every crate."""
    found = set()
    for path in glob.glob(f"{TOP}/{folder}"):
        names = os.path.basename(path).split(".")
        found.add((os.path.relpath(path, TOP).split(os.sep)[1], names[0], names[1]))
    return found


def is_of_trait(call):
    owner = call.name.split("::")[0]
    with open(f"{TOP}/crates/{call.crate}/src/{call.place.split('/')[-1]}", encoding="utf-8") as file:
        return "::" in call.name and re.search(rf"\btrait {owner}\b", file.read()) is not None


def sorts():
    """The public calls by where their edits are."""
    gate, audit = edited("crates/*/must-fail/*.edit"), edited("audit/*/*.edit")
    found = {"gate": [], "audit": [], "trait": [], "law": [], "bare": []}
    for call in Crates().calls:
        file = call.place.split("/")[-1][:-3]
        key = call.crate, file, call.name.split("::")[-1]
        sort = "gate" if key in gate else "audit" if key in audit else "trait" if is_of_trait(call) else "law" if file in ("law", "laws") else "bare"
        found[sort].append(call)
    return found


def main():
    found = sorts()
    gate, audit, trait, law, bare = (len(found[sort]) for sort in ("gate", "audit", "trait", "law", "bare"))
    line = (
        f"Of {gate + audit + trait + law + bare} public calls {gate} have an edit of their own in the gate, {audit} in `audit/` alone; {trait} are of traits, {law} are laws, "
        f"and {bare} have none by name."
    )
    with open(PAGE, encoding="utf-8") as file:
        page = file.read()
    if sys.argv[1:] == ["--bare"]:
        print("\n".join(f"{call.crate}: {call.name}" for call in found["bare"]))
    elif sys.argv[1:] == ["--write"]:
        with open(PAGE, "w", encoding="utf-8") as file:
            file.write(LINE.sub(line, page))
    elif line not in page:
        print(f"CONTRIBUTING.md has to say, by python3 tests/edited_calls.py --write:\n{line}")
        return 1
    else:
        print(line)
    return 0


sys.exit(main())
