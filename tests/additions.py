#!/usr/bin/env python3
"""Whether CONTRIBUTING.md names each file that a new command, key, tool or kind of node has to be told in: a file that names several old ones of
that sort (the words of SORTS, all of them) knows the sort by cases, so the section of that name has to have the file's name, its path, or a folder
of proofs that it lies in. Each file that is not named is told. The last line says how many there are; the status is 1 where one is not named.

additions.py"""

import os
import re
import sys

TOP = os.path.dirname(os.path.dirname(os.path.abspath(__file__)))
FOLDERS = ["crates", "bin", "tests", "bench", "docs", "man", "completions"]
# Wrong edits and images are made for one case, and what is told is not what has to be.
LEFT_OUT = re.compile(r"/must-fail/|^tests/(?:vectors|data)/|^tests/additions\.py$")

# A section of CONTRIBUTING.md, and words that a file of that sort has, in code or as they are typed.
SORTS = {
    "A command": [rf'\b{name}\b|\b{name.upper()}\b|"{name.lower()}"|\b{name.lower()} r' for name in ("Join", "Fill", "Paste", "Balance")],
    "A key": [r"\bEraseBefore\b", r"\bDropCut\b", r"\bLineStart\b"],
    "A tool": [r"\b[Mm]igrate\b", r"\b[Bb]lame\b", r"\b[Cc]ommit\b"],
    "A kind of node": [r"\bCat\b", r"\bSub\b", r"\bLit\b", r"\bSrc\b", r"\bFun\b"],
}


def texts():
    """The files in which a sort may be told, each with its text. What was built, in folders named out, is passed over."""
    for top in FOLDERS:
        for folder, folders, files in os.walk(os.path.join(TOP, top)):
            folders[:] = [name for name in folders if name not in ("out", "__pycache__")]
            for file in files:
                name = os.path.relpath(os.path.join(folder, file), TOP)
                if not LEFT_OUT.search(name):
                    with open(os.path.join(TOP, name), "rb") as content:
                        yield name, content.read().decode("utf-8", "replace")


def sections():
    """The sections of CONTRIBUTING.md by their headings."""
    with open(os.path.join(TOP, "CONTRIBUTING.md"), encoding="utf-8") as file:
        parts = re.split(r"^## (.*)\n", file.read(), flags=re.M)
    return dict(zip(parts[1::2], parts[2::2]))


def is_named(section, name):
    """Whether a section has a file's name without its ending, its path, or a folder of proofs that it lies in."""
    stem = os.path.splitext(os.path.basename(name))[0]
    if name in section or re.search(rf"(?<!\w){re.escape(stem)}(?!\w)", section):
        return True
    folders = re.match(r"crates/\w+/(proofs/.*)/", name)
    return bool(folders) and any(f"{way}/" in section for way in ways(folders.group(1)))


def ways(folder):
    """A folder and those that it lies in, below `proofs`."""
    names = folder.split("/")
    return ["/".join(names[:end]) for end in range(2, len(names) + 1)]


def main():
    told, known = sections(), list(texts())
    count = missing = 0
    for sort, words in SORTS.items():
        for name, text in known:
            if all(re.search(word, text) for word in words):
                count += 1
                if not is_named(told.get(sort, ""), name):
                    missing += 1
                    print(f"CONTRIBUTING.md, {sort}: {name} is not named")
    print(f"{count} files know a sort by cases, {missing} of them not named")
    sys.exit(1 if missing else 0)


if __name__ == "__main__":
    main()
