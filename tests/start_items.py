#!/usr/bin/env python3
"""What the programs of the benchmark name stood at the start, so that they can be built there too: the crates in the lines of cord_jobs, cord_bench and
cord_answers in crates.txt, each item and definition that they import, and each call whose name is one of a crate's functions. The start's crates, public
items, definitions and functions stand in tests/data/start_items.txt. Told is each name that is not there; the status is then 1.

start_items.py          compares
start_items.py --write  makes tests/data/start_items.txt anew, of the commit that the first line of docs/PERF.md names"""

import os
import re
import subprocess
import sys

TOP = os.path.dirname(os.path.dirname(os.path.abspath(__file__)))
DATA = f"{TOP}/tests/data/start_items.txt"
PROGRAMS = ("cord_jobs", "cord_bench", "cord_answers")
START = re.compile(r"The start: ([0-9a-f]{40})\n")
DEFINED = re.compile(r"^(?:(?:pub|abbrev|unfoldable|record|data) )*pub (?:(?:abbrev|unfoldable|record|data) )*(?!use\b|mod\b)([^\s:({]+)", re.M)
FUNCTION = re.compile(r"\bfn (\w+)")
# Functions of std that crates have too.
STD = {"copied", "flush", "nth"}
NAMED = re.compile(r"(?:\.|\b[A-Z]\w*(?:::<[^>]*>)?::)([a-z_]\w*)(?:::<[^>]*>)?\(")


def read(path):
    with open(f"{TOP}/{path}", encoding="utf-8") as file:
        return file.read()


def bare(source):
    """A source without its comments and its modules of tests."""
    return re.sub(r"//[^\n]*", "", source).split("#[cfg(test)]\nmod tests {")[0]


def split(names):
    """The names of a list, in braces or one alone."""
    return {name.strip().split(" as ")[0] for name in names.strip(" {}\n").split(",") if name.strip()}


def lines(text):
    """Each crate of crates.txt, with those that it stands on."""
    found = {}
    for line in text.split("\n"):
        head = re.match(r"(\w+)(?: staticlib)?:(.*)", line)
        if head:
            found[head[1]] = head[2].split()
    return found


def items(lib):
    """What a library's root file makes public: names that it passes on, its own, and its modules."""
    lib, found = bare(lib), set()
    for names in re.findall(r"^pub use (?:\w+::)*(\{[^}]*\}|\w+);", lib, re.M):
        found |= split(names)
    return found | set(re.findall(r"^pub (?:const )?(?:mod|fn|struct|enum|trait|const) (\w+)", lib, re.M))


def declared(source):
    """What the code of a file declares to contracts: the variants of each type, and the constants, by the name of a module."""
    source, found = bare(source), {"TheConstants": set(re.findall(r"\bconst (\w+):", source))}
    for name, body in re.findall(r"\benum (\w+)[^{]*\{(.*?)\n\}", source, re.S):
        found[f"{name}.TheVariants"] = set(re.findall(r"^    (\w+)", body, re.M))
    return found


def modules(crate, files):
    """The public names of a crate by their modules, of its files by their paths below it."""
    found = {crate: items(files.get("src/lib.rt", ""))}
    for path, text in files.items():
        name = path.split("/")[-1].rsplit(".", 1)[0]
        if path.startswith("specs/") and name != "Lib":
            passed = [split(names) for names in re.findall(r"^pub use [\w.]+\.\{([^}]*)\}", text, re.M)]
            found[f"{crate}.specs.{name}"] = set(DEFINED.findall(text)).union(*passed)
        elif path.startswith("src/"):
            for module, names in declared(text).items():
                found[f"{crate}.specs.declared.{path[4:-3].replace('/', '.')}.{module}"] = names
    return {module: names for module, names in found.items() if names}


def functions(files):
    """The names of the functions of a crate."""
    return {name for path, text in files.items() if path.startswith("src/") for name in FUNCTION.findall(bare(text))}


def libraries(crates):
    """The crates that are no programs and no tests."""
    return [name for name in crates if name not in PROGRAMS and name != "cordkit" and not name.endswith("_tests")]


# ---- The start


def git(*words):
    return subprocess.run(["git", "-C", TOP, *words], check=True, stdout=subprocess.PIPE, text=True).stdout


def write():
    start = START.match(read("docs/PERF.md"))[1]
    crates = lines(git("show", f"{start}:crates.txt"))
    names = libraries(crates)
    told, all_functions = [f"# The crates of {start}, the names that each made public, and its functions: tests/start_items.py --write"], set()
    told.append(f"crates {' '.join(names)}")
    for crate in names:
        folder = f"crates/{crate}/"
        paths = git("ls-tree", "-r", "--name-only", start, f"{folder}src", f"{folder}specs").split()
        files = {path[len(folder) :]: git("show", f"{start}:{path}") for path in paths if path.endswith((".rt", ".antt"))}
        told += [f"{module} {' '.join(sorted(found))}" for module, found in sorted(modules(crate, files).items())]
        all_functions |= functions(files)
    told.append(f"functions {' '.join(sorted(all_functions))}")
    with open(DATA, "w", encoding="utf-8") as file:
        file.write("\n".join(told) + "\n")


# ---- The programs


def here(crate):
    """The files of a crate that say what it names, by their paths below it."""
    found = {}
    for part in ("src", "specs", "proofs"):
        for folder, _, names in os.walk(f"{TOP}/crates/{crate}/{part}"):
            for name in names:
                path = os.path.relpath(os.path.join(folder, name), f"{TOP}/crates/{crate}")
                found[path] = read(f"crates/{crate}/{path}")
    return found


def imports(files):
    """Each import of a program: its file, the crate, the module and the names, and whether it is one of contracts."""
    for path, text in files.items():
        text = bare(text)
        for crate, names in re.findall(r"^ *use (\w+)::((?:\w+::)*(?:\{[^}]*\}|\w+));", text, re.M):
            for name in split(re.sub(r"^(?:\w+::)+(?=\{)", "", names)):
                yield path, crate, crate, name.split("::")[0]
        for crate, rest, names in re.findall(r"\buse Rattle\.(\w+)\.([\w.]+)\.\{([^}]*)\}", text):
            for name in split(names):
                yield path, crate, f"{crate}.{rest}", name


def faults(program, crates, start, ours):
    """What a program names that the start does not have."""
    files = here(program)
    for crate in crates[program]:
        if crate in crates and crate not in start["crates"]:
            yield f"crates.txt: {program} stands on {crate}, which the start lacks"
    for path, crate, module, name in imports(files):
        if crate in crates and crate != program and ".proofs." not in module and name not in start.get(module, ()):
            yield f"crates/{program}/{path}: {module} has no {name} at the start"
    own = functions(files)
    for path, text in files.items():
        for name in sorted(set(NAMED.findall(bare(text)))) if path.startswith("src/") else ():
            if name in ours - own - start["functions"] - STD:
                yield f"crates/{program}/{path}: no function of the start is {name}"


def compare():
    crates = lines(read("crates.txt"))
    start = {line.split()[0]: set(line.split()[1:]) for line in open(DATA, encoding="utf-8") if not line.startswith("#")}
    if START.match(read("docs/PERF.md"))[1] not in read("tests/data/start_items.txt"):
        print("tests/data/start_items.txt is not of the start that docs/PERF.md names")
        return 1
    ours = set().union(*(functions(here(crate)) for crate in libraries(crates)))
    wrong = [fault for program in PROGRAMS for fault in faults(program, crates, start, ours)]
    print("\n".join(wrong + [f"{len(PROGRAMS)} programs over the start's {len(start['crates'])} crates; {len(wrong)} wrong"]))
    return bool(wrong)


if __name__ == "__main__":
    sys.exit(write() if sys.argv[1:] == ["--write"] else compare())
