"""What the documents name of the code. The README.md of each crate: at most ten lines; each call that it names is a public call of the crate, the
words in brackets behind a call are clauses of its contract or words of it, and the files where to begin are there. docs/PROVED.md: for each crate
that has public calls rows behind its name, which name such calls and what of their contracts carries the claim, or a law and its file; and an edit
that must be refused and a test, which are there, or `-`; and its list of what stays after a refusal names each public call that answers a `Result`,
with what of its contract says so. docs/ARCHITECTURE.md: a row for each crate, as in crates.txt. All pages: each link leads
to a file, and to a heading of it, that is there, and no line but a table's has more than 165 columns. What is not so is told, and the status is 1;
how many claims have no edit, laws left out, or no test is told too.

readmes.py
readmes.py --bare    also prints these claims"""

import glob
import os
import re
import sys

sys.dont_write_bytecode = True
from definitions import TOP, Crates, lines_of, words_of

CITED = re.compile(r"`([^`]+)`|([()])")
PROVED = "docs/PROVED.md"
MAP = "docs/ARCHITECTURE.md"


def is_there(*path):
    return os.path.exists(os.path.join(TOP, *path))


def named_call(calls, owner, name):
    """The calls that a name stands for, a method by its name alone behind another one of its type."""
    return [call for call in calls if call.name in (name, f"{owner}::{name}")]


def faults_of_calls(calls, text):
    """What is wrong of the calls that a list names."""
    owner, now, inside = None, [], False
    for name, bracket in CITED.findall(text):
        if bracket:
            inside = bracket == "("
            if not inside:
                now = []
        elif not inside and re.fullmatch(r"(?:\w+::)?[a-z_]+", name):
            owner = name.split("::")[0] if "::" in name else owner
            found = named_call(calls, owner, name)
            now += found
            if not found:
                yield f"`{name}` is no public call"
        elif inside and now and not any(name in [clause for _, clause, _ in call.clauses()] or name in words_of(call.text()) for call in now):
            yield f"`{name}` is no clause of {' or '.join(f'`{call.name}`' for call in now)}"


def faults_of(crates, crate):
    path = f"crates/{crate}/README.md"
    if not is_there(path):
        yield "there is none"
        return
    lines = lines_of(path)[:-1]
    if len(lines) > 10:
        yield f"it has {len(lines)} lines, and may have ten"
    lists, _, begin = "\n".join(lines).partition("\n- Begin at ")
    yield from faults_of_calls([call for call in crates.calls if call.crate == crate], lists.partition("\n- ")[2])
    for name in re.findall(r"`((?:src|specs|proofs)/[^`]*)`", begin):
        if not is_there("crates", crate, name):
            yield f"there is no {name}"


# -- the tables of what is proved


def carried_by(crates, call):
    """What may carry a claim of a call: its clauses, the words of its contract, what that rests on, and `RELATION.field` of these."""
    keys = crates.closure(crates.met(call.place, call.text()))
    fields = {f"{key[1]}.{field}" for key in keys for field in re.findall(r"^  (?:pub )?([^\s:]+) :", "\n".join(crates.lines[key]), re.M)}
    return {clause for _, clause, _ in call.clauses()} | words_of(call.text()) | {key[1] for key in keys} | fields


def faults_of_row(crates, crate, call_cell, clause_cell):
    """What is wrong of a row: of a law in a file; of a type, by the words of its files; of calls."""
    calls = [call for call in crates.calls if call.crate == crate]
    names, clauses = re.findall(r"`([^`]+)`", call_cell), re.findall(r"`([^`]+)`", clause_cell)
    if not names or not clauses:
        yield "a row names no call or no clause"
        return
    if "/" in names[0]:
        text = "\n".join(lines_of(f"crates/{crate}/{names[0]}")) if is_there("crates", crate, names[0]) else ""
        laws = re.findall(r"^pub (?:fn )?([^\s:(<]+)", text, re.M)
        yield from (f"`{name}` is no law of {names[0]}" for name in clauses if name not in laws)
        return
    carry, owner = set(), None
    for name in names:
        owner = name.split("::")[0] if "::" in name else owner
        found = named_call(calls, owner, name)
        types = [key for key in crates.lines if key[0].startswith(f"{crate}/") and key[1] == name]
        for call in found:
            carry |= carried_by(crates, call)
        for place, _ in types:
            carry |= words_of("\n".join(lines_of(f"crates/{place.replace('/', '/src/', 1)}")))
        if not found and not types:
            yield f"`{name}` is no public call"
    yield from (f"`{clause}` carries nothing of {call_cell}" for clause in clauses if clause not in carry)


def edits_of(crate):
    """The edits of a crate, each by its function and what it does."""
    paths = glob.glob(f"{TOP}/crates/{crate}/must-fail/*.edit") + glob.glob(f"{TOP}/audit/{crate}/*.edit")
    return {os.path.basename(path)[: -len(".edit")].split(".", 1)[1] for path in paths}


def all_tests():
    """The names of the tests of all crates of tests."""
    texts = [read(path) for path in glob.glob(f"{TOP}/crates/*_tests/src/**/*.rt", recursive=True)]
    return {name for text in texts for name in re.findall(r"#\[test\]\s+(?:#\[[^\n]*\s+)*(?:pub )?fn (\w+)", text)}


def read(path):
    with open(path, encoding="utf-8") as file:
        return file.read()


def is_test(tests, name):
    """A test by its name, a file of worked examples, or a script."""
    if name.startswith("worked_tests/"):
        return is_there("crates", name.replace("/", "/src/", 1) + ".rt")
    return is_there(name) if "/" in name else name in tests


def faults_of_tries(crate, tests, edit_cell, test_cell):
    """What a row says of its edit and its test that is not so. An edit of another crate stands behind that one's name."""
    for name in re.findall(r"`([^`]+)`", edit_cell):
        of, _, edit = name.rpartition("/")
        if edit not in edits_of(of or crate):
            yield f"`{name}` is no edit"
    yield from (f"`{name}` is no test" for name in re.findall(r"`([^`]+)`", test_cell) if not is_test(tests, name))


def rows_of_proved():
    """The rows of the tables, each with its line's number, its crate, and its cells. A crate's rows stand behind the one with its name."""
    crate = None
    for number, line in enumerate(lines_of(PROVED), 1):
        named = re.match(r'\| <a id="(\w+)"></a>', line)
        if named or not line.startswith("|"):
            crate = named and named.group(1)
        elif crate:
            yield number, crate, [cell.strip() for cell in line.strip("|").split("|")]


def untried():
    """The claims of docs/PROVED.md without an edit, laws left out, and those without a test."""
    bare = {"edit": [], "test": []}
    for _, crate, (claim, call, _, edit, test) in rows_of_proved():
        if edit == "-" and not call.startswith("law "):
            bare["edit"].append(f"{crate}: {claim}")
        if test == "-":
            bare["test"].append(f"{crate}: {claim}")
    return bare


def faults_of_proved(crates):
    told, tests = set(), all_tests()
    for number, crate, cells in rows_of_proved():
        told.add(crate)
        faults = ["a row has five columns"]
        if len(cells) == 5:
            faults = [*faults_of_row(crates, crate, *cells[1:3]), *faults_of_tries(crate, tests, *cells[3:])]
        yield from (f"line {number}, {crate}: {fault}" for fault in faults)
    yield from (f"{crate} has no rows" for crate in sorted({call.crate for call in crates.calls} - told))


def faults_of_map(crates):
    """The map has a row for each crate, in the order of crates.txt."""
    rows = [line.split("`")[1] for line in lines_of(MAP) if line.startswith("| `")]
    if rows != crates.names:
        yield f"its rows are not the crates of crates.txt in their order: {', '.join(sorted(set(rows) ^ set(crates.names))) or 'the order'}"


# -- what stays after a refusal

STAYS = "## What stays after a refusal"


def faults_of_refusals(crates):
    """Each public call that answers a `Result` is named in the list of what stays; each name of it outside brackets is a public call, and what stands
    in brackets behind calls carries the claim of one of them."""
    told = set()
    for part in read(f"{TOP}/{PROVED}").partition(STAYS)[2].partition("\n## ")[0].split("\n- "):
        now, inside = [], 0
        for name, bracket in CITED.findall(part):
            inside += {"(": 1, ")": -1}.get(bracket, 0)
            now = [] if bracket == ")" and not inside else now
            if name and not inside:
                found = [call for call in crates.calls if name in (call.name, call.name.rpartition("::")[2], f"{call.crate}::{call.name}")]
                told |= {(call.crate, call.name) for call in found}
                now += found
                if not found:
                    yield f"`{name}` is no public call"
            elif name and now and not any(name in carried_by(crates, call) for call in now):
                yield f"`{name}` carries nothing of {', '.join(f'`{call.name}`' for call in now)}"
    for call in crates.calls:
        if re.search(r"-> (?:io::)?Result<", " ".join(call.head)) and (call.crate, call.name) not in told:
            yield f"{STAYS[3:]}: `{call.name}` of {call.crate} is not named"


# -- all pages


def anchors_of(path):
    """The headings of a page, as links name them, and the names that stand in it."""
    text = read(path)
    headings = re.findall(r"^#+ (.*)", text, re.M)
    named = {re.sub(r"[^\w\- ]", "", heading).strip().lower().replace(" ", "-") for heading in headings}
    return named | set(re.findall(r'<a id="(\w+)">', text))


def faults_of_page(page):
    folder, inside = os.path.dirname(os.path.join(TOP, page)), False
    for number, line in enumerate(lines_of(page), 1):
        inside = inside != line.startswith("```")
        if not inside and len(line) > 165 and not line.startswith("|"):
            yield f"line {number} has {len(line)} columns, and may have 165"
        for link in [] if inside else re.findall(r"\]\(([^)\s]+)\)", line):
            path, _, anchor = link.partition("#")
            target = os.path.join(folder, path) if path else os.path.join(TOP, page)
            if not re.match(r"\w+:", link) and (not os.path.exists(target) or anchor and anchor not in anchors_of(target)):
                yield f"line {number}: there is no {link}"


def main():
    crates = Crates()
    in_docs = sorted(name for name in os.listdir(f"{TOP}/docs") if name.endswith(".md"))
    pages = ["README.md", "CONTRIBUTING.md", "CHANGELOG.md", *(f"docs/{name}" for name in in_docs)]
    faults = [f"{crate}/README.md: {fault}" for crate in crates.names for fault in faults_of(crates, crate)]
    faults += [f"{PROVED}: {fault}" for fault in faults_of_proved(crates)]
    faults += [f"{PROVED}: {fault}" for fault in faults_of_refusals(crates)]
    faults += [f"{MAP}: {fault}" for fault in faults_of_map(crates)]
    faults += [f"{page}: {fault}" for page in pages if page != "docs/HEADLINE.md" for fault in faults_of_page(page)]
    bare = {} if faults else untried()
    if sys.argv[1:] == ["--bare"]:
        print("\n".join(f"no {of}: {claim}" for of, claims in bare.items() for claim in claims))
    lacks = "".join(f", {len(claims)} claims without {of}" for of, claims in bare.items())
    said = f"{len(crates.names)} crates, {len(faults)} faults of what their README.md, {PROVED} and {MAP} name, and of pages{lacks}"
    print("\n".join([*faults, said]))
    return bool(faults)


sys.exit(main())
