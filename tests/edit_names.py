#!/usr/bin/env python3
"""Lists the edits of crates/*/must-fail/ and audit/*/ that take away a name which the proof of their function cites.

Such an edit is refused for want of the name, whatever the contract says. A file under proofs/ names a call, a test, an arm or a `?` after the words of the
code: `c.if-width-eq-NEAR.false`, `c.width_behind-width.result`, `c.in_ok-read_near.ensures`. So the words of each name are looked for in one statement,
test or arm of the function, before the edit and behind it. An edit that is refused by the contract all the same says so in a line of its own file,
`why: ..`. It is told too where an edit's `old:` text does not stand once, and where one says why and loses no name.
"""

import functools
import glob
import os
import re
import sys

TOP = os.path.join(os.path.dirname(os.path.abspath(__file__)), "..")
TESTS = {"if", "then", "else"}
TRIES = {"in_ok", "in_err", "branch"}
# Words of the prover's own, behind which the words of another part of the code begin.
OTHERS = {
    "args", "arg", "auto", "bounds", "decreases", "fn", "from_residual", "in_default", "init", "invariant", "invariant_of", "loop", "match",
    "not", "offset_bounds", "preserved", "prove", "returns", "self", "slice_bounds", "slice_copy_out", "smaller", "struct_known", "test", "told", "type_inv",
    "unreachable", "via", "way_told", "well_formed",
}
SKIPPED = {"clause", "requires", "ensures", "result", "field"}
MIRRORED = {"==": "==", "!=": "!=", "<": ">", "<=": ">=", ">": "<", ">=": "<="}
OPERATORS = {"eq": "==", "ne": "!=", "lt": "<", "le": "<=", "gt": ">", "ge": ">="}
WORD = re.compile(r"[A-Za-z_]\w*")


@functools.cache
def read(path):
    with open(path, encoding="utf-8") as file:
        return file.read()


def edits():
    """The path, the crate and the steps (file, old, new) of each edit, and whether it says why it stands."""
    for path in sorted(glob.glob(f"{TOP}/crates/*/must-fail/*.edit") + glob.glob(f"{TOP}/audit/*/*.edit")):
        folders = os.path.relpath(path, TOP).split(os.sep)
        steps, file, old, why = [], None, None, False
        for line in read(path).split("\n"):
            if line.startswith("file: "):
                file = line[6:].strip()
            elif line.startswith("old: "):
                old = line[5:]
            elif line.startswith("new:"):
                steps.append((file, old, line[4:].removeprefix(" ")))
            why = why or line.startswith("why: ")
        yield os.path.relpath(path, TOP), folders[1], steps, why


@functools.cache
def functions(source):
    """The type, the name and the body of each function of a source, by its first line."""
    found, type_name, lines = {}, "", source.split("\n")
    for number, line in enumerate(lines):
        head = re.match(r"(?:impl|(?:pub )?trait)\b(?:<.*?> )?(.*)\{", line)
        if head:
            type_name = head.group(1)
        elif line == "}":
            type_name = ""
        begin = re.match(r"( *)(?:pub(?:\(\w+\))? |const |unsafe |final |extern \"C\" )*fn (\w+)", line)
        if begin:
            indent = begin.group(1)
            end = next((n for n in range(number, len(lines)) if lines[n] == indent + "}"), None)
            start = number
            while end and start < end and not lines[start].endswith("{"):
                start += 1
            if end:
                found[type_name if indent else "", begin.group(2)] = "\n".join(lines[start + 1 : end])
    return found


@functools.cache
def proof_files(crate):
    """The files of a crate's proofs that belong to a function, each with its folders."""
    proofs = f"{TOP}/crates/{crate}/proofs"
    found = [(path, os.path.relpath(path, proofs).split(os.sep)[:-1]) for path in glob.glob(f"{proofs}/**/*.antt", recursive=True)]
    return [(path, folders) for path, folders in found if folders]


@functools.cache
def proofs_of(crate, file, type_name, name):
    """What the proof files of a function say."""
    own = WORD.search(type_name.split(" for ")[-1])
    module = file[len("src/") : -len(".rt")]
    text = ""
    for path, folders in proof_files(crate):
        if folders[-1].lstrip("+") == name and (folders[-2:-1] or [""])[0].startswith(own.group() if own else os.path.basename(module)):
            text += re.sub(r"(?m)^ *--.*$", "", read(path))
    return text


@functools.cache
def cited(proof):
    """The names that a proof cites, each with the field behind it, or an empty one."""
    names = set(re.findall(r"\b(?:c|w|goal)\.([\w+-]+)(?:\.([\w-]+))?", proof))
    for listed in re.findall(r"\.Goals\.\{([^}]*)\}", proof):
        names.update((name.strip(), "") for name in listed.split(","))
    names.update(("loop", variable) for variable in re.findall(r"\bl\.(\w+)", proof))
    return names


@functools.cache
def groups(name):
    """The parts of a name: a kind, its words, an operator with its number, and whether it is a later one, which is told by a number or by where it is."""
    kind, words, operator, later = "step", [], None, False
    parts = []
    for atom in re.split(r"[-+]", name) + [None]:
        head = (
            "end" if atom is None
            else "test" if atom in TESTS
            else "try" if atom in TRIES
            else "arm" if atom == "in"
            else "skip" if atom in SKIPPED
            else "step" if atom in OTHERS or re.match(r"overflow_|nonzero_", atom)
            else None
        )
        compared = atom and kind == "test" and re.fullmatch(r"(eq|ne|lt|le|gt|ge)(\d*)", atom)
        if head:
            if kind != "skip" and (words or operator):
                parts.append((kind, tuple(words), operator, later or head in ("arm", "test", "try")))
            kind, words, operator, later = head, [], None, False
        elif compared:
            operator = (OPERATORS[compared.group(1)], compared.group(2))
        elif atom.isdigit():
            later = True
        else:
            words.append(atom)
    return parts


@functools.cache
def pieces(body, kind):
    """The statements, tests, arms or tries of a body."""
    body = re.sub(r"(?m)//.*$", "", body)
    if kind == "test":
        tests = re.findall(r"\b(?:if|while)\b(?! let\b)(.*?)(?:\{|=>)", body, re.S)
        tests += re.findall(r"let \w+ = ([^;{]*(?:[<>=!]=|[<>]|&&|\|\|)[^;{]*);", body)
        return [part for test in tests for part in re.split(r"&&|\|\|", test)]
    if kind == "arm":
        return re.findall(r"([^;{},]*(?:\{[^{}]*\}|\([^()]*\))?[^;{},]*?)=>", body) + re.findall(r"\blet ([^;=]*)=", body)
    statements = re.split(r";|=>|\{\n|\}\n|\n\s*\}", body)
    return [one for one in statements if kind != "try" or "?" in one]


@functools.cache
def heads(side):
    """What a side of a test may be named after: the call that it is, or else the words of its first operand."""
    bare = side.strip().lstrip("!&*").split(" as ")[0]
    while re.search(r"\([^()]*\(", bare):
        bare = re.sub(r"\(([^()]*)\([^()]*\)", r"(\1", bare)
    bare = re.split(r" [-+*/%|] | << | >> ", re.sub(r"\([^()]*\)", "()", bare))[0]
    call = re.search(r"(\w+)\(\)$", bare)
    words = set(WORD.findall(bare))
    return {call.group(1)} if call and call.group(1) != "len" else words


def is_test(test, words, operator):
    """Whether a test has a name of these words, with this operator before a constant."""
    compared = re.fullmatch(r"(.*?) (==|!=|<=|>=|<|>) (.*)", test.strip(), re.S)
    if not compared:
        return operator is None and len(words) == 1 and words[0] in heads(test)
    left, sign, right = compared.groups()
    if operator is None:
        return words[0] in heads(left) and words[-1] in heads(right) if len(words) > 1 else words[0] in heads(left) | heads(right)
    wanted, number = operator
    sides = [(left, sign, right), (right, MIRRORED[sign], left)]
    return any(words[0] in heads(one) and wanted == its and (number or words[-1]) in re.findall(r"\w+", other) for one, its, other in sides)


def fits(piece, part):
    """Whether a piece of the code has the words of a part of a name."""
    kind, words, operator, _ = part
    if kind == "test":
        return bool(words) and is_test(piece, words, operator)
    return set(words) <= set(WORD.findall(piece))


def calls(body, name):
    """How many calls of this name a body has."""
    return len(re.findall(rf"\b{name}(?:::<[^>]*>)?\(", re.sub(r"(?m)//.*$", "", body)))


def is_lost(part, before, after):
    """Whether the code had this part of a name, and has it no more."""
    kind, words, operator, later = part
    if kind in ("step", "try") and words and calls(after, words[0]) < calls(before, words[0]):
        return True
    there = set(WORD.findall(before))
    part = kind, [word for word in words if word in there], operator, later
    had, has = (sum(fits(piece, part) for piece in pieces(body, kind)) for body in (before, after))
    if had:
        return has == 0 or (later and has < had)
    return not set(part[1]) <= set(WORD.findall(after))


def changes(body, variable):
    """Whether a body changes this variable."""
    return re.search(rf"(?<!let )(?<!let mut )\b{variable}\b(?:\.\w+|\[[^\]]*\])* *(?:[-+*/&|^]|<<|>>)?=(?!=|>)|&mut {variable}\b|\b{variable}(?:\.\w+)*\.\w+\(", body) is not None


def lost_names(proof, before, after):
    """The names of a proof that the function behind the edit does not have."""
    for name, field in sorted(cited(proof)):
        if any(is_lost(part, before, after) for part in groups(name)):
            yield f"{name}.{field}" if field else name
        elif field and WORD.fullmatch(field):
            if name.split("-")[0] in ("in", "in_ok", "in_err") and field in WORD.findall(before) and field not in WORD.findall(after):
                yield f"{name}.{field}"
            elif name.startswith("loop") and changes(before, field) and not changes(after, field):
                yield f"{name}.{field}"


def losses(crate, steps):
    """The functions that an edit changes, with the names that they lose."""
    texts = {}
    for file, old, new in steps:
        now = texts.setdefault(file, [read(f"{TOP}/crates/{crate}/{file}")] * 2)
        if now[1].count(old) != 1:
            yield file, [f"its `old:` text stands {now[1].count(old)} times: {old.strip()}"]
        texts[file] = [now[0], now[1].replace(old, new)]
    for file, (before, after) in texts.items():
        behind = functions(after)
        for (type_name, name), body in functions(before).items():
            changed = behind.get((type_name, name), "")
            if changed != body:
                lost = list(lost_names(proofs_of(crate, file, type_name, name), body, changed))
                if lost:
                    yield name, lost


def main():
    wrong = excused = count = 0
    for path, crate, steps, why in edits():
        count += 1
        lost = list(losses(crate, steps))
        if lost and why:
            excused += 1
        elif why:
            wrong += 1
            print(f"{path} says why it stands, and loses no name")
        for name, names in lost if not why else []:
            wrong += 1
            print(f"{path}: {name} loses {', '.join(names)}")
    print(f"{count} edits, of which {excused} that lose a name say why; {wrong} wrong")
    sys.exit(wrong != 0)


main()
