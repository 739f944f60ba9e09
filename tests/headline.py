"""Two pages that are made from specs/. docs/HEADLINE.md: the clause of the checker that says what an accepted image is, and every definition that it
rests on, in reading order, and nothing else; behind it how much the contract of each public call rests on. docs/DEFINITIONS.md: each other definition
that the contract of a public call rests on, by the comment above it. Where a page is not what specs/ say now, a line says so, and the status is 1.

headline.py                        compares the pages with what it would write
headline.py --write                writes them
headline.py CRATE CALL [CLAUSE]    prints what another call rests on, or one clause of it: headline.py rope_store Store::append
headline.py --bare                 prints which definitions have no comment, of those in the page and of those that public calls cite"""

import os
import sys
import textwrap

sys.dont_write_bytecode = True
from definitions import TOP, Crates

HEADLINE, DEFINITIONS = "docs/HEADLINE.md", "docs/DEFINITIONS.md"
CRATE, CALL, CLAUSE = "session_checker", "check", "faithful"


def read(name):
    with open(os.path.join(TOP, name), encoding="utf-8") as file:
        return file.read()


def is_code(key):
    """Whether the code declares it."""
    return "/" in key[0]


def counted(crates, keys):
    """How much there is to read."""
    code = [key for key in keys if is_code(key)]
    written = [key for key in keys if not is_code(key)]
    comments = sum(len(crates.comments[key]) for key in written)
    said = f"{len(written)} definitions in {crates.size(written)} lines, {comments} of them comments"
    return f"{said}, over {len(code)} types and limits of the code in {crates.size(code)} lines" if code else said


def in_order(crates, keys):
    """The files of these, each behind those that it rests on: a crate's code, and then its definitions."""
    order = []

    def visit(place):
        if place not in order and place not in waiting:
            waiting.append(place)
            for key in crates.lines:
                if key[0] == place and key in keys:
                    for below in sorted({it[0] for it in crates.rests_on(key) & keys}, key=rank):
                        visit(below)
            order.append(place)

    def rank(place):
        crate = place.replace("/", ".").split(".")[0]
        return crates.names.index(crate), "/" not in place, place

    waiting = []
    for place in sorted({key[0] for key in keys}, key=rank):
        visit(place)
    return sorted(order, key=lambda place: (rank(place)[:2], order.index(place)))


def definitions(crates, keys):
    """The text of these definitions, file by file."""
    told, crate = [], None
    for place in in_order(crates, keys):
        of, file = place.replace("/", ".", 1).split(".", 1)
        if of != crate:
            told.append(f"## {of}\n")
            crate = of
        blocks = ["\n".join(crates.lines[key]) for key in crates.lines if key[0] == place and key in keys]
        if "/" in place:
            told.append(f"`src/{file}`:\n\n```rust\n" + "\n\n".join(blocks) + "\n```\n")
        else:
            intro = [filled(" ".join(crates.intros[place]))] if crates.intros[place] else []
            told.append("\n\n".join([f"### {file}", *intro, "```\n" + "\n\n".join(blocks)]) + "\n```\n")
    return "\n".join(told)


def filled(text):
    return textwrap.fill(" ".join(text.split()), 150, break_on_hyphens=False)


def listed(text):
    return textwrap.fill(f"- {text}", 150, subsequent_indent="  ", break_on_hyphens=False)


def found(crates, crate, name):
    return next((call for call in crates.calls if (call.crate, call.name) == (crate, name)), None)


def rested(crates, call, clause=None):
    return crates.closure(crates.met(call.place, call.text(clause)))


def head(call, clause=None):
    """The call with its clauses, or with one of them."""
    lines = [line for _, name, lines in call.clauses() if clause in (None, name) for line in lines]
    return "```rust\n" + "\n".join([*call.comment, *call.head, *lines]) + "\n```\n"


def clause_table(crates, call):
    """Each clause of a call, and what it rests on."""
    rows = ["| Clause | Definitions | Lines | Types and limits of the code | Lines |", "|---|---|---|---|---|"]
    for name in [*dict.fromkeys(name for _, name, _ in call.clauses()), None]:
        keys = rested(crates, call, name)
        code = {key for key in keys if is_code(key)}
        said = f"`{name}`" if name else "all together"
        rows.append(f"| {said} | {len(keys - code)} | {crates.size(keys - code)} | {len(code)} | {crates.size(code)} |")
    return "\n".join(rows) + "\n"


def call_lists(crates):
    """The public calls, crate by crate, each with the lines that its contract rests on."""
    told = []
    for crate in crates.names:
        sizes = [f"`{call.name}` {crates.size(rested(crates, call))}" for call in crates.calls if call.crate == crate]
        if sizes:
            told.append(listed(f"**{crate}**: {', '.join(sizes)}"))
    return "\n".join(told) + "\n"


def page(crates):
    call = found(crates, CRATE, CALL)
    keys = rested(crates, call, CLAUSE)
    opening = f"""For readers who want to know exactly what `accepted` claims. The program prints it where `{CALL}` of `{CRATE}` accepts an image;
        the clause `{CLAUSE}` below says what that means, and the gate proves that the code keeps to it. This page has the clause and every
        definition that it rests on, and nothing else: {counted(crates, keys)}."""
    how = """How to read it. From the top, each definition comes after those that it uses. From the claim down, begin at `IsFaithful`, the last
        definition before "The other clauses", and search the page for each name that you meet. The line above a definition says it in words;
        `a ≡ b` is equality, `→` "implies", `×` "and", `∀` "for each", `λ x. ..` a function of x; `⊥` never holds, and `Unit {0}` always
        does. Numbers have no upper bound, and `-` stops at 0. `x ∷ xs` is a list that begins with x, and `++` joins two; `id.0` is the number in
        an id, `r.root` a field. `Recorded.Insert` is the case of `Edit`, `Command.Insert` that of `FullEdit`. Names that are defined nowhere
        here, such as `length`, `take`, `map`, `get_or` or `Option`, are those of Rattle's standard library. [START](START.md) explains rope,
        session and image, [FORMAT](FORMAT.md) the bytes."""
    closing = """The lines of definitions, with their comments, and of types and limits of the code, that the contract of each call rests on. How a
        type of the code is seen as a value (`ghost view`) is not counted. `python3 tests/headline.py CRATE CALL` prints them, as `python3
        tests/headline.py rope_store Store::append`."""
    return f"""# What `accepted` rests on

Made from the crates' `specs/` by `python3 tests/headline.py --write`; `make check` fails where it is stale.

{filled(opening)}

{filled(how)}

## The clause

{head(call, CLAUSE)}
{definitions(crates, keys)}
## The other clauses of `{CALL}`

{clause_table(crates, call)}
## What each public call rests on

{filled(closing)}

{call_lists(crates)}"""


def said(crates, key):
    """A definition by the comment above it."""
    return " ".join(" ".join(line[2:] for line in crates.comments[key]).split())


def words_page(crates):
    """Each definition that the contract of a public call rests on and that the other page has not, file by file."""
    inside = rested(crates, found(crates, CRATE, CALL), CLAUSE)
    keys = crates.closure(set().union(*(crates.met(call.place, call.text()) for call in crates.calls))) - inside
    opening = """What the contracts of the public calls rest on, in the words of the comments in `specs/`: a reference, to be searched for a name.
        Those that the meaning of `accepted` rests on are left out, since [HEADLINE](HEADLINE.md) has them in full. `python3 tests/headline.py CRATE CALL`
        prints the definitions of one call with their text. Numbers in definitions have no upper bound, and `-` stops at 0."""
    worked = """They share with the code its limits, and the names of its types' fields and cases; a few of these types are seen by no caller, such as
        `Ending` of rope_store and `Found` of commit_tools. `crates/worked_tests` computes them on worked examples, whose expected values come from
        outside the code: from stored images, and by hand."""
    told, crate = [], None
    for place in in_order(crates, {key for key in keys if not is_code(key)}):
        of, file = place.split(".", 1)
        if of != crate:
            told.append(f"## {of}\n")
            crate = of
        here = [key for key in crates.lines if key[0] == place and key in keys]
        intro = " ".join(crates.intros[place]).strip()
        told.append(filled(f"**{file}**" + (f": {intro}" if intro else "")))
        told += [listed(f"`{key[1]}`: {said(crates, key)}") for key in here if crates.comments[key]]
        bare_names = ", ".join(f"`{key[1]}`" for key in here if not crates.comments[key])
        told += [listed(f"by their names alone: {bare_names}")] if bare_names else []
        told[-1] += "\n"
    return f"""# The definitions, in words

Made from the crates' `specs/` by `python3 tests/headline.py --write`; `make check` fails where it is stale.

{filled(opening)}

{filled(worked)}

""" + "\n".join(told)


PAGES = {HEADLINE: page, DEFINITIONS: words_page}


def bare(crates):
    """Which definitions have no comment."""
    inside = rested(crates, found(crates, CRATE, CALL), CLAUSE)
    cited = {key for call in crates.calls for key in crates.met(call.place, call.text())}
    for key in crates.lines:
        if not is_code(key) and not crates.comments[key] and key in inside | cited:
            print(f"{key[0]} {key[1]}{' (in the page)' if key in inside else ''}")


def main(words):
    crates = Crates()
    if words == ["--write"]:
        for name, made in PAGES.items():
            with open(os.path.join(TOP, name), "w", encoding="utf-8") as file:
                file.write(made(crates))
    elif words == ["--bare"]:
        bare(crates)
    elif words:
        call = found(crates, *words[:2]) if len(words) in (2, 3) else None
        if not call or words[2:] and words[2] not in [name for _, name, _ in call.clauses()]:
            sys.exit(__doc__)
        keys = rested(crates, call, *words[2:])
        print(f"{head(call, *words[2:])}\n{counted(crates, keys)}\n\n{definitions(crates, keys)}", end="")
    else:
        stale = [name for name, made in PAGES.items() if read(name) != made(crates)]
        print(f"stale: {' and '.join(stale)}: python3 tests/headline.py --write" if stale else f"{' and '.join(PAGES)} are what specs/ say")
        return bool(stale)
    return 0


sys.exit(main(sys.argv[1:]))
