"""What the contracts of the crates rest on: the definitions in specs/, the types and limits of the code that these name, and the public calls.

A definition is kept by its key, a module and a name: ("rope_node.Table", "Node"), and what the code declares by its file:
("rope_node/node.rt", "NodeId"). What a definition rests on is found by the words that it uses and by the imports of its file, so it is never less
than what it needs."""

import os
import re

TOP = os.path.dirname(os.path.dirname(os.path.abspath(__file__)))
HEAD = re.compile(r"^(?!pub use )(?:(?:pub|abbrev|unfoldable|record|data) )+([^\s:({]+)")
CASE = re.compile(r"^  (?:pub )?([^\s:]+) :")
ITEM = re.compile(r"^(?:pub(?:\(crate\))? )?(?:enum|struct|type|const|trait) (\w+)")
USE = re.compile(r"^\s*(?:ghost |pub )*use Rattle\.([\w.-]+)(?:\.\{([^}]*)\}| as (\w+))", re.M)
CALL = re.compile(r'^(    )?(pub )?(?:const )?(?:unsafe )?(?:extern "C" )?fn (\w+)')


def words_of(text):
    """The words of a text; of `x.y` both, and the whole."""
    found = set(re.findall(r"(?<![\w.])[A-Za-z_][\w'-]*|[^\w\s(){}.,;:]+", text))
    found |= set(re.findall(r"[A-Za-z_][\w'-]*\.[A-Za-z_][\w'-]*", text))
    return found | ({">>="} if "←" in found else set())


def lines_of(path):
    with open(os.path.join(TOP, path), encoding="utf-8") as file:
        return file.read().split("\n")


def named(words):
    """Each name of a list of imports, with the name that it has here."""
    for word in words.split(","):
        name, _, here = word.strip().partition(" as ")
        if name:
            yield name, here or name


class Crates:
    """All crates, from the lowest up."""

    def __init__(self):
        listed = [line.split(":")[0] for line in lines_of("crates.txt") if ":" in line and not line.startswith("#")]
        self.names = [name.split()[0] for name in listed]
        self.lines, self.comments, self.intros, self.cases, self.imports, self.wholes = {}, {}, {}, {}, {}, {}
        self.calls = []
        self.rested = {}
        for crate in self.names:
            self.read_specs(crate)
        for crate in self.names:
            self.read_sources(crate)

    # -- what stands in the files

    def read_specs(self, crate):
        folder = f"crates/{crate}/specs"
        if not os.path.isdir(os.path.join(TOP, folder)):
            return
        for file in sorted(os.listdir(os.path.join(TOP, folder))):
            if file != "Lib.antt":
                self.read_definitions(f"{crate}.{file[:-5]}", lines_of(f"{folder}/{file}"))

    def read_definitions(self, module, lines):
        """A definition goes from the comment right above it up to the next one's; what stands above the imports is the file's own comment."""
        first_use = next((i for i, line in enumerate(lines) if line.startswith("use ")), 0)
        self.intros[module] = [line[3:] for line in lines[:first_use] if line.startswith("--")]
        self.take_imports(module, "\n".join(lines))
        starts = []
        for i, line in enumerate(lines):
            if HEAD.match(line):
                start = i
                while start > first_use and lines[start - 1].startswith(("--", "infix")):
                    start -= 1
                starts.append((start, i))
        for (start, head), (end, _) in zip(starts, [*starts[1:], (len(lines), 0)]):
            key = module, HEAD.match(lines[head]).group(1)
            body = [line for line in lines[start:end] if line.strip() and not line.startswith("use ")]
            while body[-1].startswith("--"):
                body.pop()
            self.lines[key] = body
            self.comments[key] = [line for line in body if line.startswith("--")]
            self.cases[key] = key
            for line in body if "data " in lines[head] else []:
                if CASE.match(line):
                    self.cases[module, CASE.match(line).group(1)] = key

    def take_imports(self, place, text):
        """What each word of a file stands for; a word may stand for two things in two blocks of code."""
        imports = self.imports.setdefault(place, {})
        wholes = self.wholes.setdefault(place, {})
        for path, words, whole in USE.findall(text):
            parts = path.split(".")
            if parts[0] not in self.names or parts[1] != "specs":
                continue
            if whole:
                wholes.setdefault(whole, []).append(parts)
            for name, here in named(words):
                imports.setdefault(here, []).append((parts, name))

    def read_sources(self, crate):
        folder = f"crates/{crate}/src"
        root = "\n".join(lines_of(f"{folder}/lib.rt")) if os.path.exists(os.path.join(TOP, folder, "lib.rt")) else ""
        exported = set()
        for words in re.findall(r"pub use \w+::(?:\{([^}]*)\}|(\w+))", root):
            exported |= {here for _, here in named("".join(words))}
        modules = set(re.findall(r"^pub mod (\w+);", root, re.M))
        for file in sorted(os.listdir(os.path.join(TOP, folder))):
            if file.endswith(".rt"):
                place, lines = f"{crate}/{file}", lines_of(f"{folder}/{file}")
                self.take_imports(place, "\n".join(lines))
                self.read_items(place, lines)
                self.read_calls(crate, place, lines, exported, file[:-3] in modules)

    def read_items(self, place, lines):
        """The types and constants that a file of the code declares, each with its comment."""
        for i, line in enumerate(lines):
            if not ITEM.match(line):
                continue
            end = i
            while not lines[end].startswith("}") if line.endswith("{") else not lines[end].endswith((";", "}")):
                end += 1
            start = i
            while start and lines[start - 1].startswith(("///", "#[")):
                start -= 1
            key = place, ITEM.match(line).group(1)
            if " trait " not in line:
                self.lines[key] = [it for it in lines[start : end + 1] if it.strip() and not it.startswith("#[")]
                self.comments[key] = [it for it in self.lines[key] if it.startswith("///")]
            self.cases[key] = key

    def read_calls(self, crate, place, lines, exported, is_public):
        """The calls that are public: functions and methods that the crate gives out, all of a public module, those of its traits, and those of a
        trait that a type has with a contract of its own."""
        owner, kind = None, None
        for i, line in enumerate(lines):
            block = re.match(r"^(?:pub )?(?:unsafe )?(impl|trait)\b(?:<[^{]*?>)? ?(?:[\w:<>, ]+ for )?(\w+)", line)
            if block:
                owner, kind = block.group(2), "of a trait" if " for " in line or block.group(1) == "trait" else "its own"
            elif line == "}":
                owner = None
            call = CALL.match(line)
            if not call or (call.group(1) and not owner):
                continue
            inner, public, name = call.groups()
            found = Call(crate, place, f"{owner}::{name}" if inner else name, lines, i)
            is_exported = (owner if inner else name) in exported or is_public or place.endswith("/lib.rt")
            if is_exported and (public or inner and kind == "of a trait" and found.contract):
                self.calls.append(found)

    # -- what rests on what

    def standing(self, parts, name):
        """The key of an imported name: of a definition, or of what the code declares."""
        crate, inner = parts[0], parts[2:]
        if inner[0] != "declared":
            return self.cases.get((f"{crate}.{inner[-1]}", name))
        if inner[-1] == "TheConstants":
            return self.cases.get((f"{crate}/{'/'.join(inner[1:-1])}.rt", name))
        if inner[-1].startswith("The"):
            inner = inner[:-1]
        return self.cases.get((f"{crate}/{'/'.join(inner[1:-1])}.rt", inner[-1]))

    def met(self, place, text):
        """The keys that the words of a text stand for in a file."""
        found, imports, wholes = set(), self.imports.get(place, {}), self.wholes.get(place, {})
        for word in words_of(text):
            before, _, after = word.partition(".")
            for parts in wholes.get(before, []):
                found.add(self.standing(parts, after))
            for name in (word, f"◌{word}◌"):
                found.add(self.cases.get((place, name)))
                found |= {self.standing(parts, there) for parts, there in imports.get(name, [])}
        return found - {None}

    def met_in_code(self, key):
        """The types that a type of the code names: of its own file, or of one that its file brings in."""
        place, found = key[0], set()
        text = "\n".join(line for line in self.lines[key] if not line.strip().startswith("//"))
        brought = {}
        for path, words in re.findall(r"^use ([\w:]+)::(?:\{)?([\w, ]+)\}?;", "\n".join(lines_of(f"crates/{place.replace('/', '/src/', 1)}")), re.M):
            for name, here in named(words):
                brought[here] = path.replace("crate", place.split("/")[0], 1).split("::")[0], name
        for word in words_of(text):
            crate, name = brought.get(word, (None, word))
            found |= {it for it in self.lines if it[1] == name and (it[0] == place or crate and it[0].startswith(f"{crate}/"))}
        return found

    def rests_on(self, key):
        """What a definition names, itself left out."""
        if key not in self.rested:
            place = key[0]
            text = "\n".join(line for line in self.lines.get(key, []) if not line.strip().startswith("--"))
            self.rested[key] = (self.met_in_code(key) if "/" in place else self.met(place, text)) - {key} if key in self.lines else set()
        return self.rested[key]

    def closure(self, keys):
        """All that these rest on, with themselves."""
        seen, left = set(), list(keys)
        while left:
            key = left.pop()
            if key in self.lines and key not in seen:
                seen.add(key)
                left += self.rests_on(key)
        return seen

    def size(self, keys):
        return sum(len(self.lines[key]) for key in keys)


class Call:
    """A public call: its crate, its file, its name with its type's, its comment, what stands up to its contract, and its clauses by their names."""

    def __init__(self, crate, place, name, lines, i):
        self.crate, self.place, self.name = crate, place, name
        indent = re.match(" *", lines[i]).group()
        start = i
        while start and lines[start - 1].strip().startswith(("///", "#[")):
            start -= 1
        self.comment = [line.strip() for line in lines[start:i] if line.strip().startswith("///")]
        said = []
        for line in lines[i:]:
            line = line[len(indent) :]
            if line == "{":
                break
            said.append(line)
            text = "".join(said)
            is_whole = all(text.count(it[0]) == text.count(it[1]) for it in ("()", "{}"))
            if line.endswith(";") and is_whole or not line.startswith(" ") and line.endswith(("{", "}")):
                break
        first = next((k for k, line in enumerate(said) if re.match(r"\s+(?:requires|ensures|//)", line)), len(said))
        self.head, self.contract = said[:first], said[first:]

    def clauses(self):
        """Each clause: what it is (`requires` or `ensures`), its name, and its lines with the comment above it."""
        found, comment = [], []
        for line in self.contract:
            begins = re.match(r"\s+(requires|ensures)\b ?(\w*)", line)
            if line.strip().startswith("//"):
                comment.append(line)
            elif begins:
                found.append((begins.group(1), begins.group(2), [*comment, line]))
                comment = []
            elif found:
                found[-1][2].append(line)
        return found

    def text(self, clause=None):
        return "\n".join(line for _, name, lines in self.clauses() if clause in (None, name) for line in lines if not line.strip().startswith("//"))
