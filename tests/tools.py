#!/usr/bin/env python3
"""The tools of the program and their options, as the specs/Words.antt of cord_words tells them to clap, which is proved of the program, and where
else they stand: the help that tests/program.sh wants, the functions that main.rt of cordkit calls, the completions for bash, zsh and fish, the
manual page's synopsis and its list of commands, the table of README.md. Each place has each tool, with just its options, those that take a value
with one, and as many words. Each program, page and file of completions is one that packaging/install.sh installs. What is not so is told, and the
status is 1.

tools.py"""

import glob
import os
import re
import sys

TOP = os.path.dirname(os.path.dirname(os.path.abspath(__file__)))
FLAGS = {"explain": False, "quiet": False, "help": False}
# What stands beside the tools: clap's own, the editor's script, and runs that have no name of their own.
OTHERS = {"help", "cordedit", "checkinput", "discard"}
HELP_LINE = re.compile(r"^  (\w+)  +(.*)", re.M)
# What bash offers for a word; it offers files for each other one.
KINDS = {"REV": "number", "START": "number", "COUNT": "number", "PATTERN": "text"}


def read(path):
    with open(os.path.join(TOP, path), encoding="utf-8") as file:
        return file.read()


def between(text, start, end):
    """What stands behind the first place of a text, up to the next one."""
    return text.partition(start)[2].partition(end)[0]


class Tool:
    """A tool: its options, each with whether it takes a value, its words, each with dots where there may be several, and what it does, as the help
    says; None for what a place does not tell."""

    def __init__(self, options=None, words=None, does=None):
        self.options, self.words, self.does = options, words, does

    def add(self, rule):
        """Takes up the option or the word that a rule of specs/Words.antt says."""
        long = re.search(r'long = Some \(codes "([^"]+)"\)', rule)
        flag = re.search(r'flag_rule \(codes "([^"]+)"\)', rule)
        name = re.search(r'codes "([^"]+)"', rule)
        if long or flag:
            self.options[(long or flag).group(1)] = bool(long)
        else:
            self.words.append(name.group(1) + ("..." if "Append" in rule else ""))


def tools():
    """Each tool by its name, in the order of the help."""
    text = re.sub(r"(?m)^ *--.*$", "", read("crates/cord_words/specs/Words.antt"))
    bodies = dict(re.findall(r"^(\w+) =((?: .*\n)(?:    .*\n)*)", text, re.M))
    in_help, found = dict(HELP_LINE.findall(read("tests/data/help.txt"))), {}
    for app in re.findall(r"\b\w+_app\b", bodies["cordkit_app"]):
        name = re.search(r'new_app \(codes "(\w+)"\)', bodies[app]).group(1)
        if app != "titled_app":
            found[name] = Tool({}, [], in_help.get(name))
            for rule in re.findall(r'\b(?!with_)\w+_rule\b(?: \(codes "[^"]+"\))?', bodies[app]):
                body = bodies.get(rule, rule)
                base = re.search(r"record (\w+_rule)", body)
                found[name].add(f"{bodies[base.group(1)]} {body}" if base else body)
    return found


def options_in(text, form):
    """The options that stand in a text in this form, each with whether a value follows."""
    return {name: bool(value) for name, value in re.findall(form, text)}


# Each of these gives places, each with the tools that stand there and the flags of the program that it repeats for each.


def of_help():
    yield "tests/data/help.txt", {name: None for name, _ in HELP_LINE.findall(between(read("tests/data/help.txt"), "Commands:\n", "\n\n"))}, ()
    for path in sorted(glob.glob(f"{TOP}/tests/data/*_help.txt")):
        name = os.path.relpath(path, TOP)
        text = read(name)
        usage = re.search(r"Usage: cordkit (\w+)(.*)", text)
        words = [word + dots for word, dots in re.findall(r"[<\[]([A-Z]+)[>\]](\.\.\.)?", usage.group(2)[len(" [OPTIONS]") :])]
        options = options_in(between(text, "Options:\n", "\n\n"), r"--([\w-]+)(?: <(\w+)>)?")
        yield name, {usage.group(1): Tool(options, words)}, FLAGS


def of_program():
    text = read("crates/cordkit/src/main.rt")
    yield "crates/cordkit/src/main.rt", {name.lower(): None for name in re.findall(r"\bAction::([A-Z]\w*)", text)}, ()


def of_bash(known):
    text = read("completions/cordkit.bash")
    place = "completions/cordkit.bash"
    yield f"{place}, commands", {name: None for name in between(text, "local commands='", "'").split()}, ()
    valued = set(re.findall(r"\$word == --([\w-]+)", text))
    options, words = between(text, "_cordkit_options() {", "\n}"), between(text, "_cordkit_kinds() {", "\n}")
    rest = re.search(r"\*\) echo (.*) ;;", options).group(1)
    found = {name: Tool({it[2:]: it[2:] in valued for it in rest.split()}, []) for name in known}
    for names, listed in re.findall(r"^ +([\w| -]+)\) echo (--.*) ;;", options, re.M):
        for name in set(names.split(" | ")) & set(known):
            found[name].options = {it[2:]: it[2:] in valued for it in listed.split()}
    for names, listed in re.findall(r"^ +([\w| -]+)\) echo (\w.*) ;;", words, re.M):
        for name in set(names.split(" | ")) & set(known):
            found[name].words = listed.split()
    yield place, found, FLAGS


def of_zsh():
    text = read("completions/_cordkit").replace("\\\n", " ")
    listed = re.findall(r"^ +'(\w+):(.)(.*)'$", between(text, "commands=(", "\n    )"), re.M)
    yield "completions/_cordkit, commands", {name: Tool(does=first.upper() + rest.replace("'\\''", "'")) for name, first, rest in listed}, ()
    found = {}
    for names, line in re.findall(r"^ +([\w| ]+)\) _arguments (.*)", text, re.M):
        line = line.replace("$limit", "'--at-most=[]'").replace("$lengths", "'--length=[]'").replace("$flags", "'--explain[]' '--quiet[]'").replace("$help", "'--help[]'")
        words = re.findall(r"'(\d|\*):", line)
        for name in names.split(" | "):
            found[name] = Tool(options_in(line, r"'--([\w-]+)(=)?\["), [word.replace("*", "...") for word in words])
    yield "completions/_cordkit", found, FLAGS


def of_fish(known):
    text = read("completions/cordkit.fish")
    place = "completions/cordkit.fish"
    yield f"{place}, commands", {name: None for name in between(text, "local commands ", "\n").split()}, ()
    listed = re.findall(r"-n \$none -a (\w+) -d '(.*)'", text)
    yield f"{place}, -a", {name: Tool(does=does.replace("\\'", "'")) for name, does in listed}, ()
    everywhere = options_in(text, r"(?m)^complete -c cordkit (?:-s \w )?-l ([\w-]+)( -[xr])?")
    found = {name: Tool(dict(everywhere)) for name in known}
    for names, option, value in re.findall(r"-n '__fish_seen_subcommand_from ([\w ]+)' -l ([\w-]+)( -[xr])?", text):
        for name in names.split():
            found.setdefault(name, Tool({})).options[option] = bool(value)
    yield place, found, FLAGS


def of_page():
    text = read("man/cordkit.1")
    found = {}
    for paragraph in between(text, ".Sh SYNOPSIS\n", ".Sh").split(".Nm cordkit\n")[1:]:
        named = re.match(r"\.Cm (\w+)\n", paragraph)
        if named:
            tool = found.setdefault(named.group(1), Tool({}, []))
            first = not tool.words
            tool.options.update(options_in(paragraph, r"Fl -([\w-]+)(?: Ar ([A-Z]+))?"))
            for line in re.findall(r"^\.(?:Op )?Ar (.*)", paragraph, re.M) if first else []:
                tool.words += re.sub(r" \.\.\.", "...", line).split()
    yield "man/cordkit.1, SYNOPSIS", found, ()
    listed = between(text, ".Sh COMMANDS\n", "\n.Sh")
    found = {}
    for name, line in re.findall(r"^\.It Cm (\w+)(.*)", listed, re.M):
        flag = re.match(r" Fl -([\w-]+)", line)
        options = {flag.group(1): False} if flag else options_in(line, r"Fl -([\w-]+)(?: Ar ([A-Z]+))?")
        found.setdefault(name, Tool({})).options.update(options)
    yield "man/cordkit.1, COMMANDS", found, ()


def of_readme():
    found = {}
    for row in re.findall(r"^\| .*", read("README.md"), re.M):
        for name, line in re.findall(r"`(?:cordkit )?(\w+) ([^`]*)`", row.split(" | ")[0]):
            tool = found.setdefault(name, Tool({}, []))
            tool.options.update(options_in(line, r"\[--([\w-]+)(?: ([A-Z]+))?") | {flag: False for flag in re.findall(r"(?<!\[)--([\w-]+)", line)})
            words = re.sub(r"--[\w-]+(?: [A-Z]+)?", "", line)
            tool.words = tool.words or [word + dots for word, dots in re.findall(r"\b([A-Z]+)\]?(\.\.\.)?", words)]
    yield "README.md", found, ()


def same_words(known, words, place):
    """Whether a place has a tool's words: bash their kinds, all others as many, and several of the last where there may be."""
    if place.endswith(".bash"):
        return words == [KINDS.get(word.strip("."), "file") + ("s" if "..." in word else "") for word in known]
    return [word.endswith("...") for word in words] == [word.endswith("...") for word in known]


def faults(known, place, found, flags):
    """What a place lacks, has too much or tells otherwise."""
    for name in sorted(set(known) - set(found)):
        if not place.endswith("_help.txt"):
            yield f"{place}: {name} is not there"
    for name in sorted(set(found) - set(known) - OTHERS):
        yield f"{place}: there is no tool {name}"
    for name in sorted(set(found) & set(known)):
        tool, wanted = found[name], known[name]
        if tool and tool.options is not None:
            options = {**wanted.options, **{flag: False for flag in flags}}
            for option in sorted(set(options) - set(tool.options)):
                yield f"{place}: {name} lacks --{option}"
            for option in sorted(set(tool.options) - set(options)):
                yield f"{place}: {name} has no --{option}"
            for option in sorted(set(options) & set(tool.options)):
                if options[option] != tool.options[option]:
                    yield f"{place}: --{option} of {name} takes {'a' if options[option] else 'no'} value"
        if tool and tool.does and wanted.does and tool.does != wanted.does:
            yield f"{place}: of {name} it says not: {wanted.does}"
        if tool and tool.words is not None and not same_words(wanted.words, tool.words, place):
            yield f"{place}: the words of {name} are {' '.join(wanted.words)}"


def not_installed():
    """The programs, pages and completions that are not installed."""
    text = read("packaging/install.sh")
    for path in sorted(glob.glob(f"{TOP}/bin/*") + glob.glob(f"{TOP}/man/*") + glob.glob(f"{TOP}/completions/*")):
        name = os.path.relpath(path, TOP)
        if not re.search(rf" {re.escape(name)}[\n\"]", text):
            yield f"packaging/install.sh: {name} is not installed"


def main():
    known = tools()
    told, places = list(not_installed()), 0
    for listed in (of_help(), of_program(), of_bash(known), of_zsh(), of_fish(known), of_page(), of_readme()):
        for place, found, flags in listed:
            places += 1
            told += faults(known, place, found, flags)
    for line in told:
        print(line)
    options = sum(len(tool.options) for tool in known.values())
    print(f"{len(known)} tools with {options} options of their own, in {places} places; {len(told)} wrong")
    return bool(told)


if __name__ == "__main__":
    sys.exit(main())
