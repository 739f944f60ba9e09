#!/usr/bin/env python3
"""Has vim and kakoune, each where it is installed, save a file a hundred times, with the line of docs/COMMIT.md in the editor's settings, by which each save
is committed. Each saved state is shown again byte by byte from the image, both checkers accept it, its bytes come from revisions that were there, the
file of times names the states, and the last state is the file's. In a terminal that tmux keeps, saves that cannot be committed are shown until that is
read: beside an image that is none, keys in use, and an image that may not grow. And a file moves with what belongs to it, by the line of docs/COMMIT.md.

Usage: tests/editor_saves.py [PROGRAM [SAVES]]. An editor that is not there is not tried, which is told. The last line is 'N passed, M failed'.
"""

import os
import random
import re
import shutil
import subprocess
import sys
import tempfile
import time

from second_checker import PROGRAM, TOP, verify

with open(os.path.join(TOP, "docs/COMMIT.md")) as page:
    PAGE = page.read()
EXAMPLES = os.environ.get("EXAMPLES", f"{TOP}/examples")
LINES = {
    name: line.replace("/usr/share/cordkit", EXAMPLES) for name, line in re.findall(r"^\| (vim|kakoune) \| [^|]* \| `(.*)` \|$", PAGE, re.MULTILINE)
}
(MOVING,) = re.findall(r"^  `(for s in .*)`$", PAGE, re.MULTILINE)


class Wrong(Exception):
    """What is wrong with what an editor saved."""


def require(holds, what):
    if not holds:
        raise Wrong(what)


# ---- Edits by chance, in the words of each editor


def vim_script(chance, saves):
    """Commands of vim that change notes.txt and save it; each state is copied beside it."""
    lines = ["set nocompatible nomore", LINES["vim"]]
    for number in range(saves):
        for _ in range(chance.choice([1, 1, 3])):
            lines.append(
                chance.choice(
                    [
                        f"silent! {chance.randrange(12)}put ='line {chance.getrandbits(30)} of save {number}'",
                        f"silent! %s/save/s{number}/",
                        f"silent! {chance.randrange(1, 20)}delete",
                        "silent! 2move $",
                        "silent! 1copy 0",
                        "silent! 1join",
                        "silent! normal! Gyyp",
                        "silent! undo",
                    ]
                )
            )
        lines += ["silent write", f"silent !cp notes.txt state.{number}"]
    # Where a command found nothing to do vim would end with 1.
    return "\n".join([*lines, "cquit 0", ""])


def kakoune_script(chance, saves):
    keys = ["ggoline of save {0}<esc>", "gjxyp", "ggxd", "gjoend {0}<esc>", "%s[a-e]<ret>~", "ggxygjp", "u"]
    lines = []
    for number in range(saves):
        chosen = chance.choice(keys).format(number)
        lines += [f"try %{{ execute-keys '{chosen}' }}", "write", f"nop %sh{{ cp notes.txt state.{number} }}"]
    return "\n".join([*lines, "quit!", ""])


def run(words, env):
    done = subprocess.run(words, stdin=subprocess.DEVNULL, capture_output=True, check=False, env=env, timeout=600)
    require(done.returncode == 0, f"{words[0]}: status {done.returncode}, {done.stderr[-300:]!r}")


def vim(chance, saves, env):
    with open("edits.vim", "w") as file:
        file.write(vim_script(chance, saves))
    run(["vim", "-es", "-u", "NONE", "-i", "NONE", "-n", "-S", "edits.vim", "notes.txt"], env)


def kakoune(chance, saves, env):
    with open("edits.kak", "w") as file:
        file.write(LINES["kakoune"] + "\nhook -once global KakBegin .* %{ evaluate-commands %{\n" + kakoune_script(chance, saves) + "} }\n")
    run(["kak", "-n", "-ui", "dummy", "-e", "source edits.kak; edit notes.txt\n" + kakoune_script(chance, saves), "notes.txt"], env)


# ---- Saves that are not committed, in a terminal


class Terminal:
    """A terminal of 80 columns and 24 rows that tmux keeps, with a program in it."""

    def __init__(self, words, env):
        # The name of a socket is short.
        self.socket = tempfile.mkdtemp()
        self.env = env
        self.tmux("-f", "/dev/null", "new-session", "-d", "-x", "80", "-y", "24", *words)

    def tmux(self, *words):
        env = {**self.env, "LC_ALL": "C.UTF-8", "TERM": "screen"}
        return subprocess.run(["tmux", "-S", f"{self.socket}/s", *words], capture_output=True, text=True, check=False, env=env).stdout

    def type(self, text, *keys):
        if text:
            self.tmux("send-keys", "-l", text)
        for key in keys:
            self.tmux("send-keys", key)

    def shows(self, what, wanted=True):
        """Whether the screen comes to show this, whatever lines it is broken into, or not to show it."""
        for _ in range(200):
            if (re.search(what, re.sub(r"[\s│]", "", self.tmux("capture-pane", "-p"))) is not None) == wanted:
                return True
            time.sleep(0.1)
        return False

    def ends(self):
        """Whether the program that runs in it comes to its end."""
        for _ in range(200):
            if not self.tmux("list-sessions"):
                return True
            time.sleep(0.1)
        return False

    def end(self):
        self.tmux("kill-server")
        shutil.rmtree(self.socket)


def settings(name):
    file = {"vim": "vimrc", "kakoune": "kakrc"}[name]
    with open(file, "w") as out:
        out.write(LINES[name] + "\n")
    if name == "vim":
        return ["vim", "-N", "-u", file, "-i", "NONE", "-n", "refused.txt"]
    return ["kak", "-n", "-e", f"source {file}", "refused.txt"]


# Why a save is not committed: how that comes about, and what is told. A program that vim runs does not ignore the signal of a file that is too long.
REFUSED = {
    "an image that is none": ("echo prose > refused.txt.cord; exec \"$@\"", "refusedC1.I3"),
    "keys that are in use": (
        'printf "CORDKEYS%048dx" 0 > refused.txt.cord.keys; rm -f refused.txt.cord; printf "a\\030" | "$CORDKIT" edit refused.txt.cord > /dev/null; '
        'exec flock refused.txt.cord.keys "$@"',
        "refusedJ2",
    ),
    "an image that may not grow": ('rm -f refused.txt*; yes | head -c 400 > refused.txt; trap "" XFSZ; ulimit -f 1; exec "$@"', "write:|status153"),
}


def shown_until_read(name, why, env):
    """A save that is not committed is told on the screen, by the file's name and the code, until a key is pressed; the file itself is saved."""
    setting, code = REFUSED[why]
    terminal = Terminal(["sh", "-c", setting, "sh", *settings(name)], env)
    try:
        require(terminal.shows("refused.txt"), f"{why}: {name} does not begin")
        terminal.type("ggOtyped", "Escape")
        terminal.type(":w", "Enter")
        require(terminal.shows("refused.txtisnotcommitted:") and terminal.shows(code), f"{why}: nothing is shown of it")
        time.sleep(1)
        require(terminal.shows(code), f"{why}: it goes away by itself")
        terminal.type("", "Enter" if name == "vim" else "Space")
        require(terminal.shows(code, wanted=False), f"{why}: it stays on the screen")
        with open("refused.txt") as file:
            require(file.readline() == "typed\n", f"{why}: the file itself is not saved")
    finally:
        terminal.end()


def written_together(name, env):
    """Where several files are written by one command and one is not committed, that is told until a key is pressed, and the others are written."""
    terminal = Terminal(["sh", "-c", REFUSED["an image that is none"][0], "sh", *settings(name)], env)
    try:
        require(terminal.shows("refused.txt"), f"{name} does not begin")
        terminal.type("ggOtyped", "Escape")
        terminal.type(":set hidden | edit other.txt" if name == "vim" else ":edit other.txt", "Enter")
        require(terminal.shows("other.txt"), f"{name} does not open another file")
        terminal.type("ggOtoo", "Escape")
        terminal.type(":wqa" if name == "vim" else ":wa", "Enter")
        require(terminal.shows("refused.txtisnotcommitted:"), f"{name}: nothing is told of the file that is not committed")
        terminal.type("", "Enter" if name == "vim" else "Space")
        require(terminal.ends() if name == "vim" else terminal.shows("isnotcommitted", wanted=False), f"{name}: it is told on")
        with open("refused.txt") as file, open("other.txt") as other:
            require((file.readline(), other.readline()) == ("typed\n", "too\n"), f"{name}: a file is not written")
    finally:
        terminal.end()


def moved(program):
    """The line of the page moves a file with what belongs to it: what is saved then goes on with its history."""
    done = subprocess.run(["sh", "-c", MOVING], stdin=subprocess.DEVNULL, capture_output=True, text=True, check=False)
    require(done.returncode == 0 and done.stderr == "", f"the page's line to move a file: {done.stderr}")
    require(not [name for name in os.listdir() if name.startswith("notes.txt")], "something of the file is left")
    before = subprocess.run([program, "check", "essay.txt.cord"], capture_output=True, text=True, check=True).stdout
    committed = subprocess.run([program, "commit", "essay.txt.cord", "essay.txt"], capture_output=True, text=True, check=False).stdout
    require(committed.startswith("same ") and int(committed.split()[1]) == int(before.split()[1]) - 1, f"the moved history: {committed}")


# ---- What was kept


def check_saves(program, saves):
    """Whether each saved state is kept."""
    with open("notes.txt.cord", "rb") as file:
        data = file.read()
    accepted = verify.line(data, [])
    checked = subprocess.run([program, "check", "notes.txt.cord"], capture_output=True, text=True, check=False)
    require(accepted.startswith("accepted ") and checked.stdout == f"{accepted}\n", f"{accepted} and {checked.stdout}")
    texts = verify.all_texts(verify.checked(data, []), [])
    with open("notes.txt.times") as file:
        numbers = [int(line.split()[0]) for line in file]
    states = []
    for number in range(saves):
        with open(f"state.{number}", "rb") as file:
            states.append(file.read())
    changed = [state for before, state in zip([None, *states], states) if state != before]
    require([texts[number] for number in numbers] == changed, "the numbers in the file of times name other states")
    for number in numbers:
        shown = subprocess.run([program, "show", "notes.txt.cord", str(number)], capture_output=True, check=False)
        require(shown.stdout == texts[number], f"revision {number} is shown as another text")
        blamed = subprocess.run([program, "blame", "notes.txt.cord", str(number)], capture_output=True, check=False).stdout.splitlines()
        runs = [list(map(int, line.split()[:4])) for line in blamed]
        require(sum(run[1] for run in runs) == len(texts[number]) and all(run[2] <= number for run in runs), f"revision {number}: other runs")
        require(all(texts[number][at : at + n] == texts[k][place : place + n] for at, n, k, place in runs), f"revision {number}: other bytes")
    return len(numbers)


def main():
    program = os.path.abspath(sys.argv[1] if len(sys.argv) > 1 else PROGRAM)
    saves = int(sys.argv[2]) if len(sys.argv) > 2 else 100
    passed, failed = 0, 0
    for name, tool, edit in ("vim", "vim", vim), ("kakoune", "kak", kakoune):
        if not shutil.which(tool):
            print(f"LEFT OUT: saves of {name}: there is no {tool} here")
            continue
        with tempfile.TemporaryDirectory() as folder:
            os.chdir(folder)
            env = {**os.environ, "PATH": f"{TOP}/examples:{os.environ['PATH']}", "CORDKIT": program, "HOME": folder, "TERM": "dumb"}
            try:
                edit(random.Random(name), saves, env)
                print(f"{name}: {saves} saves, {check_saves(program, saves)} states")
                moved(program)
                if shutil.which("tmux"):
                    for why in REFUSED:
                        shown_until_read(name, why, env)
                    written_together(name, env)
                else:
                    print(f"LEFT OUT: saves of {name} that are not committed: there is no tmux here")
                passed += 1
            except (Wrong, subprocess.TimeoutExpired, FileNotFoundError) as wrong:
                print(f"FAILED: {name}: {wrong}")
                failed += 1
            os.chdir("/")
    print(f"{passed} passed, {failed} failed")
    return failed != 0


if __name__ == "__main__":
    sys.exit(main())
