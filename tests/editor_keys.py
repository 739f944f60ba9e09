#!/usr/bin/env python3
"""Editors that tell cordkit-lsp what is typed, each where it is installed: neovim and Emacs, by the client of the language server protocol that they have and by
the one in examples. Random edits (tests/editor_keys.lua, tests/editor_keys.el): behind each the session's text is compared with the buffer's, in the file's form,
byte by byte. A client that tells lines as they stand may differ nowhere; one of ranges behind one edit of ten, until the next save. Then keys are
typed at random intervals into neovim in a terminal, with the lines of docs/EDITORS.md, while it, cordkit-lsp and cordkit serve are killed: what the client told is
there, as it is read from what the client wrote, and each run of bytes was made in the minute that the times tell.

editor_keys.py [COUNT [KEYS [PROGRAM]]]
The last line is 'N passed, M failed'."""

import json
import multiprocessing
import os
import pty
import random
import re
import select
import shutil
import signal
import subprocess
import sys
import tempfile
import time

sys.dont_write_bytecode = True
from second_checker import PROGRAM, TOP, verify

SERVER = os.environ.get("CORDKIT_LSP", f"{TOP}/bin/cordkit-lsp")
EXAMPLES = os.environ.get("EXAMPLES", f"{TOP}/examples")
PLAIN = "the quick brown fox\njumps over\n\tthe lazy dog\n\nnaïve café\nend\n"
FORMS = {
    "plain": PLAIN.encode(),
    "returns": PLAIN.replace("\n", "\r\n").encode(),
    "a mark": PLAIN.encode("utf-8-sig"),
    "Latin-1": PLAIN.encode("latin-1"),
    "no last end": PLAIN[:-1].encode(),
    "zero bytes": b"a\0b\ncd\0\0e\nfox\n",
    "empty": b"",
}
NVIM = ["nvim", "--headless", "-u", "NONE", "-i", "NONE", "-n", "-S", f"{TOP}/tests/editor_keys.lua"]
EMACS = ["emacs", "--batch", "--eval", "(setq load-prefer-newer t)", "-l", "/usr/share/emacs/site-lisp/debian-startup.el", "--eval", "(package-initialize)"]
EDITORS = {"nvim": NVIM, "emacs": [*EMACS, "-l", f"{TOP}/tests/editor_keys.el"]}


class Wrong(Exception):
    """What is wrong."""


def require(holds, what):
    if not holds:
        raise Wrong(what)


def read(path):
    with open(path, "rb") as file:
        return file.read()


def write(path, data):
    with open(path, "wb") as file:
        file.write(data)


def settings(folder, **more):
    """The environment of an editor that has its files in a folder."""
    homes = {name: folder for name in ("HOME", "XDG_STATE_HOME", "XDG_DATA_HOME", "XDG_CACHE_HOME", "XDG_CONFIG_HOME")}
    return {**os.environ, **homes, "LC_ALL": "C.UTF-8", "TERM": "xterm", "EXAMPLES": EXAMPLES, "PROGRAM": SERVER, **more}


def servers(folder):
    """The id of each cordkit serve over a folder's file, behind that of the cordkit-lsp that started it."""
    found = []
    for name in filter(str.isdigit, os.listdir("/proc")):
        try:
            words = read(f"/proc/{name}/cmdline").split(b"\0")
            (parent,) = re.findall(rb"^PPid:\s*(\d+)", read(f"/proc/{name}/status"), re.M)
        except OSError:
            continue
        if f"{folder}/notes.txt.cord".encode() in words and b"serve" in words:
            found.append((int(parent), int(name)))
    return found


def ended(folder):
    """Whether all servers come to their end; each saves its image first."""
    for _ in range(1200):
        if not servers(folder):
            return True
        time.sleep(0.1)
    return False


def texts_of(folder):
    """The texts of a folder's image, which the second checker accepts, once all is saved that an editor left beside it."""
    require(ended(folder), "a server stays")
    image = f"{folder}/notes.txt.cord"
    done = subprocess.run([os.environ["CORDKIT"], "serve", image], input=b"save\n", capture_output=True, check=False)
    require(done.stdout.startswith(b"saved"), f"{done.stdout} {done.stderr}")
    accepted = verify.line(read(image), [])
    require(accepted.startswith("accepted"), accepted)
    return verify.all_texts(verify.checked(read(image), []), [])


# ---- Edits by chance


def edits(editor, client, form, count):
    """Edits in one editor: how many texts were compared, and how many differ."""
    with tempfile.TemporaryDirectory() as folder:
        folder = os.path.realpath(folder)
        file, listing = f"{folder}/notes.txt", f"{folder}/listing"
        write(file, FORMS[form])
        more = {"WIDE": "1"} if form in ("plain", "empty") else {"ENCODED": "1"} if form == "Latin-1" else {}
        env = settings(folder, FILE=file, LISTING=listing, CLIENT=client, COUNT=str(count), SEED=str(count + len(form)), **more)
        done = subprocess.run(EDITORS[editor], stdin=subprocess.DEVNULL, capture_output=True, check=False, cwd=folder, env=env, timeout=60 + 3 * count)
        told = read(listing).decode("utf-8", "replace").splitlines() if os.path.exists(listing) else []
        last = re.fullmatch(r"compared (\d+) differ (\d+)", told[-1] if told else "")
        require(last, f"status {done.returncode}: {done.stderr[-300:]!r} {told[-2:]}")
        compared, differ = map(int, last.groups())
        differing = [line for line in told if line.startswith("differs")]
        most = count // 10 if client == "lsp" else 0
        require(compared == count + 2 and differ <= most, f"{differ} of {compared} differ: {differing[:2]}")
        require(not any("save" in line.partition(":")[0] for line in differing), f"behind a save: {differing}")
        require(not [line for line in told if line.startswith("the file is not")], "the file is not the buffer")
        require(texts_of(folder)[-1] == read(file), "the image has another last text than the file")
        return compared, differ


def tried(job):
    name, editor, client, form, count = job
    try:
        compared, differ = edits(editor, client, form, count)
        return f"{name}: {compared} compared, {differ} differ", True
    except (Wrong, OSError, subprocess.SubprocessError, verify.Refused) as wrong:
        return f"FAILED: {name}: {wrong}", False


def jobs(count):
    for editor, title in ("nvim", "neovim"), ("emacs", "Emacs"):
        if not shutil.which(editor):
            print(f"LEFT OUT: edits of {title}: there is no {editor} here")
            continue
        clients = {"own": "its client of examples", "lsp": "ranges", "whole": "whole texts"}
        if editor == "emacs" and subprocess.run([*EMACS, "--eval", "(require 'eglot)"], capture_output=True, check=False).returncode:
            print("LEFT OUT: edits of Emacs by eglot: it is not installed here")
            del clients["lsp"], clients["whole"]
        for client, told in clients.items():
            for form in FORMS if count >= 100 else ["plain"]:
                if (editor, client, form) == ("nvim", "lsp", "zero bytes"):
                    continue  # Its columns count no further than a zero byte: docs/EDITORS.md.
                yield f"{title}, {told}, {form}", editor, client, form, count if form == "plain" else count // 5


# ---- Keys in a terminal


def page_lines(title):
    """The lines of docs/EDITORS.md behind a title."""
    text = read(f"{TOP}/docs/EDITORS.md").decode()
    return re.search(rf"\*\*{title}\*\*.*?```\w+\n(.*?)```", text, re.DOTALL).group(1)


class Typist:
    """neovim in a terminal, with the lines of the page; what its client writes is noted, with the time."""

    def __init__(self, folder):
        self.folder, self.file = folder, f"{folder}/notes.txt"
        self.opened = self.openings()
        os.makedirs(f"{folder}/bin", exist_ok=True)
        write(f"{folder}/init.lua", page_lines("neovim").encode())
        noted = f"#!/bin/sh\nexec python3 {TOP}/tests/editor_keys.py --noted {folder}/noted {SERVER} \"$@\"\n"
        write(f"{folder}/bin/cordkit-lsp", noted.encode())
        os.chmod(f"{folder}/bin/cordkit-lsp", 0o755)
        env = settings(folder, PATH=f"{folder}/bin:{os.environ['PATH']}")
        self.pid, self.terminal = pty.fork()
        if self.pid == 0:
            os.chdir(folder)
            os.execvpe("nvim", ["nvim", "-u", f"{folder}/init.lua", "-i", "NONE", "-n", self.file], env)

    def rest(self, seconds):
        """Waits, and takes what comes on the screen."""
        end = time.time() + seconds
        while (left := end - time.time()) > 0:
            if select.select([self.terminal], [], [], left)[0]:
                try:
                    os.read(self.terminal, 65536)
                except OSError:
                    return

    def openings(self):
        """How often its client told a whole text so far."""
        path = f"{self.folder}/noted"
        return sum(message.get("method") == "textDocument/didOpen" for _, message in messages_of(path)) if os.path.exists(path) else 0

    def begins(self):
        """Waits until its client told the text, and the session began."""
        for _ in range(300):
            self.rest(0.1)
            if self.openings() > self.opened and servers(self.folder):
                self.rest(1)
                return
        raise Wrong("the client does not begin")

    def type(self, keys):
        os.write(self.terminal, keys)

    def end(self, keys=None):
        """Ends the editor: by its keys, or by kill -9."""
        if keys is None:
            os.kill(self.pid, signal.SIGKILL)
        else:
            self.type(keys)
            self.rest(1.5)
        os.waitpid(self.pid, 0)
        os.close(self.terminal)


def noted(path, words):
    """Stands between the client and cordkit-lsp: notes each piece with the time behind it was given on."""
    signal.signal(signal.SIGHUP, signal.SIG_IGN)
    child = subprocess.Popen(words, stdin=subprocess.PIPE, bufsize=0)
    with open(path, "ab", buffering=0) as file:
        while piece := os.read(0, 65536):
            try:
                child.stdin.write(piece)
            except BrokenPipeError:
                break
            file.write(json.dumps([time.time(), piece.decode("latin-1")]).encode() + b"\n")
    child.stdin.close()
    return child.wait()


def messages_of(path):
    """What the client wrote, each message with its time; a new one begins anew."""
    data, found = b"", []
    for line in read(path).splitlines():
        when, piece = json.loads(line)
        piece = piece.encode("latin-1")
        data = piece if b'"initialize"' in piece else data + piece
        while (head := data.find(b"\r\n\r\n")) >= 0:
            length = int(re.search(rb"Content-Length: (\d+)", data[:head]).group(1))
            if len(data) < head + 4 + length:
                break
            found.append((when, json.loads(data[head + 4 : head + 4 + length])))
            data = data[head + 4 + length :]
    return found


def place_in(text, position):
    """Where a position is in a text of plain characters."""
    start = 0
    for _ in range(position["line"]):
        start = text.index("\n", start) + 1
    return start + position["character"]


def states_of(path):
    """Each text that the client told, with the time: of plain characters, with the positions as they are."""
    text, found = "", []
    for when, message in messages_of(path):
        method, params = message.get("method"), message.get("params")
        if method == "textDocument/didOpen":
            text = params["textDocument"]["text"]
            found.append((when, text))
        for change in params["contentChanges"] if method == "textDocument/didChange" else []:
            start, end = place_in(text, change["range"]["start"]), place_in(text, change["range"]["end"])
            text = text[:start] + change["text"] + text[end:]
            found.append((when, text))
    return found


def last_text(path):
    """The last text of the session, with what is not saved."""
    done = subprocess.run([SERVER, "--show", path, "9999"], stdin=subprocess.DEVNULL, capture_output=True, check=False)
    require(done.returncode == 0, f"--show: {done.stderr!r}")
    return done.stdout.decode()


KEYS = b"the quick brown fox jumps over the lazy dog and then it sleeps. "


def type_some(typist, chance, count, rate):
    typist.type(b"Go")
    for number in range(count):
        key = KEYS[number % len(KEYS) :][:1]
        typist.type(b"\x7f" if chance.random() < 0.05 else b"\r" if chance.random() < 0.02 else key)
        typist.rest(chance.expovariate(rate))


def minutes_are_told(typist):
    """Whether each run of bytes of the last text was made in a minute in which the client told the text of its revision."""
    shown = subprocess.run([SERVER, "--runs", typist.file, "0", "999999999"], stdin=subprocess.DEVNULL, capture_output=True, check=False)
    require(shown.returncode == 0, f"--runs: {shown.stderr!r}")
    texts, when = texts_of(typist.folder), {}
    for at, text in states_of(f"{typist.folder}/noted"):
        for second in (at, at + 1, at + 2):
            when.setdefault(text.encode(), set()).add(time.strftime("%Y-%m-%d %H:%M", time.localtime(second)))
    lines = [line.split(maxsplit=3) for line in shown.stdout.decode().splitlines()]
    for _, _, revision, minute in lines:
        told = when.get(texts[int(revision)], when.get(texts[int(revision)] + b"\n", set()))
        require(minute in told, f"revision {revision} was made {minute}, and told {sorted(told)[:3]}")
    return len(lines), len(texts)


def typing(keys):
    """Keys at random intervals; the editor is killed twice, and cordkit-lsp twice, once with cordkit serve."""
    chance = random.Random(keys)
    with tempfile.TemporaryDirectory() as folder:
        folder = os.path.realpath(folder)
        write(f"{folder}/notes.txt", b"begin\n")
        missing = 0
        for part, killed in enumerate(["the editor", "cordkit-lsp", "the editor", "all", "nothing"]):
            typist = Typist(folder)
            typist.begins()
            type_some(typist, chance, keys // 5, 50)
            when = time.time()
            if killed in ("cordkit-lsp", "all"):
                for parent, child in servers(folder):
                    os.kill(parent, signal.SIGKILL)
                    if killed == "all":
                        os.kill(child, signal.SIGKILL)
            typist.end(b"\x1b:wq\r" if killed == "nothing" else None)
            require(ended(folder), "a server stays")
            states, last = states_of(f"{folder}/noted"), last_text(typist.file)
            # What cordkit-lsp had not read yet goes with it.
            lost = next((n for n, (_, text) in enumerate(reversed(states)) if text == last), None)
            told = f"part {part}, {killed} killed, {lost} lost: {last[-80:]!r} and {states[-1][1][-80:]!r}"
            require(lost == 0 or (lost is not None and killed in ("cordkit-lsp", "all") and states[-1 - lost][0] > when - 2), told)
            missing += lost
        require(read(f"{folder}/notes.txt").decode() == states[-1][1], "the file is not what was told")
        runs, revisions = minutes_are_told(typist)
        checked = subprocess.run([os.environ["CORDKIT"], "check", f"{typist.file}.cord"], capture_output=True, check=False).stdout
        require(checked.startswith(b"accepted"), f"{checked}")
        return f"{len(states)} texts told, {missing} lost with cordkit-lsp, {revisions} revisions, {runs} runs of bytes"


def main():
    if sys.argv[1:2] == ["--noted"]:
        return noted(sys.argv[2], sys.argv[3:])
    count = int(sys.argv[1]) if len(sys.argv) > 1 else 1000
    keys = int(sys.argv[2]) if len(sys.argv) > 2 else 10000
    os.environ["CORDKIT"] = os.path.abspath(sys.argv[3] if len(sys.argv) > 3 else PROGRAM)
    os.environ.pop("XDG_CONFIG_HOME", None)
    with multiprocessing.Pool(min(3, os.cpu_count())) as pool:
        results = []
        for said, passed in pool.imap(tried, list(jobs(count))):
            print(said, flush=True)
            results.append(passed)
    if not shutil.which("nvim"):
        print("LEFT OUT: keys in a terminal: there is no nvim here")
    elif keys:
        try:
            print(f"keys in a terminal: {typing(keys)}")
            results.append(True)
        except (Wrong, OSError, subprocess.SubprocessError) as wrong:
            print(f"FAILED: keys in a terminal: {wrong}")
            results.append(False)
    print(f"{sum(results)} passed, {len(results) - sum(results)} failed")
    return not all(results)


if __name__ == "__main__":
    sys.exit(main())
