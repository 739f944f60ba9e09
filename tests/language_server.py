#!/usr/bin/env python3
"""bin/cordkit-lsp over the built program, or the one that is named, by a client that is no editor: changes that chance makes, told as a range or whole, each
text compared with a plain one, while the server and `cordkit serve` are killed by kill -9; files of each form, beside what python writes; a file that changed on
the disk; undo; long texts; ranges that are wrong; two servers over one file; an image that is full; files that nobody named; modes; times, and the
commands that look at them. In the end each image is checked.

language_server.py [COUNT [PROGRAM [CASE]]]
The last line is 'N passed, M failed'."""

import json
import os
import random
import shutil
import stat
import subprocess
import sys
import tempfile
import time
import urllib.parse

sys.dont_write_bytecode = True
from second_checker import PROGRAM, TOP

SERVER = os.environ.get("CORDKIT_LSP", f"{TOP}/bin/cordkit-lsp")
LETTERS = ["a", "b", "é", "日", "𐐀", "🦊", "\n", "\t", '"', "\\", "\u2028", "\x0c", "\x7f", "e\u0301", " ", "\0", "\x85"]


class Wrong(Exception):
    """What is wrong with the server."""


def require(holds, what):
    if not holds:
        raise Wrong(what)


def units(text):
    return len(text.encode("utf-16-le")) // 2


def read(path):
    with open(path, "rb") as file:
        return file.read()


def write(path, data):
    with open(path, "wb") as file:
        file.write(data)


class Client:
    """A server, and what it told the user."""

    def __init__(self, path, words=("*.txt",), named="a client", **env):
        self.path, self.uri, self.told, self.count = path, "file://" + urllib.parse.quote(path), [], 0
        self.child = subprocess.Popen(
            [SERVER, *words], stdin=subprocess.PIPE, stdout=subprocess.PIPE, stderr=subprocess.DEVNULL, env={**os.environ, **env}
        )
        self.ask("initialize", {"capabilities": {}, "clientInfo": {"name": named}})

    def send(self, method, params, **more):
        body = json.dumps({"jsonrpc": "2.0", "method": method, "params": params, **more}).encode()
        self.child.stdin.write(b"Content-Length: %d\r\n\r\n" % len(body) + body)
        self.child.stdin.flush()

    def tell(self, what, document=None, **more):
        self.send(f"textDocument/{what}", {"textDocument": {"uri": self.uri, **(document or {})}, **more})

    def ask(self, method, params):
        self.count += 1
        self.send(method, params, id=self.count)
        while True:
            line = self.child.stdout.readline()
            require(line, "the server ended")
            self.child.stdout.readline()
            answer = json.loads(self.child.stdout.read(int(line.split()[1])))
            if answer.get("id") == self.count:
                return answer.get("result")
            self.told.append(answer["params"]["message"])

    def command(self, name, *given):
        return self.ask("workspace/executeCommand", {"command": f"cordkit.{name}", "arguments": [self.uri, *given]})

    def open(self, text):
        self.tell("didOpen", {"text": text, "version": 0, "languageId": "text"})

    def change(self, line, column, until, put):
        """Puts this in place of what stands in a line between two columns."""
        span = {"start": {"line": line, "character": column}, "end": {"line": line, "character": until}}
        self.tell("didChange", contentChanges=[{"range": span, "text": put}])

    def save(self, text):
        self.tell("didSave", text=text)

    def kept(self):
        """The session's last revision and its bytes; nothing where the file is not recorded."""
        answer = self.command("kept")
        return (answer["revision"], bytes.fromhex(answer["bytes"])) if answer else (None, None)

    def end(self):
        self.ask("shutdown", None)
        self.send("exit", None)
        require(self.child.wait(60) == 0, "the status of the server is not 0")

    def kill(self):
        self.child.kill()
        self.child.wait()

    def served(self):
        """The ids of what the server started."""
        return [int(word) for word in read(f"/proc/{self.child.pid}/task/{self.child.pid}/children").split()]


def run(*words, **more):
    return subprocess.run(words, capture_output=True, check=False, **{"input": b"", **more})


def checked(path):
    """The last text of a file's image, which is accepted."""
    done = run(os.environ["CORDKIT"], "check", path + ".cord")
    require(done.stdout.startswith(b"accepted "), f"the image: {done.stdout!r}")
    return run(os.environ["CORDKIT"], "show", path + ".cord").stdout


def logged(path):
    return run(os.environ["CORDKIT"], "log", "--brief", path + ".cord").stdout.decode().splitlines()


# ---- Changes by chance


class Edits:
    """A text that chance changes, as an editor tells it."""

    def __init__(self, chance):
        self.chance = chance
        self.text = self.some(200)

    def some(self, most):
        return "".join(self.chance.choice(LETTERS) for _ in range(self.chance.randrange(most)))

    def position(self, place):
        start = self.text.rfind("\n", 0, place) + 1
        return {"line": self.text.count("\n", 0, place), "character": units(self.text[start:place])}

    def one(self):
        """Makes a change; how it is told."""
        a, b = sorted(self.chance.randrange(len(self.text) + 1) for _ in range(2))
        if self.chance.random() < 0.7:
            b = min(b, a + self.chance.randrange(4))
        put = self.chance.choice(["", self.some(5), self.some(5), self.some(40)])
        if self.chance.random() < 0.005:
            put = self.some(3) * 40000
        told = {"range": {"start": self.position(a), "end": self.position(b)}, "text": put}
        if self.chance.random() < 0.5:
            told["rangeLength"] = units(self.text[a:b])
        self.text = self.text[:a] + put + self.text[b:]
        if len(self.text) > 3000:
            self.text = self.text[:100]
            return {"text": self.text}
        return told if self.chance.random() < 0.97 else {"text": self.text}


def by_chance(path, count):
    """Changes, each text beside the plain one; the server and the program are killed meanwhile."""
    chance = random.Random(count)
    edits = Edits(chance)
    write(path, edits.text.encode())
    client = Client(path)
    client.open(edits.text)
    killed = 0
    for number in range(count):
        client.tell("didChange", contentChanges=[edits.one() for _ in range(chance.choice([1, 1, 1, 2, 5]))])
        if number == count // 3 or chance.random() < 0.03:
            for child in client.served():
                os.kill(child, 9)
                killed += 1
        if number == count // 2 or chance.random() < 0.02:
            require(client.kept()[1] == edits.text.encode(), f"before the kill at {number}: another text")
            client.kill()
            killed += 1
            client = Client(path)
            client.open(edits.text)
        if chance.random() < 0.05:
            write(path, edits.text.encode())
            client.save(edits.text)
        require(client.kept()[1] == edits.text.encode(), f"change {number}: another text, {client.told}")
    client.end()
    require(not client.told, f"it told {client.told}")
    require(checked(path) == edits.text.encode(), "the image has another last text")
    return f"{count} notifications, {killed} kills"


# ---- Forms

TEXT = "one é\ntwo\n\nthree ü\n"
FORMS = {
    "plain": (TEXT.encode(), TEXT, lambda text: text.encode()),
    "returns that are not told": (TEXT.replace("\n", "\r\n").encode(), TEXT, lambda text: text.replace("\n", "\r\n").encode()),
    "returns that are told": (TEXT.replace("\n", "\r\n").encode(), TEXT.replace("\n", "\r\n"), lambda text: text.encode()),
    "returns alone": (TEXT.replace("\n", "\r").encode(), TEXT, lambda text: text.replace("\n", "\r").encode()),
    "a mark": (TEXT.encode("utf-8-sig"), TEXT, lambda text: text.encode("utf-8-sig")),
    "Latin-1": (TEXT.encode("latin-1"), TEXT, lambda text: text.encode("latin-1")),
    "Latin-1 and returns": (TEXT.replace("\n", "\r\n").encode("latin-1"), TEXT, lambda text: text.replace("\n", "\r\n").encode("latin-1")),
    "UTF-16": (b"\xff\xfe" + TEXT.encode("utf-16-le"), TEXT, lambda text: b"\xff\xfe" + text.encode("utf-16-le")),
    "Cyrillic": ("да\nнет\n".encode("cp1251"), "да\nнет\n", lambda text: text.encode("cp1251")),
    "no last end": (TEXT[:-1].encode(), TEXT[:-1], lambda text: text.encode()),
    "a zero byte": (b"a\0b\nc\n", "a\0b\nc\n", lambda text: text.encode()),
    "a last end that is not told": (TEXT.encode(), TEXT[:-1], lambda text: text.encode() + b"\n"),
    "empty": (b"", "", lambda text: text.encode()),
}


def in_form(path, name):
    """A file of a form: the session has its bytes, also behind changes and saves, and a save or another opening makes no revision."""
    data, text, written = FORMS[name]
    require(written(text) == data, "the form itself")
    write(path, data)
    client = Client(path)
    client.open(text)
    begun, got = client.kept()
    require(got == data, f"at the opening {got!r}")
    lines = text.split("\n")
    for number, (line, put) in enumerate([(0, "x"), (len(lines) - 1, "end"), (len(lines) // 2, "y\nz"), (0, "\n")]):
        column = min(2, len(lines[line].rstrip("\r")))
        client.change(line, column, column, put)
        lines[line] = lines[line][:column] + put + lines[line][column:]
        lines = "\n".join(lines).split("\n")
        text = "\n".join(lines)
        require(client.kept() == (begun + number + 1, written(text)), f"change {number}: {client.kept()} and {written(text)!r}")
    write(path, written(text))
    client.save(text)
    saved = client.kept()
    require(saved == (begun + 4, written(text)), f"a save: {saved}")
    client.end()
    client = Client(path)
    client.open(text)
    require(client.kept() == saved, "another opening is another revision")
    client.end()
    require(not client.told and checked(path) == written(text), f"{client.told}")


def ended_lines(path, _):
    """A client that ends each line: a last line without an end, and a text without a line."""
    write(path, b"one\ntwo")
    client = Client(path, named="Neovim")
    client.open("one\ntwo")
    require(client.kept()[1] == b"one\ntwo", "at the opening")
    client.tell("didChange", contentChanges=[{"range": {"start": {"line": 2, "character": 0}, "end": {"line": 2, "character": 0}}, "text": "three\n"}])
    require(client.kept()[1] == b"one\ntwo\nthree", f"a line more: {client.kept()}")
    write(path, b"one\ntwo\nthree\n")
    client.save("one\ntwo\nthree")
    require(client.kept()[1] == b"one\ntwo\nthree\n", "the end that the save wrote")
    client.tell("didChange", contentChanges=[{"range": {"start": {"line": 0, "character": 0}, "end": {"line": 3, "character": 0}}, "text": ""}])
    require(client.kept()[1] == b"", f"no line: {client.kept()}")
    client.change(0, 0, 0, "\n")
    require(client.kept()[1] == b"\n\n", f"two lines: {client.kept()}")
    client.end()
    write(path, b"one\r\n")
    client = Client(path, named="Neovim")
    client.open("one\r\n")
    client.tell("didChange", contentChanges=[{"range": {"start": {"line": 0, "character": 0}, "end": {"line": 1, "character": 0}}, "text": ""}])
    client.change(0, 0, 0, "a\r\nb")
    require(client.kept()[1] == b"a\r\nb\r\n", f"returns: {client.kept()}")
    client.end()


# ---- What comes between


def changed_on_disk(path, _):
    """A file that changed while it was closed: lines that stay keep their revisions."""
    lines = [f"line {number}\n" for number in range(400)]
    write(path, "".join(lines).encode())
    client = Client(path)
    client.open("".join(lines))
    client.end()
    changed = ["first\n", *lines[:100], *lines[120:300], "between\n", *lines[300:], "last"]
    write(path, "".join(changed).encode())
    client = Client(path)
    client.open("".join(changed))
    require(client.kept()[1] == "".join(changed).encode(), "another text")
    client.end()
    blamed = [line.split()[:3] for line in run(os.environ["CORDKIT"], "blame", path + ".cord", "last").stdout.decode().splitlines()]
    new = sum(int(count) for _, count, revision in blamed if int(revision) > 1)
    require(new == len("first\nbetween\nlast"), f"{new} bytes are new")
    require("changed elsewhere" in read(path + ".times").decode(), "the times do not tell it")


def undone(path, _):
    """Undo: the text that was comes back by its revision, and its bytes keep their origins."""
    write(path, b"one two three\n")
    client = Client(path)
    client.open("one two three\n")
    client.change(0, 4, 7, "2")
    client.change(0, 4, 5, "two")
    require(client.kept() == (3, b"one two three\n"), f"{client.kept()}")
    client.end()
    require(logged(path)[3].startswith("back 1 "), f"{logged(path)}")
    require(len(run(os.environ["CORDKIT"], "blame", path + ".cord", "last").stdout.splitlines()) == 1, "its bytes have other origins")


def long_texts(path, _):
    """Texts of 65,536 bytes and more at once, in and out."""
    write(path, b"begin\nend\n")
    client = Client(path)
    client.open("begin\nend\n")
    text = "begin\nend\n"
    for length in (65535, 65536, 65537, 200000):
        put = "".join(f"{number:07}\n" for number in range(length // 8 + 1))[:length]
        client.change(1, 0, 0, put)
        text = text[:6] + put + text[6:]
        require(client.kept()[1] == text.encode(), f"{length} bytes")
    client.tell("didChange", contentChanges=[{"text": "short\n"}])
    require(client.kept()[1] == b"short\n", "a short text again")
    client.end()
    require(checked(path) == b"short\n", "the image")


def set_right(path, _):
    """A range that is wrong: at the save the session has the file's text, and the times tell it. A length beside a range goes before its end."""
    write(path, b"one\ntwo\nthree\n")
    client = Client(path)
    client.open("one\ntwo\nthree\n")
    client.change(1, 0, 3, "wrong")
    require(client.kept()[1] == b"one\nwrong\nthree\n", "a wrong range")
    write(path, b"one\ntwo 2\nthree 3\n")
    client.save("one\ntwo 2\nthree 3\n")
    require(client.kept()[1] == b"one\ntwo 2\nthree 3\n", f"{client.kept()}")
    require("set right at a save" in read(path + ".times").decode(), "the times do not tell it")
    client.tell("didChange", contentChanges=[{"range": {"start": {"line": 0, "character": 0}, "end": {"line": 1, "character": 0}}, "rangeLength": 3, "text": "1"}])
    require(client.kept()[1] == b"1\ntwo 2\nthree 3\n", f"{client.kept()}")
    client.tell("didChange", contentChanges=[{"range": {"start": {"line": 90, "character": 7}, "end": {"line": 99, "character": 0}}, "text": "end"}])
    require(client.kept()[1] == b"1\ntwo 2\nthree 3\nend", f"behind the text: {client.kept()}")
    require(read(path + ".times").decode().endswith(" a range that cannot be\n"), "the times do not tell it")
    write(path, b"not told\n")
    client.save("other\n")
    require(client.kept()[1] == b"other\n", f"{client.kept()}")
    client.end()
    (number,) = [line.split()[0] for line in read(path + ".times").decode().splitlines() if line.endswith(" the file at a save")]
    require(run(os.environ["CORDKIT"], "show", path + ".cord", number).stdout == b"not told\n", "the file's text is no revision")


def stopped(path, _):
    """A signal that stops the server: what was told before is kept, and saved."""
    write(path, b"")
    client = Client(path)
    client.open("")
    for number in range(200):
        client.change(0, number, number, "x")
    client.child.terminate()
    require(client.child.wait(60) == 0 and checked(path) == b"x" * 200, f"{checked(path)!r}")


def told_in_part(path, _):
    """A save at which a part of the text is told: the file's text stays. And a file whose form does not show any more goes on in it."""
    write(path, "é\r\ntwo\r\n".encode("latin-1"))
    client = Client(path)
    client.open("é\ntwo\n")
    client.change(0, 0, 1, "one")
    require(client.kept() == (2, "one\r\ntwo\r\n".encode()), f"{client.kept()}")
    write(path, b"one\r\ntwo\r\n")
    client.save("two\n")
    require(client.kept() == (2, b"one\r\ntwo\r\n"), f"{client.kept()}")
    client.change(1, 0, 0, "ü")
    require(client.kept() == (3, "one\r\nütwo\r\n".encode("latin-1")), f"{client.kept()}")
    client.end()


def two_at_once(path, _):
    """A second server over a file, and a second name of it: told, and nothing of them is kept."""
    write(path, b"one\n")
    client, other = Client(path), Client(path)
    client.open("one\n")
    require(client.kept() == (1, b"one\n"), "the first")
    other.open("one\n")
    require(other.kept() == (None, None) and any("J2" in line for line in other.told), f"the second: {other.told}")
    other.end()
    link = path[:-4] + " 2.txt"
    os.symlink(path, link)
    client.uri, uri = "file://" + urllib.parse.quote(link), client.uri
    client.open("other\n")
    require(client.kept() == (None, None) and any("another name" in line for line in client.told), f"the other name: {client.told}")
    client.uri = uri
    client.change(0, 0, 0, "x")
    require(client.kept() == (2, b"xone\n"), "the first goes on")
    client.end()


PROXY = """#!{python}
import subprocess, sys
if sys.argv[1] != "serve" or len(sys.argv) > 20:
    sys.exit(subprocess.call(["{program}", *sys.argv[1:]]))
child = subprocess.Popen(["{program}", *sys.argv[1:]], stdin=subprocess.PIPE, stdout=subprocess.PIPE, bufsize=0)
lines = child.stdout
for line in sys.stdin.buffer:
    words = line.split()
    child.stdin.write(b"last\\n")
    last = lines.readline().split()
    if words[0] not in (b"last", b"bytes", b"sync", b"save", b"new") and int(last[0]) >= {most}:
        sys.stdout.buffer.write(b"refused E5\\n")
    else:
        child.stdin.write(line)
        sys.stdout.buffer.write(lines.readline())
    sys.stdout.buffer.flush()
child.stdin.close()
sys.exit(child.wait())
"""


def full(path, _):
    """A session that takes no more revisions: the next image begins by itself, with the text."""
    proxy = os.path.dirname(path) + "/proxy"
    write(proxy, PROXY.format(python=sys.executable, program=os.environ["CORDKIT"], most=10).encode())
    os.chmod(proxy, 0o755)
    write(path, b"\n")
    client = Client(path, CORDKIT=proxy)
    client.open("\n")
    text = ""
    for number in range(35):
        client.change(0, 0, 0, "%x" % (number % 16))
        text = "%x" % (number % 16) + text
        if number % 3 == 0:
            require(client.kept()[1] == text.encode() + b"\n", f"change {number}: {client.kept()} {client.told}")
    client.end()
    require(checked(path) == text.encode() + b"\n", "the last image")
    require(len([line for line in client.told if "full" in line]) == 3, f"{client.told}")
    for number in (1, 2, 3):
        shown = run(os.environ["CORDKIT"], "show", f"{path}.cord-{number}").stdout
        require(text.encode().endswith(shown[:-1]) and len(shown) > 5 and os.path.exists(f"{path}.times-{number}"), f"image {number}: {shown!r}")


def not_named(path, _):
    """Nothing is kept of a file that nobody named, or that is another's."""
    write(path, b"one\n")
    client = Client(path, words=["*.md"])
    client.open("one\n")
    client.change(0, 0, 0, "x")
    require(client.kept() == (None, None), "it is recorded")
    client.end()
    if os.geteuid() == 0:
        os.chown(path, 1, -1)
        client = Client(path)
        client.open("one\n")
        require(client.kept() == (None, None), "another's file is recorded")
        client.end()
    require(sorted(os.listdir(os.path.dirname(path))) == [os.path.basename(path)], "there are files beside it")


def modes(path, _):
    """Image and times are as open as the file, the journal no more."""
    for bits in (0o600, 0o640, 0o664, 0o644):
        write(path, b"one\n")
        os.chmod(path, bits)
        client = Client(path)
        client.open("one\n")
        client.change(0, 0, 0, "x")
        client.kept()
        require(stat.S_IMODE(os.stat(path + ".cord.lines").st_mode) & ~bits == 0, "the journal is more open")
        client.end()
        for name in (".cord", ".times"):
            require(stat.S_IMODE(os.stat(path + name).st_mode) == bits, f"{name} of {bits:o} is {os.stat(path + name).st_mode:o}")
        os.remove(path + ".cord")
        os.remove(path + ".times")


def looked_at(path, _):
    """Times: the minute of a byte, the text of a minute, the runs of a span, by the editor's commands and by the words of the command line."""
    write(path, b"one\n")
    client = Client(path)
    client.open("one\n")
    client.change(0, 3, 3, " two")
    client.end()
    lines = read(path + ".times").decode().splitlines()
    write(path + ".times", b"0 2026-01-02 03:04:05\n2 2026-01-02 03:05:00\n")
    require(len(lines) in (1, 2) and lines[0].startswith("0 "), f"{lines}")
    client = Client(path)
    client.open("one two\n")
    client.change(0, 7, 7, "!")
    now = time.strftime("%Y-%m-%d %H:%M")
    said = [client.ask("textDocument/hover", {"textDocument": {"uri": client.uri}, "position": {"line": 0, "character": at}}) for at in (0, 4, 7)]
    wanted = ["typed in revision 1, 2026-01-02 03:04", "typed in revision 2, 2026-01-02 03:05", f"typed in revision 3, {now}"]
    require([it["contents"]["value"][:32] for it in said] == [it[:32] for it in wanted], f"{said}")
    runs = client.command("runs", {"start": {"line": 0, "character": 2}, "end": {"line": 0, "character": 5}})
    require([(it["place"], it["count"], it["revision"], it["minute"]) for it in runs] == [(2, 1, 1, "2026-01-02 03:04"), (3, 2, 2, "2026-01-02 03:05")], f"{runs}")
    require(client.command("text", "2026-01-02 03:04") == "one\n" and client.command("text", "2026-01-02 03:05") == "one two\n", "the text of a minute")
    client.change(0, 0, 0, "0")
    client.kept()
    require(run(SERVER, "--show", path, "2026-01-02").stdout == b"one two\n", "the text of a day")
    require(run(SERVER, "--show", path, "2999-01-01").stdout == b"0one two!\n", "the text of now, while it is open")
    require(run(SERVER, "--show", path, "2000-01-01").returncode == 1, "a time before all")
    shown = run(SERVER, "--runs", path, "1", "2").stdout
    require(shown == b"1 2 1 2026-01-02 03:04\n", f"{shown}")
    client.end()


def named(path, _):
    """A file that is named by --start, and no more by --stop; --continue begins another image."""
    write(path, b"one\n")
    env = {**os.environ, "XDG_CONFIG_HOME": os.path.dirname(path) + "/config"}
    require(run(SERVER, "--start", path, env=env).returncode == 0, "--start")
    client = Client(path, words=[], XDG_CONFIG_HOME=env["XDG_CONFIG_HOME"])
    client.open("one\n")
    client.change(0, 0, 0, "x")
    require(client.kept() == (2, b"xone\n"), "it is not recorded")
    require(run(SERVER, "--continue", path, env=env).returncode == 1, "--continue while it is open")
    client.end()
    require(run(SERVER, "--continue", path, env=env).returncode == 0 and not os.path.exists(path + ".cord"), "--continue")
    require(run(os.environ["CORDKIT"], "show", path + ".cord-1").stdout == b"xone\n", "the image that was")
    require(run(SERVER, "--stop", path, env=env).returncode == 0 and run(SERVER, "--stop", path, env=env).returncode == 1, "--stop")
    client = Client(path, words=[], XDG_CONFIG_HOME=env["XDG_CONFIG_HOME"])
    client.open("one\n")
    require(client.kept() == (None, None) and not os.path.exists(path + ".cord"), "it is recorded still")
    client.end()


def refused(path, _):
    """What is no image stays as it is, and the user is told."""
    write(path, b"one\n")
    write(path + ".cord", b"prose")
    client = Client(path)
    client.open("one\n")
    require(client.kept() == (None, None) and any("C1" in line for line in client.told) and read(path + ".cord") == b"prose", f"{client.told}")
    client.end()
    os.remove(path + ".cord")
    os.mkdir(path + ".times")
    client = Client(path)
    client.open("one\n")
    require(client.kept() == (None, None) and any("n é.txt.times" in line for line in client.told), f"{client.told}")
    client.end()
    os.rmdir(path + ".times")
    for program in "/no/such/program", "/bin/false":
        client = Client(path, CORDKIT=program)
        client.open("one\n")
        require(client.kept() == (None, None) and any("not recorded" in line for line in client.told), f"{program}: {client.told}")
        client.end()
    for wrong in (b"Content-Length: 3\r\n\r\nabc", b"Length: 3\r\n\r\nabc", b"Content-Length: 2\r\n\r\n[]"):
        done = run(SERVER, **{"input": wrong})
        require(done.returncode == 1 and done.stderr.startswith(b"cordkit-lsp: a message "), f"{wrong!r}: {done}")


CASES = [by_chance, ended_lines, changed_on_disk, undone, long_texts, set_right, stopped, told_in_part, two_at_once, full, not_named, modes, looked_at, named, refused]


def tried(name, case, given):
    """Whether a case passes, in a folder of its own."""
    folder = tempfile.mkdtemp()
    os.environ["XDG_CONFIG_HOME"] = f"{folder}.config"
    try:
        said = case(os.path.realpath(folder) + "/n é.txt", given)
        if said:
            print(f"{name}: {said}")
        return True
    except (Wrong, OSError, subprocess.SubprocessError) as wrong:
        print(f"FAILED: {name}: {wrong}")
        return False
    finally:
        shutil.rmtree(folder)


def main():
    count = int(sys.argv[1]) if len(sys.argv) > 1 else 300
    os.environ["CORDKIT"] = os.path.abspath(sys.argv[2] if len(sys.argv) > 2 else PROGRAM)
    known = {case.__name__: (case, count) for case in CASES} | {name: (in_form, name) for name in FORMS}
    results = [tried(name, *known[name]) for name in sys.argv[3:] or known]
    print(f"{sum(results)} passed, {len(results) - sum(results)} failed")
    return not all(results)


if __name__ == "__main__":
    sys.exit(main())
