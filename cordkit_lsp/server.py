"""What an editor asks over the language server protocol, for each open file that is recorded."""

import os
import select
import signal
import sys
import urllib.parse

from . import looking
from .keeping import Keeper, Lost
from .messages import Framing, message
from .named import is_recorded

PIECE = 1 << 16
ERROR, WARNING = 1, 2
UNITS = ("utf-8", "utf-32", "utf-16")


def path_of(uri):
    """The file that a name of the protocol names; links are followed, so that one file has one session."""
    parts = urllib.parse.urlsplit(uri)
    return os.path.realpath(urllib.parse.unquote(parts.path, errors="surrogateescape")) if parts.scheme == "file" else None


def stopping():
    """Where a byte comes once this server is to stop. A terminal that goes away, or a key that interrupts it, is the editor's matter: its input ends then."""
    stopped, come = os.pipe()
    os.set_blocking(come, False)
    signal.signal(signal.SIGTERM, lambda *_: None)
    signal.signal(signal.SIGHUP, signal.SIG_IGN)
    signal.signal(signal.SIGINT, signal.SIG_IGN)
    signal.set_wakeup_fd(come)
    return stopped


class Unknown(Exception):
    """No such request."""


class Server:
    def __init__(self, patterns, whole):
        self.patterns, self.whole = list(patterns), whole
        self.keepers, self.counted, self.ended, self.left = {}, "utf-16", False, False

    # ---- Messages

    def write(self, body):
        data = memoryview(message(body))
        try:
            while data:
                data = data[os.write(sys.stdout.fileno(), data) :]
        except BrokenPipeError:
            pass  # The editor is gone: what it told is kept all the same.

    def tell(self, text, kind=WARNING):
        print(f"cordkit-lsp: {text}", file=sys.stderr, flush=True)
        self.write({"method": "window/showMessage", "params": {"type": kind, "message": f"cordkit: {text}"}})

    def run(self):
        """Answers messages until the editor ends, or a signal stops this server and no message is left; then saves what is open."""
        framing, stopped = Framing(), stopping()
        try:
            while not self.left:
                sources = {keeper.serving.fileno(): uri for uri, keeper in self.keepers.items()}
                is_stopped = select.select([stopped], [], [], 0)[0]
                # Answers first: what a message asks takes those that have come.
                waiting = [*sources, sys.stdin.fileno(), *([] if is_stopped else [stopped])]
                found = select.select(waiting, [], [], 0 if is_stopped else None)[0]
                if not found or not self.turn(found, sources, framing):
                    return
        finally:
            self.close_all()

    def turn(self, found, sources, framing):
        """Takes answers of sessions, and messages. False where the input ended."""
        for ready in found:
            if ready in sources:
                self.guard(sources[ready], Keeper.receive)
        return sys.stdin.fileno() not in found or self.take(framing)

    def take(self, framing):
        """Takes a piece of the input. False where that ended."""
        piece = os.read(sys.stdin.fileno(), PIECE)
        for body in framing.feed(piece):
            self.handle(body)
        return bool(piece)

    def handle(self, body):
        name, params = body.get("method"), body.get("params") or {}
        if name is None:
            return
        if name == "exit":
            self.left = True
        try:
            handler = HANDLERS.get(name)
            if handler is None and "id" in body:
                raise Unknown(f"there is no request {name}")
            answer = {"result": handler(self, params) if handler else None}
        except Unknown as fault:
            answer = {"error": {"code": -32601, "message": str(fault)}}
        except looking.Unseen as fault:
            answer = {"error": {"code": -32803, "message": f"cordkit: {fault}"}}
        except (KeyError, TypeError, ValueError, AttributeError) as fault:
            print(f"cordkit-lsp: {name}: {type(fault).__name__} {fault}", file=sys.stderr, flush=True)
            answer = {"error": {"code": -32602, "message": f"{name} has other words"}}
        if "id" in body:
            self.write({"id": body["id"], **answer})

    def guard(self, uri, what, *given):
        """Does something with the file of this name, if it is recorded. Where nothing more of it can be kept, that is told, once."""
        keeper = self.keepers.get(uri)
        if keeper is None:
            return None
        try:
            return what(keeper, *given)
        except Lost as fault:
            del self.keepers[uri]
            self.tell(f"{os.path.basename(keeper.path)} is not recorded any more: {fault}", ERROR)
            return None

    # ---- What is asked

    def initialize(self, params):
        offered = params.get("capabilities") or {}
        self.patterns += (params.get("initializationOptions") or {}).get("files", [])
        # Its ranges count lines that all have an end, also where the text that it tells has none.
        self.ended = (params.get("clientInfo") or {}).get("name") == "Neovim"
        sync = {"openClose": True, "change": 1 if self.whole else 2, "save": {"includeText": True}}
        can = {"textDocumentSync": sync, "hoverProvider": True, "executeCommandProvider": {"commands": list(COMMANDS)}}
        answer = {"capabilities": can, "serverInfo": {"name": "cordkit-lsp"}}
        for unit in (offered.get("general") or {}).get("positionEncodings") or []:
            if unit in UNITS:
                self.counted = can["positionEncoding"] = unit
                return answer
        if "utf-8" in (offered.get("offsetEncoding") or []):
            self.counted = answer["offsetEncoding"] = "utf-8"
        return answer

    def opened(self, params):
        document = params["textDocument"]
        uri, path = document["uri"], path_of(document["uri"])
        if uri in self.keepers:
            self.guard(uri, Keeper.change, {"text": document["text"]})
            return
        if path is None or not is_recorded(path, self.patterns):
            return
        if path in (keeper.path for keeper in self.keepers.values()):
            self.tell(f"{os.path.basename(path)} is open by another name, under which it is recorded")
            return
        try:
            self.keepers[uri] = Keeper(path, document["text"], self.counted, self.ended, self.tell)
        except Lost as fault:
            self.tell(f"{os.path.basename(path)} is not recorded: {fault}", ERROR)

    def changed(self, params):
        for change in params["contentChanges"]:
            self.guard(params["textDocument"]["uri"], Keeper.change, change)

    def saved(self, params):
        self.guard(params["textDocument"]["uri"], Keeper.saved, params.get("text"))

    def closed(self, params):
        uri = params["textDocument"]["uri"]
        self.guard(uri, Keeper.close)
        self.keepers.pop(uri, None)

    def close_all(self, params=None):
        for uri in list(self.keepers):
            self.closed({"textDocument": {"uri": uri}})

    def runs(self, uri, start, end):
        """The runs between two positions of a text, or from one on, one byte."""
        keeper = self.keepers.get(uri)
        if keeper is None:
            raise looking.Unseen("that file is not recorded")
        mirror = keeper.mirror
        first = mirror.place(mirror.position(start))
        last = mirror.place(mirror.position(end)) if end else min(first + 1, len(mirror.kept))
        if last <= first:
            return []
        self.guard(uri, Keeper.surely, keeper.save)
        return looking.runs(keeper.image, keeper.times.known, keeper.number, first, last - first)

    def hover(self, params):
        uri = params["textDocument"]["uri"]
        if uri not in self.keepers:
            return None
        for _, _, revision, minute in self.runs(uri, params["position"], None):
            return {"contents": {"kind": "plaintext", "value": f"typed in revision {revision}, {minute}"}}
        return None

    def command(self, params):
        name = params.get("command")
        if name not in COMMANDS:
            raise Unknown(f"there is no command {name}")
        return COMMANDS[name](self, *(params.get("arguments") or []))

    def runs_command(self, uri, span):
        found = self.runs(uri, span["start"], span["end"])
        return [{"place": place, "count": count, "revision": revision, "minute": minute} for place, count, revision, minute in found]

    def text_command(self, uri, minute):
        keeper = self.keepers.get(uri)
        if keeper is None:
            raise looking.Unseen("that file is not recorded")
        self.guard(uri, Keeper.surely, keeper.save)
        return looking.text_of(keeper.image, keeper.times.known, minute).decode("utf-8", "replace")

    def kept_command(self, uri):
        """The last revision, and its bytes in base 16, as the session answers them."""
        keeper = self.keepers.get(uri)
        if keeper is None:
            raise looking.Unseen("that file is not recorded")
        found = []
        self.guard(uri, Keeper.surely, lambda: found.append(keeper.text()))
        return {"revision": keeper.number, "bytes": found[-1].hex()} if found else None


COMMANDS = {"cordkit.runs": Server.runs_command, "cordkit.text": Server.text_command, "cordkit.kept": Server.kept_command}
HANDLERS = {
    "initialize": Server.initialize,
    "shutdown": Server.close_all,
    "textDocument/didOpen": Server.opened,
    "textDocument/didChange": Server.changed,
    "textDocument/didSave": Server.saved,
    "textDocument/didClose": Server.closed,
    "textDocument/hover": Server.hover,
    "workspace/executeCommand": Server.command,
    "exit": Server.close_all,
}
