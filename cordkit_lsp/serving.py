"""A `cordkit serve`: lines to it, and its answers in their order. None is passed over: who asked takes each."""

import collections
import os
import subprocess
import sys
import tempfile
from typing import NamedTuple, Optional

MOST_WAITING = 64
PIECE = 1 << 16


class Ended(Exception):
    """The program ended; why, as it told."""


class Refused(Exception):
    """A command was answered otherwise than it has to be."""


class Asked(NamedTuple):
    """A line, and, of a command, the revision that it makes and how long its text is."""

    line: bytes
    number: Optional[int] = None
    length: int = 0


def program():
    """The program: $CORDKIT, or else cordkit beside the command that runs, or the one in the path."""
    beside = os.path.join(os.path.dirname(os.path.realpath(sys.argv[0])), "cordkit")
    return os.environ.get("CORDKIT") or (beside if os.access(beside, os.X_OK) else "cordkit")


class Serving:
    def __init__(self, image):
        self.told = tempfile.TemporaryFile()
        words = [program(), "serve", "--explain", "--", image]
        try:
            self.child = subprocess.Popen(words, bufsize=0, stdin=subprocess.PIPE, stdout=subprocess.PIPE, stderr=self.told, umask=0o077, start_new_session=True)
        except OSError as fault:
            raise Ended(f"{program()}: {fault.strerror}") from None
        self.waiting, self.written, self.read, self.answer = collections.deque(), [], bytearray(), None

    def fileno(self):
        return self.child.stdout.fileno()

    def why(self):
        """What the program told before it ended."""
        try:
            status = self.child.wait(10)
        except subprocess.TimeoutExpired:
            self.child.kill()
            status = self.child.wait()
        self.told.seek(0)
        lines = self.told.read(PIECE).decode("utf-8", "replace").strip().splitlines()
        return " ".join(lines) or f"cordkit serve ended with status {status}"

    def command(self, line, number, length):
        """Gives a line that has to make this revision. Its answer is looked at as it comes."""
        while len(self.waiting) >= MOST_WAITING:
            self.flush()
            self.receive()
        self.put(Asked(line, number, length))

    def put(self, asked):
        self.waiting.append(asked)
        self.written.append(asked.line + b"\n")

    def flush(self):
        data, self.written = memoryview(b"".join(self.written)), []
        try:
            while data:
                data = data[os.write(self.child.stdin.fileno(), data) :]
        except OSError:
            raise Ended(self.why()) from None

    def ask(self, line):
        """The answer to a question; those to the lines before it are looked at first."""
        self.put(Asked(line))
        self.flush()
        self.answer = None
        while self.answer is None:
            self.receive()
        return self.answer

    def settle(self):
        """Waits until each line is answered."""
        self.flush()
        while self.waiting:
            self.receive()

    def receive(self):
        """Takes what answers have come, and waits for a piece of one."""
        piece = os.read(self.fileno(), PIECE)
        if not piece:
            raise Ended(self.why())
        self.read += piece
        end = self.read.rfind(b"\n", len(self.read) - len(piece)) + 1
        whole = bytes(self.read[:end]).splitlines()
        del self.read[:end]
        faults = [fault for fault in map(self.take, whole) if fault]
        if faults:
            raise Refused(faults[0])

    def take(self, answer):
        """Looks at an answer: what is wrong with it, or none."""
        asked = self.waiting.popleft()
        if asked.number is None:
            self.answer = answer
            return None
        if answer == b"%d %d" % (asked.number, asked.length):
            return None
        return answer.decode("ascii", "replace")

    def drain(self):
        """Waits for all answers to what was given. The first one that is not as it has to be, or none."""
        first = None
        while self.waiting or self.written:
            try:
                self.settle()
            except Refused as fault:
                first = first or str(fault)
        return first

    def end(self):
        """Ends the run, and waits for it."""
        try:
            self.child.stdin.close()
            self.child.wait(10)
        except (OSError, subprocess.TimeoutExpired):
            self.child.kill()
            self.child.wait()
        self.child.stdout.close()
        self.told.close()
