"""A file that is recorded: each change of its text becomes a revision of FILE.cord, by a `cordkit serve`. What the editor told is held as a mirror;
where the session ended or refused a command, it is made to have the mirror's text again."""

import hashlib
import os
import time

from . import form as forms
from .changes import changes, commands
from .mirror import Mirror
from .named import open_as
from .quoting import unquoted
from .serving import Ended, Refused, Serving
from .times import Times

MOST_DIGESTED = 1 << 20
MOST_TRIES = 5
FULL = ("refused E5", "refused E6", "refused E7(N3)", "refused E7(N4)", "refused E8", "refused E10")


class Lost(Exception):
    """Nothing more of the file can be kept; why."""


def bytes_of_file(path):
    try:
        with open(path, "rb") as file:
            return file.read()
    except OSError:
        return b""


def free_number(*paths):
    """The first number that is free behind each of these names."""
    number = 1
    while any(os.path.lexists(f"{path}-{number}") for path in paths):
        number += 1
    return number


class Keeper:
    def __init__(self, path, told, counted, ended, tell):
        self.path, self.image, self.tell, self.ended = path, path + ".cord", tell, ended
        self.times, self.revisions_of = Times(path + ".times"), {}
        self.number, self.length, self.saved_number, self.serving = -1, 0, -1, None
        form, text = self.form_of(bytes_of_file(path), told)
        self.mirror = Mirror(form, text, counted, ended)
        try:
            self.begin()
        except (Ended, OSError) as fault:
            raise self.lost(fault) from None
        self.run(self.put_right, "changed elsewhere")

    # ---- The session

    def begin(self):
        """Begins a session, with a text if it has none. The image is as open as the file before: a session saves none that was touched meanwhile."""
        if not os.path.exists(self.image):
            self.serving = Serving(self.image)
            self.last()
            self.serving.end()
        self.open_files()
        self.serving = Serving(self.image)
        self.number, self.length = self.last()
        self.saved_number = -1
        self.times.begin(self.number)
        if self.number < 0:
            self.command(b"new", 0)

    def last(self):
        """The number of the last revision, and how long its text is."""
        answer = self.serving.ask(b"last")
        if answer.startswith(b"refused"):
            raise Ended(answer.decode())
        return tuple(map(int, answer.split())) if answer != b"none" else (-1, 0)

    def open_files(self):
        open_as(self.path, self.image, self.times.path)

    def command(self, line, length, words=""):
        self.number, self.length = self.number + 1, length
        self.times.note(self.number, words)
        self.serving.command(line, self.number, length)

    def run(self, what, *given):
        """Does something with the session. Where that ended, it is begun again, and where it refused a command, set right: some times. False where this
        came in the place of what was to be done."""
        wanted = what
        for _ in range(MOST_TRIES):
            try:
                what(*given)
                self.serving.flush()
                return what == wanted
            except Ended as fault:
                why, what, given = str(fault), self.again, ()
            except Refused as fault:
                why, what, given = str(fault), self.mend, (str(fault),)
            except OSError as fault:
                raise self.lost(fault) from None
        raise self.lost(why)

    def lost(self, why):
        """Ends the session, of which nothing more can be kept."""
        self.end()
        return Lost(f"{os.path.basename(why.filename or self.path)}: {why.strerror}" if isinstance(why, OSError) else str(why))

    def surely(self, what):
        """The same for what has to be done in any case."""
        for _ in range(MOST_TRIES):
            if self.run(what):
                return
        raise self.lost("the session ends again and again")

    def again(self):
        """Begins the session again, gives what was not answered and is not there, and compares the texts."""
        unanswered = [asked for asked in self.serving.waiting if asked.number is not None]
        self.serving.end()
        time.sleep(0.05)
        self.begin()
        for asked in unanswered:
            if asked.number == self.number + 1:
                self.command(asked.line, asked.length)
        self.put_right("set right behind a crash")
        self.serving.settle()

    def mend(self, why):
        """Goes on behind a command that was refused, in another image where this one is full."""
        first = self.serving.drain()
        if (first if first and not why.startswith("refused") else why) in FULL:
            self.next_image()
            return
        self.number, self.length = self.last()
        self.put_right("set right")
        self.serving.settle()

    def text(self):
        """The text of the last revision, as the session has it."""
        self.serving.settle()
        answer = self.serving.ask(b"bytes %d 0 %d" % (self.number, self.length))
        if not answer.startswith(b'"'):
            raise Refused(answer.decode())
        return unquoted(answer)

    def put_right(self, words):
        """Makes the mirror's text the last one, if it is not."""
        now = bytes(self.mirror.kept)
        self.make(changes(self.text(), now), now, words if self.number else "")

    def next_image(self):
        """Gives a full image another name, and begins the next one with the text."""
        self.number, self.length = self.last()
        self.save()
        self.serving.end()
        number = cut_off(self.path)
        self.tell(f"{os.path.basename(self.image)} is full: it is {os.path.basename(self.image)}-{number} now, and another one goes on")
        self.times.end()
        self.revisions_of = {}
        self.begin()
        self.put_right("")
        self.serving.settle()

    # ---- What the editor tells

    def form_of(self, data, told, before=None):
        """How the file writes what is told, and that text, with an end of its last line where the editor ends each. Where no form fits, `fits` is not so.
        The form before goes on while it fits: a file without other characters does not tell its encoding."""
        end = forms.told_end_of(told)
        text = told
        if self.ended:
            empty = told in ("", "\n", "\r\n", "\r") and data in (b"", *forms.MARKS.values())
            text = "" if empty else told if told.endswith(end) else told + end
        if before and before.whole(text) == data:
            form = before
        elif os.path.exists(self.path):
            form = forms.fitting(data, text)
        else:
            form = forms.Form(told_end=end, end=end)
        self.fits = form is not None
        return form or forms.guessed(data, text), text

    def digest(self, text):
        return hashlib.blake2b(text, digest_size=16).digest() if len(text) <= MOST_DIGESTED else None

    def make(self, found, text, words=""):
        """Makes the text that comes of some changes the last one: by the revision that had it where one is known, so that origins come back."""
        if not found:
            return
        digest = self.digest(text)
        known = self.revisions_of.get(digest)
        if known is not None and any(put for _, _, put in found):
            self.command(b"back %d" % known, len(text), words)
        else:
            for name, rest, grows in commands(found):
                self.command(b"%s %d %s" % (name, self.number, rest), self.length + grows, words)
                words = ""
        if self.length != len(text):
            raise Refused(f"a text of {self.length} bytes in place of {len(text)}")
        if digest:
            self.revisions_of[digest] = self.number

    def retell(self, form, text, words=""):
        """Takes a whole text."""
        before = bytes(self.mirror.kept)
        self.mirror.tell(form, text)
        now = bytes(self.mirror.kept)
        self.run(self.make, changes(before, now), now, words)

    def change(self, change):
        """Takes a change: of a range, or of all."""
        if change.get("range") is None:
            text = change["text"]
            self.retell(self.mirror.form, text)
            return
        words = "" if self.mirror.is_there(change["range"]) else "a range that cannot be"
        found = self.mirror.splice(change)
        self.run(self.make, found, self.mirror.kept, words)

    def saved(self, told):
        """The file was saved, with this text where it is told: the last text is the file's then."""
        data, before, fitted = bytes_of_file(self.path), self.mirror.form, self.fits
        form, text = self.form_of(data, forms.told_by(before, data) if told is None else told, before)
        if not self.fits and text in (whole := forms.told_by(form, data)):
            # Where a part of the text is shown alone, eglot tells that part.
            form, text = self.form_of(data, whole, before)
        if self.fits:
            self.retell(form, text, "set right at a save")
        else:
            self.saved_otherwise(data if fitted else None, text)
        self.surely(self.sync)
        open_as(self.path, self.times.path)

    def saved_otherwise(self, data, text):
        """The file has another text than is told: its text is a revision, and then what is told, where a form fitted before."""
        if data is not None:
            self.run(self.make, changes(bytes(self.mirror.kept), data), data, "the file at a save")
            self.mirror.kept = bytearray(data)
        self.retell(self.mirror.form, text, "the editor's text, which is not the file's")

    # ---- The disk

    def sync(self):
        if self.serving.ask(b"sync") != b"synced %d" % self.number:
            self.save()

    def save(self):
        """Has the image written, if it is not."""
        if self.saved_number == self.number:
            return
        answer = self.serving.ask(b"save").decode("utf-8", "replace")
        if answer.startswith("beside "):
            # The session goes on over that image: it is the file's from now on, as long as this runs.
            self.image = unquoted(answer[7:].encode("ascii")).decode("utf-8", "surrogateescape")
            self.tell(f"{os.path.basename(self.path)}.cord was changed by another program: what is kept goes on in {os.path.basename(self.image)}")
        elif answer != f"saved {self.number}":
            raise Refused(answer)
        self.saved_number = self.number

    def receive(self):
        self.run(self.serving.receive)

    def close(self):
        """Saves the image, and ends the session."""
        self.surely(self.save)
        self.end()
        self.open_files()

    def end(self):
        if self.serving:
            self.serving.end()
        self.times.end()


def cut_off(path):
    """Gives the image of a file, and its times, the next free number; answers that."""
    number = free_number(path + ".cord", path + ".times")
    for name in (path + ".cord", path + ".times"):
        if os.path.lexists(name):
            os.rename(name, f"{name}-{number}")
    return number
