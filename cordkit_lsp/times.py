"""FILE.times: lines of a revision's number and when it was made, the first of each minute. What stands behind the time says more of that revision."""

import bisect
import os
import re
import time

LINE = re.compile(r"(\d{1,10}) (\d{4}-\d\d-\d\d)[ T](\d\d:\d\d)")


def read_times(path):
    """The numbers and their minutes, in the file's order, and where its last line begins."""
    found, place, last = [], 0, 0
    try:
        with open(path, "rb") as file:
            for line in file:
                parts = LINE.match(line.decode("utf-8", "replace"))
                if parts:
                    found.append((int(parts[1]), f"{parts[2]} {parts[3]}"))
                    last = place
                place += len(line)
    except FileNotFoundError:
        pass
    return found, last


def minute_of(known, revision):
    """The minute in which a revision was made: that of the last line whose number is not behind it."""
    at = bisect.bisect_right(known, (revision, "~"))
    return known[at - 1][1] if at else None


def last_of(known, minute):
    """The last revision that was made up to the end of a minute, where a later one is known; else all of them were."""
    later = [number for number, when in known if when[: len(minute)] > minute]
    return min(later) - 1 if later else None


class Times:
    def __init__(self, path):
        self.path, self.file, self.known = path, None, []

    def begin(self, last):
        """Drops a last line whose revision never came: it is written before the revision is made."""
        known, place = read_times(self.path)
        if known and known[-1][0] > last:
            os.truncate(self.path, place)
            known.pop()
        self.known = known

    def note(self, number, words=""):
        """Writes a line where a minute begins, or where there is more to say."""
        now = time.strftime("%Y-%m-%d %H:%M:%S")
        if not words and self.known and self.known[-1][1] == now[:16]:
            return
        self.write(f"{number} {now}{words and ' '}{words}\n".encode())
        self.known.append((number, now[:16]))

    def write(self, line):
        """One write, so that a line is whole or not there."""
        if self.file is None:
            self.file = os.open(self.path, os.O_WRONLY | os.O_APPEND | os.O_CREAT | os.O_CLOEXEC, 0o600)
        os.write(self.file, line)

    def end(self):
        if self.file is not None:
            os.close(self.file)
            self.file = None
