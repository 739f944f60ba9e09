"""What is kept of a file: where bytes come from, and when, and the text of a minute. By `cordkit blame` and `cordkit show`, over the image."""

import contextlib
import os
import subprocess
import tempfile

from .serving import program
from .times import last_of, minute_of, read_times


class Unseen(Exception):
    """What cannot be told; why."""


def asked(*words):
    """What the program writes."""
    try:
        done = subprocess.run([program(), *words], capture_output=True, stdin=subprocess.DEVNULL, check=False)
    except OSError as fault:
        raise Unseen(f"{program()}: {fault.strerror}") from None
    if done.returncode:
        raise Unseen(done.stderr.decode("utf-8", "replace").strip() or f"cordkit {words[0]}: status {done.returncode}")
    return done.stdout


def kept_lines(image):
    """The whole lines beside an image that are not saved: bytes of a script."""
    try:
        with open(image + ".lines", "rb") as file:
            data = file.read()
    except FileNotFoundError:
        return b""
    whole = data[: data.rfind(b"\n") + 1]
    return whole if whole.count(b"\n") > 1 else b""


@contextlib.contextmanager
def whole_image(image):
    """The name of an image with all that is kept: a copy, where lines beside it are not saved."""
    if not os.path.exists(image):
        raise Unseen(f"{os.path.basename(image)} is not there: nothing is kept of that file")
    lines = kept_lines(image)
    if not lines:
        yield image
        return
    with tempfile.TemporaryDirectory() as folder:
        script, copy = os.path.join(folder, "lines"), os.path.join(folder, "image")
        with open(script, "wb") as file:
            file.write(lines)
        with open(copy, "wb") as file:
            file.write(asked("apply", "--explain", "--onto", image, script))
        yield copy


def minute_told(known, revision):
    return minute_of(known, revision) or "a time that is not known"


def runs(image, known, revision, start, count):
    """The runs of bytes of a text from a place on: place, length, the revision that put them in, and its minute."""
    found = []
    for line in asked("blame", "--explain", "--start", str(start), "--count", str(count), "--", image, str(revision)).splitlines():
        place, length, origin = map(int, line.split()[:3])
        found.append((place, length, origin, minute_told(known, origin)))
    return found


def revision_of(known, minute):
    """The number of the last revision of a minute, as the program takes it."""
    if not known:
        raise Unseen("there are no times")
    if known[0][1][: len(minute)] > minute:
        raise Unseen(f"the first time that is known is {known[0][1]}")
    number = last_of(known, minute)
    return "last" if number is None else str(number)


def text_of(image, known, minute):
    """The text as it was at the end of a minute, or of a day: its bytes."""
    return asked("show", "--explain", "--", image, revision_of(known, minute))


def times_of(path):
    return read_times(path + ".times")[0]
