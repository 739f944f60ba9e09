"""How a file writes the text that an editor tells: a mark in front, an encoding, ends of lines, and whether the last line has one."""

import itertools
from typing import NamedTuple

MARKS = {"utf-8": b"\xef\xbb\xbf", "utf-16-le": b"\xff\xfe", "utf-16-be": b"\xfe\xff"}
ENCODINGS = ["utf-8", "latin-1", "cp1252", "iso8859-15", "utf-16-le", "utf-16-be", "cp1251", "koi8-r", "euc_jp", "shift_jis", "gb18030", "big5"]
ENDS = {"\n": ["\n", "\r\n", "\r"], "\r": ["\r"]}


def encoded(text, encoding):
    """The bytes of a told text. A byte that was no UTF-8 is there as it came; a character that the encoding lacks is written as UTF-8."""
    try:
        return text.encode(encoding, "surrogateescape")
    except UnicodeEncodeError:
        if len(text) == 1:
            return text.encode("utf-8", "surrogatepass")
        return b"".join(encoded(character, encoding) for character in text)


class Form(NamedTuple):
    """`told_end` ends lines as they are told, `end` in the file. `tail` is 'added' where the file has an end more than is told, 'dropped' where one less."""

    mark: bytes = b""
    encoding: str = "utf-8"
    told_end: str = "\n"
    end: str = "\n"
    tail: str = ""

    def end_bytes(self):
        return self.end.encode(self.encoding)

    def written(self, text):
        """The bytes of a part of a told text."""
        return encoded(text.replace(self.told_end, self.end) if self.end != self.told_end else text, self.encoding)

    def whole(self, text):
        """The bytes of a file with this text."""
        data, end = self.mark + self.written(text), self.end_bytes()
        if self.tail == "added":
            return data + end
        if self.tail == "dropped" and data.endswith(end):
            return data[: -len(end)]
        return data


def is_utf8(data):
    try:
        data.decode("utf-8")
        return True
    except UnicodeDecodeError:
        return False


def mark_of(data):
    """The encoding that the mark of a file tells, and the mark."""
    for encoding, mark in MARKS.items():
        if data.startswith(mark):
            return encoding, mark
    return None, b""


def told_end_of(text):
    return "\r" if "\r" in text and "\n" not in text else "\n"


def forms(data, text):
    """The forms that a file may have, the likely ones first."""
    told_end = told_end_of(text)
    marked, mark = mark_of(data)
    marks = [mark, b""] if mark and not text.startswith("\ufeff") else [b""]
    encodings = [marked] if marked else ENCODINGS[:1] if is_utf8(data) else ENCODINGS[1:] + ENCODINGS[:1]
    for encoding, one, end, tail in itertools.product(encodings, marks, ENDS[told_end], ["", "dropped", "added"]):
        yield Form(one, encoding, told_end, end, tail)


def fitting(data, text):
    """The form by which the file is this text, or none."""
    return next((form for form in forms(data, text) if form.whole(text) == data), None)


def guessed(data, text):
    """The form of a file that has another text than is told."""
    marked, mark = mark_of(data)
    encoding = marked or ("utf-8" if is_utf8(data) else "latin-1")
    content, told_end = data[len(mark) :].decode(encoding, "replace"), told_end_of(text)
    returns = "\r" not in text and "\n" in content and content.count("\n") == content.count("\r\n")
    return Form(b"" if text.startswith("\ufeff") else mark, encoding, told_end, "\r\n" if returns else told_end, "")


def told_by(form, data):
    """The told text of a file with this form."""
    text = data[len(form.mark) :].decode(form.encoding, "replace" if form.encoding.startswith("utf-16") else "surrogateescape")
    return text.replace(form.end, form.told_end) if form.end != form.told_end else text
