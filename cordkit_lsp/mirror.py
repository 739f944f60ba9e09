"""The text that an editor told, in lines, and the bytes of a file with that text."""

from .changes import changes
from .form import encoded


def units(text, counted):
    """How many units of a position a text has."""
    if counted == "utf-32" or text.isascii():
        return len(text)
    if counted == "utf-16":
        return len(text) + sum(character > "\uffff" for character in text)
    return len(encoded(text, "utf-8"))


def index_in(line, column, counted):
    """How many characters of a line stand before a column. Behind a line there is no column, nor behind its return."""
    most = len(line) - 1 if line.endswith("\r") else len(line)
    if counted == "utf-32" or line.isascii():
        return min(column, most)
    seen = 0
    for index in range(most):
        if seen >= column:
            return index
        seen += units(line[index], counted)
    return most


class Mirror:
    """Lines without their ends, as they are told. Where `ended` is so, the editor ends each line, also the last one: then the last of these is empty.
    A text without a line is `void`: such an editor shows one line, which is not in the file."""

    def __init__(self, form, text, counted, ended):
        self.counted, self.ended, self.last_end = counted, ended, ""
        self.tell(form, text)

    def tell(self, form, text):
        """Takes a whole text, and how a file writes it."""
        self.form, self.void = form, False
        self.lines = text.split(form.told_end)
        if len(self.lines) > 1:
            self.last_end = "\r" if self.ended and all(line.endswith("\r") for line in self.lines[:-1]) else ""
        self.settle()
        self.starts = [len(form.mark)]
        self.kept = bytearray(self.whole())

    def told(self):
        return "" if self.void else self.form.told_end.join(self.lines)

    def whole(self):
        return self.form.mark if self.void else self.form.whole(self.told())

    def settle(self):
        """Sees to it that the last line is empty where lines have ends, with the return before the last end that is told before each other one."""
        if not self.ended:
            return
        if self.lines == [""]:
            self.void, self.lines = True, [self.last_end, ""]
        elif self.lines[-1]:
            self.lines[-1] = self.lines[-1].rstrip("\r") + self.last_end
            self.lines.append("")

    def size(self, line):
        text, encoding = self.lines[line], self.form.encoding
        plain = text.isascii() and not encoding.startswith("utf-16")
        return (len(text) if plain else len(encoded(text, encoding))) + len(self.form.end_bytes())

    def start(self, line):
        """Where a line begins in the file. Starts are known up to the last one asked for, or the last change."""
        while len(self.starts) <= line:
            self.starts.append(self.starts[-1] + self.size(len(self.starts) - 1))
        return self.starts[line]

    def position(self, told):
        """The line of a position, and how many characters stand before it there. What is behind the text is its end."""
        line = told["line"]
        if line >= len(self.lines):
            return len(self.lines) - 1, len(self.lines[-1])
        return line, index_in(self.lines[line], told["character"], self.counted)

    def is_there(self, span):
        """Whether a range can be one of this text: its end not before its start, nor behind the start of the line behind the last."""
        start, end = [(span[name]["line"], span[name]["character"]) for name in ("start", "end")]
        return start <= end <= (len(self.lines), 0)

    def place(self, position):
        line, index = position
        return min(self.start(line) + len(self.form.written(self.lines[line][:index])), len(self.kept))

    def told_lengths(self, start, end):
        """How long the text between two positions is, the end of a line being one: in units, and in characters, by which Emacs counts a length."""
        (first, a), (last, b) = start, end
        if first == last:
            parts = [self.lines[first][a:b]]
        else:
            parts = [self.lines[first][a:], *self.lines[first + 1 : last], self.lines[last][:b]]
        return [sum(units(part, counted) for part in parts) + last - first for counted in (self.counted, "utf-32")]

    def behind(self, start, length):
        """The position that is this many characters behind another."""
        line, index = start
        while length > len(self.lines[line]) - index and line + 1 < len(self.lines):
            length -= len(self.lines[line]) - index + 1
            line, index = line + 1, 0
        return line, min(index + length, len(self.lines[line]))

    def ends_of(self, change):
        """Both ends of what a change replaces. Where the length that was told with a range is another, it goes before the range's end: some versions of
        editors tell that end wrong."""
        start, end = self.position(change["range"]["start"]), self.position(change["range"]["end"])
        length = change.get("rangeLength")
        if length is not None and length not in self.told_lengths(start, max(start, end)):
            end = self.behind(start, length)
        return start, max(start, end)

    def splice(self, change):
        """Takes a change of a range: what changes in the bytes of the file."""
        start, end = self.ends_of(change)
        (first, a), (last, b) = start, end
        count = len(self.lines)
        special = self.void or (self.ended and last == count - 1) or (self.form.tail and last >= count - 2)
        place, until = self.place(start), self.place(end)
        text = change["text"]
        new = (self.lines[first][:a] + text + self.lines[last][b:]).split(self.form.told_end)
        if special:
            return self.spliced_whole(first, last, new)
        self.lines[first : last + 1] = new
        del self.starts[first + 1 :]
        put = self.form.written(text)
        gone = bytes(self.kept[place:until])
        self.kept[place:until] = put
        return [(place + at, n, part) for at, n, part in changes(gone, put)]

    def spliced_whole(self, first, last, new):
        """The same where the end of the text is touched: the bytes of both texts are compared."""
        before = bytes(self.kept)
        self.lines[first : last + 1] = new
        del self.starts[first + 1 :]
        self.void = self.void and self.lines == [self.last_end, ""]
        self.settle()
        self.kept = bytearray(self.whole())
        return changes(before, bytes(self.kept))
