"""Messages of the language server protocol: a header with the length, and JSON. Bytes that are no UTF-8 stay as they came."""

import json


class NoMessage(Exception):
    """The input is none of messages."""


class Framing:
    """Puts pieces of input together to messages."""

    def __init__(self):
        self.data = bytearray()

    def feed(self, piece):
        """Takes a piece; the messages that are whole now."""
        self.data += piece
        while (body := self.next_body()) is not None:
            try:
                found = json.loads(body.decode("utf-8", "surrogateescape"))
            except ValueError:
                raise NoMessage("a message is no JSON") from None
            if not isinstance(found, dict):
                raise NoMessage("a message is no object")
            yield found

    def next_body(self):
        end = self.data.find(b"\r\n\r\n")
        if end < 0:
            return None
        length = length_in(bytes(self.data[:end]))
        if len(self.data) < end + 4 + length:
            return None
        body = bytes(self.data[end + 4 : end + 4 + length])
        del self.data[: end + 4 + length]
        return body


def length_in(header):
    for line in header.split(b"\r\n"):
        name, _, value = line.partition(b":")
        if name.strip().lower() == b"content-length" and value.strip().isdigit():
            return int(value)
    raise NoMessage("a message without a Content-Length")


def message(body):
    data = json.dumps({"jsonrpc": "2.0", **body}).encode()
    return b"Content-Length: %d\r\n\r\n" % len(data) + data
