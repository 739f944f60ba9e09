"""Bytes as a script has them: in quotes, each that is no plain character escaped."""

import re

SHORT = {10: b"\\n", 9: b"\\t", 13: b"\\r", 92: b"\\\\", 34: b'\\"'}
PRINTED = [SHORT.get(byte) or (bytes([byte]) if 32 <= byte < 127 else b"\\x%02x" % byte) for byte in range(256)]
OTHER = re.compile(rb'[^ !#-\[\]-~]')
ESCAPED = re.compile(rb"\\(?:x(..)|(.))", re.DOTALL)
MEANT = {b"n": b"\n", b"t": b"\t", b"r": b"\r", b"\\": b"\\", b'"': b'"'}


def quoted(text):
    return b'"' + OTHER.sub(lambda found: PRINTED[found[0][0]], text) + b'"'


def unquoted(word):
    return ESCAPED.sub(lambda found: bytes([int(found[1], 16)]) if found[1] else MEANT[found[2]], word[1:-1])
