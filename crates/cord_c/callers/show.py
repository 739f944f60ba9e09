#!/usr/bin/env python3
"""show.py IMAGE REV [SOURCE]...: the answer of `cordkit show`, by the library; with --origin before them each line of the text behind the
revision whose command brought its first byte."""

import sys

import cordkit


def main() -> int:
    words = sys.argv[1:]
    blame = words[:1] == ["--origin"] and bool(words.pop(0))
    if len(words) < 2:
        print(__doc__, file=sys.stderr)
        return 2
    try:
        image = cordkit.Image(words[0], words[2:])
        k = int(words[1])
        text = image.text(k)
    except (cordkit.Refused, IndexError) as refused:
        print(refused if isinstance(refused, cordkit.Refused) else "refused no revision", file=sys.stderr)
        return 1
    except (OSError, cordkit.NotHeld):
        print("read", file=sys.stderr)
        return 3
    if not blame:
        sys.stdout.buffer.write(text)
        return 0
    place = 0
    for line in text.splitlines(keepends=True):
        sys.stdout.buffer.write(b"%6d  " % image.origin(k, place) + line)
        place += len(line)
    return 0


if __name__ == "__main__":
    sys.exit(main())
