#!/usr/bin/env python3
"""check.py [LOOKS] IMAGE [SOURCE]...: the answer of `cordkit check`, by the library. Where the first word is a number, an image whose check may
take more looks is refused by that."""

import sys

import cordkit


def main() -> int:
    words = sys.argv[1:]
    most = int(words.pop(0)) if words and words[0].isdigit() else None
    if not words:
        print(__doc__, file=sys.stderr)
        return 2
    try:
        verdict = cordkit.check(cordkit.read(words[0]), words[1:], most)
    except cordkit.Refused as refused:
        print(refused)
        return 1
    except OSError:
        verdict = None
    if verdict is None or verdict.code == 12:
        print("read", file=sys.stderr)
        return 3
    print(verdict)
    return int(verdict.code != 0)


if __name__ == "__main__":
    sys.exit(main())
