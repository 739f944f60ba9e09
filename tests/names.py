"""One name, one meaning: which words the specs/ of two crates define differently. Each is told, and the status is 1.

names.py"""

import sys

sys.dont_write_bytecode = True
from definitions import Crates


def main():
    crates, found = Crates(), {}
    for key in crates.lines:
        if "/" not in key[0]:
            text = [line for line in crates.lines[key] if not line.strip().startswith("--")]
            found.setdefault(key[1], {}).setdefault("\n".join(text), set()).add(key[0])
    double = {name: sorted(set().union(*places.values())) for name, places in found.items() if len(places) > 1}
    for name in sorted(double):
        print(f"{name} stands for two things: in {' and in '.join(double[name])}")
    print(f"{len(double)} words stand for two things")
    return bool(double)


sys.exit(main())
