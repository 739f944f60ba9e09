"""Runs what docs/START.md, docs/SCRIPTS.md and docs/SERVE.md show, block by block, with the built program, or the one that is named, as `cordkit`, and examples/from_git, and
compares what each block writes with what stands there. A block that writes nothing there is no example to be run. Where the program has no `log`, or no
`find --all`, what needs them is not tried, nor is what needs git where there is none: that is told. The last line is 'N passed, M failed'.

script_tour.py [PROGRAM]"""

import os
import re
import shutil
import subprocess
import sys
import tempfile

from second_checker import PROGRAM, TOP

PAGES = ["docs/START.md", "docs/SCRIPTS.md", "docs/SERVE.md"]
NEEDS = {r"cordkit log|cord.textconv": ("log", "x"), r"find --all": ("find", "--all", "0", "x", "/dev/null")}


def blocks_of(text):
    """Each block of the page as a shell script, and what it writes."""
    for block in re.findall(r"^```\n(.*?)^```$", text, re.M | re.S):
        script, wanted = [], []
        for line in block.split("\n")[:-1]:
            if line.startswith(("$ ", "> ")):
                script.append(line[2:])
            else:
                wanted.append(line)
        if wanted:
            yield "".join(f"{line}\n" for line in script), "".join(f"{line}\n" for line in wanted)


def missing(program, script):
    """What a block needs that is not here, or nothing."""
    for needed, words in NEEDS.items():
        if re.search(needed, script) and subprocess.run([program, *words], stdin=subprocess.DEVNULL, capture_output=True, check=False).returncode == 2:
            return f"the program has no {' '.join(words[:-1])}"
    return "there is no git" if "git " in script and not shutil.which("git") else None


def try_page(page, program):
    """How many blocks of a page write what stands there, and how many do not."""
    passed = failed = 0
    with open(os.path.join(TOP, page), encoding="utf-8") as file:
        blocks = list(blocks_of(file.read()))
    with tempfile.TemporaryDirectory() as room, tempfile.TemporaryDirectory() as tools:
        os.symlink(program, os.path.join(tools, "cordkit"))
        os.symlink(os.path.join(TOP, "examples/from_git"), os.path.join(tools, "from_git"))
        here = {name: value for name, value in os.environ.items() if not name.startswith("GIT_")}
        plain = {**here, "PATH": f"{tools}:{here['PATH']}", "TMPDIR": tools, "GIT_CONFIG_GLOBAL": os.devnull, "GIT_CONFIG_NOSYSTEM": "1"}
        for script, wanted in blocks:
            reason = missing(program, script)
            if reason:
                print(f"LEFT OUT: {page}: what begins with {script.splitlines()[0]!r}: {reason}")
                continue
            done = subprocess.run(["sh", "-e"], input=script, capture_output=True, text=True, cwd=room, env=plain, check=False)
            if (done.returncode, done.stdout, done.stderr) == (0, wanted, ""):
                passed += 1
            else:
                failed += 1
                print(f"FAILED: {page}: status {done.returncode}, it wrote:\n{done.stdout}{done.stderr}for:\n{wanted}")
    return passed, failed, not blocks


def main():
    program = os.path.abspath(sys.argv[1] if len(sys.argv) > 1 else PROGRAM)
    tried = [try_page(page, program) for page in PAGES]
    passed, failed = sum(page[0] for page in tried), sum(page[1] for page in tried)
    print(f"{passed} passed, {failed} failed")
    return failed != 0 or any(page[2] for page in tried)


if __name__ == "__main__":
    sys.exit(main())
