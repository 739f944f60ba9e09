"""Makes a script of a file's history by examples/from_git, has the built program, or the one that is named, apply it, and compares each revision with what
`git show` writes of its commit; and the image with the second checker. It does so over a small repository that it makes in a temporary folder, one in
which the file is renamed, one in which whole lines come and go, of which it compares where each comes from with `git blame`, and over the history of this
repository's own README.md where that is there: a tarball has none, nor has a shallow clone, which is told. Where there is no git nothing is tried. The
last line is 'N passed, M failed'; the status is not 0 where one failed.

git_history.py [PROGRAM]"""

import os
import random
import re
import shutil
import subprocess
import sys
import tempfile

from second_checker import PROGRAM, TOP, verify

FROM_GIT = os.path.join(TOP, "examples/from_git")
LINE = re.compile(rb'((?:[^"#]|"(?:[^"\\]|\\.)*")*)# (part of )?(\S+) (.*)')

# Another repository that was named for git takes no part; nor does a setting of whoever runs this, where a repository is made.
HERE = {name: value for name, value in os.environ.items() if not name.startswith("GIT_")}
PLAIN = {
    **HERE,
    "GIT_CONFIG_GLOBAL": os.devnull,
    "GIT_CONFIG_NOSYSTEM": "1",
    **{f"GIT_{who}_{what}": value for who in ("AUTHOR", "COMMITTER") for what, value in [("NAME", "x"), ("EMAIL", "x@localhost")]},
}


def git(folder, *words, env=None):
    """What git writes, or nothing where it fails."""
    done = subprocess.run(["git", "--literal-pathspecs", "-C", folder, *words], capture_output=True, check=False, env=env or HERE)
    return done.stdout if done.returncode == 0 else None


class Wrong(Exception):
    """What is wrong with a history."""


def require(holds, what):
    if not holds:
        raise Wrong(what)


# ---- A small repository


class Repository:
    """A repository with one file, whose texts are committed one by one."""

    def __init__(self, folder, path):
        self.folder, self.path = folder, path
        self.file = os.path.join(folder, path)
        self.git("init", "-q")
        self.git("checkout", "-q", "-b", "first")

    def git(self, *words):
        require(git(self.folder, *words, env=PLAIN) is not None, f"git {words} failed")

    def commit(self, text, subject):
        """Commits this text of the file, or its absence."""
        if text is None:
            os.remove(self.file)
        else:
            os.makedirs(os.path.dirname(self.file), exist_ok=True)
            with open(self.file, "wb") as file:
                file.write(text)
        self.git("add", "-A")
        self.git("commit", "-q", "--allow-empty", "--allow-empty-message", "-m", subject)


def small_repository(folder):
    """Texts that a history has to get right: long ones, many changes at once, any bytes, no text, no file, and two that are merged."""
    chance = random.Random(1)
    made = Repository(folder, "a folder/the text *")
    lines = [b"%d words of a line\n" % k for k in range(10000)]
    made.commit(b"x" * 150000 + b"\nno end of its last line", 'A text of two parts and more: "quoted", # and \\n')
    made.commit(b"".join(lines), "Lines")
    made.commit(b"".join(b"changed " + line if k % 2 else line for k, line in enumerate(lines)), "5,000 changes")
    with open(os.path.join(folder, "other"), "wb") as file:
        file.write(b"another file")
    made.git("add", "-A")
    made.git("commit", "-q", "-m", "Another file alone")
    made.commit(b"".join(b"y" * 70000 + line if k % 2500 == 7 else line for k, line in enumerate(lines)), "Long pieces at four places")
    made.git("update-index", "--chmod=+x", made.path)
    made.git("commit", "-q", "-m", "The same text")
    made.git("checkout", "-q", ".")
    made.commit(b"", "")
    made.commit(bytes(range(256)) * 3, "Any bytes, \u00fcber alles")
    made.commit(None, "No file")
    made.commit(b"one\r\ntwo\r\nthree\r\n", "CRLF")
    made.git("checkout", "-q", "-b", "second")
    made.commit(b"zero\r\none\r\ntwo\r\nthree\r\n", "On a branch")
    made.commit(b"zero\r\none\r\ntwo\r\n", "Again on a branch")
    made.git("checkout", "-q", "first")
    made.commit(b"one\r\ntwo\r\nthree\r\nfour\r\n", "On the other")
    made.git("merge", "-q", "--no-commit", "-s", "ours", "second")
    made.commit(b"zero\r\none\r\ntwo\r\nfour\r\n", "Merged")
    text = b"one\r\n"
    for k in range(20):
        words = text.splitlines(keepends=True)
        words[chance.randrange(len(words)) : chance.randrange(len(words))] = [b"%d\n" % chance.randrange(9) for _ in range(chance.randrange(4))]
        text = b"".join(words) or b"again"
        made.commit(text, f"change {k}")
    return made.file


def renamed_repository(folder):
    """A file that is renamed there and back, with other files under its names meanwhile; its subjects and texts, by hand."""
    made = Repository(folder, "a")
    lines = [b"line %d\n" % k for k in range(20)]
    texts = [b"".join(lines[k:]) for k in range(6)]
    made.commit(texts[0], "made")
    made.commit(texts[1], "changed")
    os.makedirs(os.path.join(folder, "b \u00fc"))
    made.git("mv", "a", "b \u00fc/c")
    made.path, made.file = "b \u00fc/c", os.path.join(folder, "b \u00fc/c")
    made.commit(texts[2], "renamed")
    with open(os.path.join(folder, "a"), "wb") as file:
        file.write(b"another file")
    made.commit(texts[2], "not of it")
    made.commit(texts[3], "changed below")
    made.git("rm", "-q", "a")
    made.commit(texts[3], "nor this")
    made.git("mv", "b \u00fc/c", "a")
    made.path, made.file = "a", os.path.join(folder, "a")
    made.commit(texts[3], "renamed back")
    os.makedirs(os.path.join(folder, "b \u00fc"), exist_ok=True)
    with open(os.path.join(folder, "b \u00fc/c"), "wb") as file:
        file.write(b"another one")
    made.commit(texts[4], "changed again")
    subjects = [b"made", b"changed", b"renamed", b"changed below", b"renamed back", b"changed again"]
    return made.file, list(zip(subjects, [texts[0], texts[1], texts[2], texts[3], texts[3], texts[4]]))


def lines_repository(folder):
    """A file to which each commit adds whole lines, each with a first byte of its own, or from which it takes some away."""
    chance = random.Random(7)
    made, lines, left = Repository(folder, "lines"), [], [b"%c, and so it begins and ends: %c\n" % (byte, byte) for byte in range(48, 123)]
    for number in range(16):
        if number % 3 == 2:
            first = chance.randrange(len(lines) - 1)
            del lines[first : first + 2]
        else:
            first = chance.randrange(len(lines) + 1)
            lines[first:first] = [left.pop() for _ in range(chance.randrange(2, 5))]
        made.commit(b"".join(lines), f"commit {number}")
    return made.file


# ---- A history


def script_of(file):
    """The script, or why there is none."""
    done = subprocess.run([sys.executable, FROM_GIT, file], capture_output=True, check=False, env=HERE)
    return (done.stdout, None) if done.returncode == 0 else (None, done.stderr.decode(errors="replace").strip())


def told_commits(script):
    """Each revision's commit and subject, and whether it is a part of that."""
    told = []
    for line in script.split(b"\n")[:-1]:
        found = LINE.fullmatch(line)
        require(found, f"a line has no commit: {line[:60]!r}")
        command, part, commit, subject = found.groups()
        require(command.split(b" ")[0] in (b"new", b"replace", b"many", b"back"), f"another command: {line[:60]!r}")
        told.append((commit.decode(), subject, bool(part)))
    return told


def try_history(program, file, script):
    """Applies a script of a file's history. How many commits it has."""
    folder, name = os.path.split(file)
    prefix = (git(folder, "rev-parse", "--show-prefix") or b"").rstrip(b"\n").decode()
    told = told_commits(script)
    with tempfile.TemporaryDirectory() as room:
        image = os.path.join(room, "image")
        with open(image, "wb") as output:
            done = subprocess.run([program, "apply", "/dev/stdin"], input=script, stdout=output, stderr=subprocess.PIPE, check=False)
        require((done.returncode, done.stderr) == (0, b""), f"apply: status {done.returncode}, {done.stderr!r}")
        with open(image, "rb") as saved:
            checked = verify.checked(saved.read(), [])
        answer = subprocess.run([program, "check", image], capture_output=True, check=False).stdout
        require(answer == f"{verify.accepted_line(checked)}\n".encode(), f"check answers {answer!r}")
        require(len(checked.revisions) == len(told), "the image has another number of revisions")
        texts = verify.all_texts(checked, [])
        require(texts[0] == b"", "revision 0 is not empty")
        for k, (commit, subject, is_part) in list(enumerate(told))[1:]:
            shown = subprocess.run([program, "show", image, str(k)], capture_output=True, check=False)
            require((shown.returncode, shown.stdout) == (0, texts[k]), f"revision {k} is shown as another text")
            require(git(folder, "show", "-s", "--format=%s", commit) == subject + b"\n", f"revision {k} has another subject")
            require(is_part or texts[k] == (git(folder, "show", f"{commit}:{prefix}{name}") or b""), f"revision {k} is another text than git shows")
    whole = [commit for commit, _, is_part in told[1:] if not is_part]
    commits = (git(folder, "log", "--format=%H", "--", name) or b"").decode().split()
    require(sorted(whole) == sorted(commit[:12] for commit in commits), "these are not the commits of the file")
    return len(whole)


def try_renames(program, folder):
    """Applies a script of the history of a file that was renamed. How many commits it has."""
    file, wanted = renamed_repository(folder)
    script, reason = script_of(file)
    require(script is not None, reason)
    told = told_commits(script)[1:]
    require([subject for _, subject, _ in told] == [subject for subject, _ in wanted], f"the commits of a renamed file are {told}")
    image = os.path.join(folder, "image")
    with open(image, "wb") as output:
        subprocess.run([program, "apply", "/dev/stdin"], input=script, stdout=output, check=False)
    for k, (subject, text) in enumerate(wanted, 1):
        shown = subprocess.run([program, "show", image, str(k)], capture_output=True, check=False).stdout
        require(shown == text, f"of a renamed file {subject} is {shown!r}")
    return len(wanted)


def try_origins(program, folder):
    """Compares where the first byte of each line comes from with what git blames. How many lines there are."""
    file = lines_repository(folder)
    script, reason = script_of(file)
    require(script is not None, reason)
    told = told_commits(script)
    image = os.path.join(folder, "image")
    with open(image, "wb") as output:
        subprocess.run([program, "apply", "/dev/stdin"], input=script, stdout=output, check=False)
    answer = subprocess.run([program, "blame", image, str(len(told) - 1)], capture_output=True, check=False)
    require((answer.returncode, answer.stderr) == (0, b""), f"blame: status {answer.returncode}, {answer.stderr!r}")
    revisions = []
    for line in answer.stdout.split(b"\n")[:-1]:
        place, size, revision, _ = line.split(b" ")[:4]
        require(int(place) == len(revisions), f"a run begins elsewhere: {line!r}")
        revisions += [int(revision)] * int(size)
    blamed = re.findall(rb"^([0-9a-f]{40}) \d+ \d+", git(folder, "blame", "--porcelain", "lines") or b"", re.M)
    with open(file, "rb") as text:
        lines = text.readlines()
    require(len(blamed) == len(lines) > 0, "git blames another number of lines")
    place = 0
    for line, commit in zip(lines, blamed):
        found = told[revisions[place]][0]
        require(commit.decode().startswith(found), f"{line!r} comes from {found}, and git blames {commit!r}")
        place += len(line)
    return len(lines)


def main():
    program = os.path.abspath(sys.argv[1] if len(sys.argv) > 1 else PROGRAM)
    if not shutil.which("git"):
        print("LEFT OUT: the history of a file: there is no git here\n0 passed, 0 failed")
        return 0
    passed = failed = 0
    with tempfile.TemporaryDirectory() as folder:
        try:
            print(f"a file that was renamed: {try_renames(program, folder)} commits")
            passed += 1
        except Wrong as wrong:
            print(f"FAILED: a file that was renamed: {wrong}")
            failed += 1
    with tempfile.TemporaryDirectory() as folder:
        try:
            print(f"where lines come from: {try_origins(program, folder)} lines")
            passed += 1
        except Wrong as wrong:
            print(f"FAILED: where lines come from: {wrong}")
            failed += 1
    with tempfile.TemporaryDirectory() as folder:
        for name, file in [("a small repository", small_repository(folder)), ("README.md", os.path.join(TOP, "README.md"))]:
            script, reason = script_of(file)
            if script is None and name == "README.md":
                print(f"LEFT OUT: the history of README.md: {reason}")
                continue
            try:
                require(script is not None, reason)
                print(f"{name}: {try_history(program, file, script)} commits")
                passed += 1
            except (Wrong, verify.Refused) as wrong:
                print(f"FAILED: {name}: {wrong}")
                failed += 1
    print(f"{passed} passed, {failed} failed")
    return failed != 0


if __name__ == "__main__":
    sys.exit(main())
