"""Which files are recorded: those that their owner named, by a line of ~/.config/cordkit/recorded or a pattern on the command line. And how open to
others what is kept of them is."""

import fnmatch
import glob
import os
import tempfile

HEAD = "# Files that cordkit-lsp records, and patterns of such: a path, or, without a slash, a name. One on each line.\n"


def list_path():
    folder = os.environ.get("XDG_CONFIG_HOME") or os.path.expanduser("~/.config")
    return os.path.join(folder, "cordkit", "recorded")


def lines_of_list():
    try:
        with open(list_path(), encoding="utf-8", errors="surrogateescape") as file:
            return file.read().splitlines()
    except FileNotFoundError:
        return []


def patterns():
    return [line for line in lines_of_list() if line and not line.startswith("#")]


def matches(path, pattern):
    """Whether a pattern names a file: by its whole path, or, where the pattern has no slash, by its name."""
    pattern = os.path.expanduser(pattern)
    return fnmatch.fnmatchcase(path if "/" in pattern else os.path.basename(path), pattern)


def is_own(path):
    try:
        return os.stat(path).st_uid == os.geteuid()
    except OSError:
        return not os.path.lexists(path)


def is_recorded(path, given):
    """Whether a file is named by one of these patterns or by the list, and is the user's own."""
    return any(matches(path, pattern) for pattern in [*given, *patterns()]) and is_own(path)


def write_list(lines):
    """Puts another list in the place of this one, whole or not at all."""
    folder = os.path.dirname(list_path())
    os.makedirs(folder, mode=0o700, exist_ok=True)
    handle, name = tempfile.mkstemp(dir=folder)
    with os.fdopen(handle, "w", encoding="utf-8", errors="surrogateescape") as file:
        file.write("".join(line + "\n" for line in lines))
    os.rename(name, list_path())


def name_file(path):
    """Adds a file to the list."""
    line = glob.escape(path)
    if line not in patterns():
        write_list([*(lines_of_list() or HEAD.splitlines()), line])


def unname_file(path):
    """Takes a file out of the list; whether it stood there."""
    line = glob.escape(path)
    lines = lines_of_list()
    if line not in lines:
        return False
    write_list([other for other in lines if other != line])
    return True


def open_as(path, *others):
    """Gives files the group and the mode of another one. Where they may not have the group, that may do no more than all others."""
    try:
        like = os.stat(path)
    except OSError:
        return
    for other in others:
        try:
            bits = like.st_mode & 0o666 | 0o200
            if os.stat(other).st_gid != like.st_gid:
                try:
                    os.chown(other, -1, like.st_gid)
                except OSError:
                    bits &= 0o707 | bits << 3 & 0o070
            os.chmod(other, bits)
        except OSError:
            pass  # It is not there, or another's: it stays as open as it is.
