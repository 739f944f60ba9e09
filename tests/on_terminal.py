#!/usr/bin/env python3
"""on_terminal.py DESCRIPTORS PROGRAM WORD...: runs a program of whose standard descriptors these digits are a terminal, as `02`; the others are
this script's. Nothing is typed but the end of input. What came to the terminal goes to standard error; the status is the program's."""
import os
import pty
import select
import subprocess
import sys
import termios


def told_by(ours, program):
    """What comes to the terminal until the program has ended."""
    told = b""
    ended = False
    while not ended:
        ended = program.poll() is not None
        while select.select([ours], [], [], 0.05)[0]:
            told += os.read(ours, 65536)
    return told


def main():
    descriptors, *words = sys.argv[1:]
    ours, theirs = pty.openpty()
    mode = termios.tcgetattr(theirs)
    mode[1] &= ~termios.OPOST
    mode[3] &= ~termios.ECHO
    termios.tcsetattr(theirs, termios.TCSANOW, mode)
    streams = [theirs if str(n) in descriptors else None for n in range(3)]
    program = subprocess.Popen(words, stdin=streams[0], stdout=streams[1], stderr=streams[2])
    os.write(ours, b"\x04")
    os.write(2, told_by(ours, program))
    sys.exit(program.returncode)


main()
