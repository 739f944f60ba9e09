"""What bin/cordkit-lsp is made of: each change that an editor tells becomes a revision of FILE.cord. docs/EDITORS.md tells what is kept.

messages    messages of the protocol, in and out
server      what an editor asks, for each open file
commands    the words of the command line
named       which files are recorded
keeping     one file that is recorded: its text, its session, its times
mirror      the text that an editor told, and where its positions are in the file's bytes
form        how a file writes that text: mark, encoding, ends of lines
changes     where two texts differ, and the commands that make one of the other
serving     a `cordkit serve`, and its answers in order
quoting     bytes as a script has them
times       FILE.times
looking     where bytes come from, and the text of a minute"""
