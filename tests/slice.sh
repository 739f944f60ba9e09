#!/bin/sh
# A slice of what `make long` and `make fuzz` run with python, with fixed seeds, in some seconds: the second checker on the worked images, damaged
# images, keys, scripts, scripts behind images, requests, commits, crashes of sessions, the language server, by a client
# and in editors, where bytes come from, the inputs that the fuzzer kept, sources of any size, the bytes of open files at each place, and how many blocks of files are kept, over the program that `make run` built or the one that $1 names; the history of README.md as a
# session, and what docs/START.md, docs/SCRIPTS.md and docs/SERVE.md show; what the build before the pass for speed answered, beside the program cord_answers, as
# the gate built it; images by the C library, through its Python module, where `make library` built it; where there is gcc, each allocation of that
# program's runs refused, and of those of refusal_tests, as the gate built them; and whether docs/HEADLINE.md and docs/DEFINITIONS.md are what specs/
# say, each new name there one thing, and each call and clause there that a crate's README.md or docs/PROVED.md names, whether wrong edits keep the
# names that proofs cite, how many public calls have one, whether the benchmark can be built at the start, whether matches name each kind, whether each whole image in tests of crates is a worked one, whether each tool and its options
# stand in help, completions and pages, and whether CONTRIBUTING.md names each file that a new one is told in. Where there is no python3 nothing of it
# is tried, which is told. What a test left out is told too. The last line is 'N passed, M failed'; the status is not 0 where one failed.
set -u
top=$(cd "$(dirname "$0")/.." && pwd)
program=${1:-$top/crates/cordkit/out/cordkit}
if ! command -v python3 > /dev/null; then
    echo "LEFT OUT: the second checker, damaged images, keys, scripts, scripts behind images, requests, commits, crashes of sessions, the language server, where bytes come from, the history of README.md, the inputs of the fuzzer, large sources, the bytes of open files, blocks that are kept, the answers of the start, refused allocations, docs/HEADLINE.md and docs/DEFINITIONS.md, names, README.md and docs/PROVED.md, wrong edits, which calls have them, what the benchmark names, whole matches, worked images in tests, each tool and its options, CONTRIBUTING.md: there is no python3 here"
    echo "0 passed, 0 failed"
    exit 0
fi
passed=0
failed=0

try() {
    name=$1
    shift
    if python3 "$@" > "$written" 2>&1; then
        passed=$((passed + 1))
        grep '^LEFT OUT' "$written"
        echo "$name: $(tail -n 1 "$written")"
    else
        failed=$((failed + 1))
        cat "$written"
        echo "FAILED: $name"
    fi
}

written=$(mktemp) || exit 1
trap 'rm -f "$written"' EXIT
trap 'exit 1' HUP INT TERM
try 'the second checker on worked images' "$top/tests/worked_images.py"
try 'damaged images' "$top/tests/damaged_images.py" 1050 "$program"
try 'keys' "$top/tests/random_keys.py" 25 "$program"
try 'scripts' "$top/tests/random_scripts.py" 60 "$program"
try 'scripts behind images' "$top/tests/going_on.py" 60 "$program"
try 'requests' "$top/tests/random_served.py" 12 "$program"
try 'commits' "$top/tests/commits.py" 40 "$program"
try 'files that were edited' "$top/tests/edited_files.py" few "$program"
try 'crashes of sessions' "$top/tests/crashes.py" 3 "$program"
try 'the language server' "$top/tests/language_server.py" 40 "$program"
try 'editors that tell it keys' "$top/tests/editor_keys.py" 40 0 "$program"
try 'where bytes come from' "$top/tests/random_blames.py" 60 "$program"
try 'the history of a file' "$top/tests/git_history.py" "$program"
try 'what docs/START.md, docs/SCRIPTS.md and docs/SERVE.md show' "$top/tests/script_tour.py" "$program"
try 'the inputs of the fuzzer' "$top/tests/fuzz_images.py" 0 "$program"
try 'sources of any size' "$top/tests/large_sources.py" "$program"
try 'the bytes of open files' "$top/tests/open_files.py" --quick "$program"
try 'blocks of files that are kept' "$top/tests/kept_blocks.py" "$program"
if [ -f "$top/crates/cord_c/out/libcord_c.so" ]; then
    try 'the C library' -B "$top/crates/cord_c/callers/compare.py" 420 "$program"
else
    echo "LEFT OUT: the C library: there is no crates/cord_c/out/libcord_c.so: make library builds it"
fi
answers=$top/crates/cord_answers/out/cord_answers
if [ -x "$answers" ]; then
    try 'the answers of the start' "$top/tests/start_answers.py" "$answers"
else
    echo "LEFT OUT: the answers of the start: there is no crates/cord_answers/out/cord_answers: make check builds it"
fi
try 'each allocation refused' "$top/tests/refused.py" "$program"
try 'the pages of definitions' "$top/tests/headline.py"
try 'names' "$top/tests/names.py"
try 'what README.md files and docs/PROVED.md name' "$top/tests/readmes.py"
try 'wrong edits' "$top/tests/edit_names.py"
try 'public calls with wrong edits' "$top/tests/edited_calls.py"
try 'what the benchmark names' "$top/tests/start_items.py"
try 'whole matches' "$top/tests/matches.py"
try 'worked images in tests' "$top/tests/images_in_tests.py"
try 'each tool and its options' "$top/tests/tools.py"
try 'what a new command, key, tool or kind of node is told in' "$top/tests/additions.py"
echo "$passed passed, $failed failed"
[ "$failed" = 0 ]
