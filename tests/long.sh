#!/bin/sh
# Runs what takes more than a minute and is no proof, over the program that `make run` built: half an hour and more in all. Each goes on
# where another failed. One whose tools are not there is not tried, which is told and is no pass. The last line is 'N passed, M failed'; the
# status is not 0 where one failed or none passed.
#   100,000 damaged images, 1,000 sessions of keys    python3; both ask the second checker, bin/cordkit-verify
#   1,000 scripts and those of a million lines; 3,000 images, their logs    python3; so does this one
#   1,000 scripts in pieces, 1,000 images, gone on from                     python3; so does this one
#   1,000 files in states, 1,000 images, committed    python3, strace and git; so does this one
#   70 edits of files, committed, beside git          python3 and git
#   the editor's sessions, ended at each call         python3 and strace
#   a hundred saves of an editor, each committed      python3; vim and kakoune, each for its own
#   2,000 notifications to the language server        python3
#   a thousand edits by each client, 10,000 keys      python3; neovim, and Emacs with eglot, each for its own
#   the bytes of open files at each place             python3
#   reads and writes that devices refuse              nothing more
#   the tests of ropes under memcheck                 valgrind, and rt where they are not built
#   refusals that come behind much work               nothing more
#   21,000 images by the callers of the C library     the library (make library); gcc, g++, rustc and python3, each for its own
#   600 sessions and 600 stores by its callers         the library (make library); gcc, g++, rustc, python3 and valgrind, each for its own
#   cords of 40 seeds by gc/cord.h over the library   the library; gcc, and gc/cord.h of the package libgc-dev
#   420 images by the page in a browser               the module (make wasm), chromium and python3
#   4,000 answers of each group, as at the start      python3; the program cord_answers, and a clone at c89b5a8 with it, which OLD names
#   every case of tests/program.sh, tests/kept_keys.sh and tests/terminal.sh, installed    tmux for those in a terminal, strace for a session that
#                                                     ends or stops at each call of the system; mandoc, file, bash, zsh and fish for what is
#                                                     installed beside
set -u
cd "$(dirname "$0")/.." || exit 1
if ! [ -x crates/cordkit/out/cordkit ]; then
    echo "there is no program crates/cordkit/out/cordkit: make run builds it" >&2
    echo "0 passed, 1 failed"
    exit 1
fi
passed=0
failed=0

# A run: its name, the tools that it needs, and its words.
try() {
    name=$1 tools=$2
    shift 2
    for tool in $tools; do
        if ! command -v "$tool" > /dev/null; then
            echo "NOT TRIED: $name: there is no $tool here"
            return
        fi
    done
    echo "== $name"
    start=$(date +%s)
    if "$@"; then
        passed=$((passed + 1))
        echo "== $name passed, in $(($(date +%s) - start)) s"
    else
        failed=$((failed + 1))
        echo "FAILED: $name, in $(($(date +%s) - start)) s"
    fi
}

try 'damaged images' python3 python3 tests/damaged_images.py 100000
try 'sessions of keys' python3 python3 tests/random_keys.py 1000
try 'scripts and logs' python3 python3 tests/random_scripts.py 1000
try 'scripts behind images' python3 python3 tests/going_on.py 1000
try 'requests, killed too' python3 python3 tests/random_served.py 1000
try 'commits, killed and two at once too' python3 python3 tests/commits.py 1000
try 'files that were edited' 'python3 git' python3 tests/edited_files.py all
try 'crashes of sessions' 'python3 strace' python3 tests/crashes.py
try 'the language server' python3 python3 tests/language_server.py 2000
try 'keys in neovim and Emacs' python3 python3 tests/editor_keys.py 1000 10000
try 'a hundred saves of vim and kakoune' python3 python3 tests/editor_saves.py
try 'the bytes of open files, behind 2^32 too' python3 python3 tests/open_files.py
try 'where bytes come from' python3 python3 tests/random_blames.py 2000
try 'refused reads and writes' '' sh tests/devices.sh
try 'the tests of ropes under memcheck' valgrind sh tests/memcheck.sh
try 'dear refusals' '' sh tests/dear_refusals.sh
if [ -f crates/cord_c/out/libcord_c.a ]; then
    try 'the callers of the C library' '' sh crates/cord_c/callers/run.sh 21000
else
    echo "NOT TRIED: the callers of the C library: there is no crates/cord_c/out/libcord_c.a: make library builds it"
fi
if [ -f crates/cord_session/out/libcord_session.a ]; then
    try 'the callers of the library of sessions' '' sh crates/cord_session/callers/run.sh 60
else
    echo "NOT TRIED: the callers of the library of sessions: there is no crates/cord_session/out/libcord_session.a: make library builds it"
fi
if ! [ -f crates/cord_session/out/libcord_session.a ]; then
    echo "NOT TRIED: cord.h over the library: there is no crates/cord_session/out/libcord_session.a: make library builds it"
elif ! echo '#include <gc/cord.h>' | gcc -E - > /dev/null 2>&1; then
    echo "NOT TRIED: cord.h over the library: there is no gcc here, or no gc/cord.h"
else
    try 'cord.h over the library' '' sh examples/boehm/tests/run.sh 40
fi
if [ -f crates/cord_c/out/cord_c.wasm ]; then
    try 'the page in a browser' 'python3 chromium' python3 tests/browser.py 420
else
    echo "NOT TRIED: the page in a browser: there is no crates/cord_c/out/cord_c.wasm: make wasm builds it"
fi
if [ -z "${OLD:-}" ]; then
    echo "NOT TRIED: the answers of the start: OLD names no clone of it: make long OLD=.."
else
    answers=crates/cord_answers/out/cord_answers
    try 'the answers of the start' python3 python3 tests/start_answers.py "$answers" "$OLD/$answers" 4000
fi
try 'what is installed' '' sh tests/install.sh crates/cordkit/out/cordkit all
echo "$passed passed, $failed failed"
[ "$failed" = 0 ] && [ "$passed" != 0 ]
