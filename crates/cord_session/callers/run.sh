#!/bin/sh
# run.sh [SEEDS [PROGRAM]]: builds the programs here over out/libcord_session.a, as archive.sh leaves it, beside out/libcord_c.a of cord_c, and runs
# them: ropes and sessions of so many seeds (6 if left out) beside plain arrays, and a session whose memory is refused; random calls in C, C++, Rust and
# Python beside plain lists (compare.py), ten runs for each seed; the programs of docs/C_LIBRARY.md, with what they print there; the line editor. The
# built cordkit, or PROGRAM, checks each image that a session saved, and makes it again by `apply`. With CFLAGS what is C and C++ is built so, as
# CFLAGS=-fsanitize=address,undefined; where valgrind is, one run of each goes through it. What is not installed is left out, and said so. The last line
# is 'N passed, M failed'; the status is not 0 where one failed.
set -u
here=$(cd "$(dirname "$0")" && pwd)
top=$(cd "$here/../../.." && pwd)
library=$top/crates/cord_session/out/libcord_session.a
checker=$top/crates/cord_c/out/libcord_c.a
seeds=${1:-6}
program=${2:-$top/crates/cordkit/out/cordkit}
case $program in
/*) ;;
*) program=$PWD/$program ;;
esac
for archive in "$library" "$checker"; do
    if ! [ -f "$archive" ]; then
        echo "there is no library $archive: make library builds it" >&2
        echo "0 passed, 1 failed"
        exit 1
    fi
done
if ! command -v gcc > /dev/null; then
    echo "LEFT OUT: the programs in each language: there is no gcc here"
    echo "0 passed, 0 failed"
    exit 0
fi
room=$(mktemp -d) || exit 1
trap 'rm -rf "$room"' EXIT
trap 'exit 1' HUP INT TERM
cd "$room" || exit 1
passed=0
failed=0
try() {
    if "$@" > log 2>&1; then
        passed=$((passed + 1))
    else
        failed=$((failed + 1))
        echo "FAILED: $*"
        cut -c 1-800 log
    fi
}

# The same of a program whose last line counts: each of its cases.
try_counted() {
    "$@" > log 2>&1
    counts=$(tail -n 1 log | sed -n 's/^\([0-9]*\) passed, \([0-9]*\) failed$/\1 \2/p')
    if [ -z "$counts" ] || [ "$counts" = '0 0' ]; then
        counts='0 1'
    fi
    passed=$((passed + ${counts% *}))
    failed=$((failed + ${counts#* }))
    [ "${counts#* }" = 0 ] || { echo "FAILED: $*" && cut -c 1-800 log; }
}
has() {
    command -v "$1" > /dev/null && return
    echo "LEFT OUT: $2: there is no $1 here"
    return 1
}

# Whether a program in Rust is refused with this error.
refuses() {
    rustc --edition 2021 --check-cfg 'cfg(sent,shared,outlived,copied)' --cfg "$1" --emit=metadata -o wrong "$here/owning.rs" 2> told
    grep -q "^error\[$2\]" told
}

flags="-Wall -Wextra -pedantic -Werror -I $top/crates/cord_c -I $top/crates/cord_session/include"
build() {
    out=$1
    shift
    # shellcheck disable=SC2086 # each flag is a word
    try gcc -std=c11 -O2 ${CFLAGS:-} $flags -o "$out" "$@" "$library" "$checker"
}
build_cpp() {
    # shellcheck disable=SC2086 # each flag is a word
    try g++ -std=c++17 -O2 ${CFLAGS:-} $flags -o "$1" "$2" "$library" "$checker"
}
build_rust() {
    out=$1
    shift
    try rustc --edition 2021 -O -D warnings --check-cfg 'cfg(sent,shared,outlived,copied)' -L "native=${library%/*}" -L "native=${checker%/*}" -o "$out" "$@"
}

# Block number $2 of a language in docs/C_LIBRARY.md, as it stands.
block_of() {
    awk -v language="$1" -v wanted="$2" '
        /^```/ && on { on = 0; next }
        $0 == "```" language { on = ++n == wanted }
        on && !/^```/' "$top/docs/C_LIBRARY.md"
}

# A program of the page prints what stands in its block number $1 of text; and cordkit shows this last text of the image that it saved.
prints() {
    block_of text "$1" > wanted
    shift
    "$@" > printed 2>&1
    try cmp printed wanted
}
shows() {
    [ -x "$program" ] || return
    wanted=$1
    shift
    try test "$("$program" show "$@" 2>&1)" = "$wanted"
}

build ropes "$here/ropes.c"
build sessions "$here/sessions.c"
build memory "$here/memory.c" -Wl,--wrap=malloc,--wrap=realloc
build calls_c "$here/calls.c"
build line_editor "$top/examples/line_editor.c"
callers="c=./calls_c"
[ -x "$program" ] || { echo "LEFT OUT: the built cordkit beside the library: there is no $program" && program=; }

# The programs of the page.
block_of c 2 > fox.c
build fox fox.c
prints 2 ./fox
shows 'the brown fox' fox.cord
if has g++ 'the wrapper for C++'; then
    printf '#include "%s/../cord_session.h"\nint main() { cord_session s = CORD_SESSION_NONE; cord_session_end(&s); return s.open; }\n' "$here" > both.cpp
    build_cpp both both.cpp
    try ./both
    block_of cpp 1 > dog.cpp
    build_cpp dog dog.cpp
    prints 3 ./dog
    shows 'the brown dog' dog.cord
    build_cpp owning_cpp "$here/owning.cpp"
    try ./owning_cpp
    build_cpp calls_cpp "$here/calls.cpp"
    callers="$callers cpp=./calls_cpp"
fi
if has rustc 'the wrapper for Rust'; then
    block_of rust 1 > notes.rs
    cp "$top/crates/cord_c/callers/cord.rs" "$here/cord_session.rs" .
    printf 'one\ntwo\n' > notes.txt
    build_rust notes notes.rs
    prints 4 ./notes
    shows "$(printf 'one\nand two')" notes.cord last notes.txt
    build_rust owning_rust "$here/owning.rs"
    try ./owning_rust
    try refuses sent E0277
    try refuses shared E0277
    try refuses outlived E0597
    try refuses copied E0382
    build_rust calls_rust "$here/calls.rs"
    callers="$callers rust=./calls_rust"
fi
if has python3 'the module for Python, and random calls'; then
    try env CC=gcc sh "$top/crates/cord_c/shared.sh" "$checker" "$room/libcord_c.so"
    export CORDKIT_LIBRARY="$room/libcord_c.so" CORDKIT_SESSION_LIBRARY="${library%.a}.so" PYTHONPATH="$top/crates/cord_c/callers" PYTHONDONTWRITEBYTECODE=1
    block_of python 2 > dogs.py
    prints 5 python3 dogs.py
    shows 'the fox' dogs.cord
    try_counted python3 "$here/module.py"
    callers="$callers python=python3 $here/calls.py"
fi

# The line editor: as the page has it; where its image cannot be written, or is none; and where nothing was saved.
block_of sh 1 > typed
prints 6 sh ./typed
tells() {
    printf '%b' "$2" > wanted
    printf '%b' "$1" | ./line_editor "$3" > told 2>&1
    try cmp told wanted
}
usage='print [FROM [TO]], insert LINE TEXT, delete FROM [TO], find TEXT, undo, back REVISION, save, quit'
tells 'insert 1 kept\nsave\nquit\n' 'saved 1\n' kept.cord
cp kept.cord older
mkdir kept.cord.new
tells 'insert 2 more\nsave\nprint\nquit\nquit\n' 'not saved: Is a directory\n1\tkept\n2\tmore\nnot saved: quit once more, or save\n' kept.cord
try cmp kept.cord older
rmdir kept.cord.new
ln -s /dev/full kept.cord.new
tells 'insert 2 more\nsave\nquit\nquit\n' 'not saved: No space left on device\nnot saved: quit once more, or save\n' kept.cord
try cmp kept.cord older
tells 'print 1\nprint 9\ninsert 9 x\ndelete 2\nback 7\nundo\ndelete 1\nundo\nundo\nfind e\nnothing\n' \
    "1\tkept\nno such line\nno such line\nno such line\nrefused 11\nnothing to undo\nnothing to undo\n1\tkept\n$usage\nnot saved\n" kept.cord
tells 'print\n' 'typed is refused: C1\n' typed
try cmp kept.cord older

seed=1
while [ "$seed" -le "$seeds" ]; do
    try ./ropes "$seed" 1500
    try ./sessions "$seed" 1500 "$seed.cord" "$seed.source"
    [ -z "$program" ] || try "$program" check "$seed.cord" "$seed.source"
    seed=$((seed + 1))
done
try ./memory
if command -v python3 > /dev/null; then
    compared() {
        count=$1
        set --
        for caller in c cpp rust python; do
            case $callers in
            *"$caller=./"*) set -- "$@" "$caller=${under:-} ./calls_$caller" ;;
            *"$caller=python3"*) [ -n "${under:-}" ] || set -- "$@" "python=python3 $here/calls.py" ;;
            esac
        done
        try_counted python3 "$here/compare.py" "$count" "$program" "$@"
    }
    compared $((10 * seeds))
fi
if command -v valgrind > /dev/null && [ -z "${CFLAGS:-}" ]; then
    for command in './ropes 1 200' './sessions 1 200' './memory' './owning_cpp' './line_editor kept.cord'; do
        [ -x "${command%% *}" ] || continue
        # shellcheck disable=SC2086 # a program and its words
        try valgrind -q --error-exitcode=9 --leak-check=full $command < /dev/null
    done
    under='valgrind -q --error-exitcode=9'
    ! command -v python3 > /dev/null || compared 2
fi
echo "$passed passed, $failed failed"
[ "$failed" = 0 ]
