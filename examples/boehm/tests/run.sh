#!/bin/sh
# run.sh [SEEDS]: builds the library of examples/boehm over out/libcord_session.a, as archive.sh leaves it, and tries it: that the core and the extras
# define what gc/cord.h, gc/cord_pos.h and gc/ec.h declare, and the extras want the core by those names alone; each declared name beside the headers'
# words; cords of so many seeds (6 if left out) beside plain arrays; and refusals. With CFLAGS all is built so, as CFLAGS=-fsanitize=address,undefined;
# where valgrind is, one run of each goes through it. Where GC_SOURCE names a folder with the collector's sources, its test of cords is run over this
# core with its own extras, over this library, and over its own core with the extras of here; that wants its library, -lgc. The last line is
# 'N passed, M failed'; the status is not 0 where one failed.
set -u
here=$(cd "$(dirname "$0")" && pwd)
top=$(cd "$here/../../.." && pwd)
session=$top/crates/cord_session/out/libcord_session.a
seeds=${1:-6}
if ! [ -f "$session" ]; then
    echo "there is no library $session: make library builds it" >&2
    echo "0 passed, 1 failed"
    exit 1
fi
if ! command -v gcc > /dev/null || ! printf '#include <gc/cord.h>\n' | gcc -E - > /dev/null 2>&1; then
    echo "LEFT OUT: cord.h over the library: there is no gcc here, or no gc/cord.h (package libgc-dev)"
    echo "0 passed, 0 failed"
    exit 0
fi
room=$(mktemp -d) || exit 1
trap 'rm -rf "$room"' EXIT
trap 'exit 1' HUP INT TERM
cd "$room" || exit 1
passed=0
failed=0
try() {
    if "$@" > log 2>&1; then
        passed=$((passed + 1))
    else
        failed=$((failed + 1))
        echo "FAILED: $*"
        cat log
    fi
}
build() {
    out=$1
    shift
    # shellcheck disable=SC2086 # each flag is a word
    try gcc -std=c11 -O2 ${CFLAGS:-} -Wall -Wextra -pedantic -Werror -I "$top/crates/cord_c" -I "$top/crates/cord_session" -o "$out" "$@"
}
try sh "$here/../build.sh" .

# The names: declared.txt of the headers, macros included; core.txt and extras.txt of the objects.
printf '#include <gc/cord.h>\n#include <gc/ec.h>\n' > headers.c
gcc -E -P headers.c | grep -o 'CORD_[A-Za-z0-9_]* *(\|CORD_oom_fn' | tr -d ' (' | sort -u > declared.txt
gcc -E -dM headers.c | sed -n 's/^#define \(CORD_[A-Za-z0-9_]*\)(.*/\1/p' | sort -u > macros.txt
for object in core extras; do nm -g --defined-only "$object.o" | sed 's/.* //' | grep '^[A-Za-z]' | sort > "$object.txt"; done
try test "$(wc -l < declared.txt)" -ge 46 -a "$(wc -l < macros.txt)" -ge 16
sort core.txt extras.txt > defined.txt
try diff declared.txt defined.txt
nm -u extras.o | sed 's/.* //' | grep '^[Cc][Oo][Rr][Dd]' | sort > wanted.txt
try test "$(comm -23 wanted.txt core.txt)" = ''
sort declared.txt macros.txt > names.txt
while read -r name; do try grep -q "\<$name\>" "$here/declared.c"; done < names.txt

build plain "$here/plain.c" libcord.a
build declared "$here/declared.c" libcord.a -Wno-pedantic
refusing=-Wl,--wrap=malloc
for call in append cat substr balance; do refusing=$refusing,--wrap=cord_store_$call; done
build refused "$here/refused.c" libcord.a "$refusing"
# The program of the page, as C and as C++.
awk '/^```/ && on { exit } $0 == "```c" { on = 1; next } on' "$here/../README.md" > page.c
build page page.c libcord.a
printf '%s\n' 'the brown fox 13' > wanted
./page > told 2>&1
try cmp told wanted
if command -v g++ > /dev/null; then
    # shellcheck disable=SC2086 # each flag is a word
    try g++ ${CFLAGS:-} -Wall -Wextra -Werror -x c++ -o page_cpp page.c -x none libcord.a
    ./page_cpp > told 2>&1
    try cmp told wanted
fi
try ./declared
seed=1
while [ "$seed" -le "$seeds" ]; do
    try ./plain "$seed" 1200
    seed=$((seed + 1))
done
case ${CFLAGS:-} in
*sanitize*)
    echo "LEFT OUT: refusals of malloc, and the collector's programs: a sanitizer has a malloc of its own"
    GC_SOURCE=
    ;;
*) try ./refused ;;
esac
if command -v valgrind > /dev/null && [ -z "${CFLAGS:-}" ]; then
    try valgrind -q --error-exitcode=9 --leak-check=full ./plain 1 100
    try valgrind -q --error-exitcode=9 --leak-check=full ./declared few
    try valgrind -q --error-exitcode=9 ./refused
fi

# The collector's own extras and test of cords.
if [ -n "${GC_SOURCE:-}" ]; then
    for file in cordbscs cordxtra cordprnt tests/cordtest; do try gcc -O2 -w -I /usr/include/gc -c "$GC_SOURCE/cord/$file.c"; done
    # shellcheck disable=SC2086 # each flag is a word
    {
        try gcc ${CFLAGS:-} -o their_extras cordtest.o core.o cordxtra.o cordprnt.o "$session" -lgc
        try gcc ${CFLAGS:-} -o our_library cordtest.o libcord.a -lgc
        try gcc ${CFLAGS:-} -o their_core cordtest.o cordbscs.o extras.o -lgc
    }
    for program in their_extras our_library their_core; do
        ./$program > told 2>&1
        try grep -qx SUCCEEDED told
    done
fi
echo "$passed passed, $failed failed"
[ "$failed" = 0 ]
