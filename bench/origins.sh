#!/bin/sh
# Times `cord_origins` and `cord_origin` of the C library, and the first of the WebAssembly module where it and node are there, over the last text of COUNT
# revisions, 1,000,000 where it is not given: from the text's first byte, from the middle and from near its end, into a room for 4,096 runs and for 8,192, of
# which half are told at least. The sessions: keys at the end of an empty text, keys in the middle of 2,000 bytes, and one old text again and again behind
# keys. The library is crates/cord_c/out/libcord_c.a (`make library`), the module out/cord_c.wasm beside it (`make wasm`).
# origins.sh [COUNT]
set -eu
cd "$(dirname "$0")/.."
top=$PWD
program=${PROGRAM:-$PWD/crates/cordkit/out/cordkit}
library=crates/cord_c/out
count=${1:-1000000}
room=$(mktemp -d)
trap 'rm -rf "$room"' EXIT
gcc -std=c11 -O2 -D_POSIX_C_SOURCE=199309L -o "$room/origins" bench/origins.c "$library/libcord_c.a"
flag=$(node --experimental-wasm-memory64 -e 0 2> /dev/null && echo --experimental-wasm-memory64 || true)

# The session of the script, by this name.
measure() {
    "$program" apply "$room/script" > "$room/image"
    for runs in 4096 8192; do
        echo "$1, a room for $runs:"
        "$room/origins" "$room/image" "$runs"
        if [ -e "$library/cord_c.wasm" ] && command -v node > /dev/null; then
            echo " by the module:"
            node $flag --no-warnings "$top/bench/origins.mjs" "$library/cord_c.wasm" "$room/image" "$runs"
        fi
    done
}

awk -v n="$count" 'BEGIN { print "new"; for (k = 0; k < n - 1; k++) printf "insert %d %d \"%c\"\n", k, k, 97 + k % 26 }' > "$room/script"
measure 'keys at the end'
awk -v n="$count" 'BEGIN {
    print "new"; printf "insert 0 0 \""; for (j = 0; j < 2000; j++) printf "a"; print "\""
    for (k = 1; k < n - 1; k++) printf "insert %d 1000 \"%c\"\n", k, 97 + k % 26
}' > "$room/script"
measure 'keys in the middle'
awk -v n="$count" 'BEGIN {
    print "new"; for (k = 0; k < n / 2; k++) printf "insert %d %d \"%c\"\n", k, k, 97 + k % 26
    for (; k < n - 1; k++) printf "back %d\n", k
}' > "$room/script"
measure 'an old text again and again behind keys'
