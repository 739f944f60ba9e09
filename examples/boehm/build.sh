#!/bin/sh
# build.sh [FOLDER]: builds core.o, extras.o and libcord.a, which has both and what libcord_session.a has, in FOLDER, or in out here. CC, CFLAGS and
# LIBRARY name another compiler, flags, and another libcord_session.a. The headers gc/cord.h and gc/ec.h are those of the package libgc-dev.
set -eu
here=$(cd "$(dirname "$0")" && pwd)
top=$(cd "$here/../.." && pwd)
out=${1:-$here/out}
library=${LIBRARY:-$top/crates/cord_session/out/libcord_session.a}
compiler=${CC:-cc}
if ! [ -f "$library" ]; then
    echo "there is no library $library: make library builds it" >&2
    exit 1
fi
if ! echo '#include <gc/cord.h>' | "$compiler" -E - > /dev/null 2>&1; then
    echo "there is no compiler $compiler, or no gc/cord.h: the package libgc-dev has it" >&2
    exit 1
fi
mkdir -p "$out"
out=$(cd "$out" && pwd)
room=$(mktemp -d)
trap 'rm -rf "$room"' EXIT
trap 'exit 1' HUP INT TERM
# An object of some files, of whose names only those of cord.h are seen.
object() {
    name=$1
    shift
    parts=
    for file; do
        part=$room/${name}_$(basename "$file" .c).o
        # shellcheck disable=SC2086 # each flag is a word
        "$compiler" -std=c11 -O2 -fPIC ${CFLAGS:-} -Wall -Wextra -Werror -I "$top/crates/cord_c" -I "$top/crates/cord_session" -c -o "$part" "$file"
        parts="$parts $part"
    done
    # shellcheck disable=SC2086 # each file is a word, and none has a blank
    ld -r -o "$out/$name.o" $parts
    objcopy --localize-hidden "$out/$name.o"
}
object core "$here/core/store.c" "$here/core/bytes.c" "$here/core/cords.c" "$here/core/walks.c"
object extras "$here/extras/strings.c" "$here/extras/searches.c" "$here/extras/printing.c"
cp "$library" "$out/libcord.a"
ar r "$out/libcord.a" "$out/core.o" "$out/extras.o"
