#!/bin/sh
# archive.sh [LIBRARY.a]: puts heap.c, compiled, into the static library, out/libcord_session.a if left out, so that it asks for malloc, realloc and
# free; and makes of it a shared library beside it. Where there is no C compiler, that is told, and the status is 0.
set -eu
here=$(cd "$(dirname "$0")" && pwd)
library=${1:-$here/out/libcord_session.a}
compiler=${CC:-cc}
if ! command -v "$compiler" > /dev/null; then
    echo "LEFT OUT: the heap of libcord_session.a, and the shared library: there is no C compiler $compiler here"
    exit 0
fi
room=$(mktemp -d)
trap 'rm -rf "$room"' EXIT
"$compiler" -O2 -fPIC -std=c11 -Wall -Wextra -pedantic -Werror -c -o "$room/cord_session_heap.o" "$here/heap.c"
ar r "$library" "$room/cord_session_heap.o"
"$compiler" -shared -o "${library%.a}.so" -Wl,--whole-archive "$library" -Wl,--no-whole-archive -Wl,-z,defs -lc
