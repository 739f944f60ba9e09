#!/bin/sh
# shared.sh [LIBRARY.a [LIBRARY.so]]: makes of the static library, out/libcord_c.a if left out, a shared one beside it, or LIBRARY.so: for Python,
# and for whatever else loads a library as it runs. Where there is no C compiler, that is told, and the status is 0.
set -eu
library=${1:-$(dirname "$0")/out/libcord_c.a}
compiler=${CC:-cc}
if ! command -v "$compiler" > /dev/null; then
    echo "LEFT OUT: the shared library, and what needs it: there is no C compiler $compiler here"
    exit 0
fi
exec "$compiler" -shared -o "${2:-${library%.a}.so}" -Wl,--whole-archive "$library" -Wl,--no-whole-archive -Wl,-z,defs -lc
