#!/bin/sh
# Times the store's operations beside the rope of libstdc++ doing the same, in one run; and, where `make library` built it, the same by the C library.
set -eu
cd "$(dirname "$0")/.."
peer=$(mktemp)
trap 'rm -f "$peer" "$peer.c"' EXIT
g++ -O2 -o "$peer" bench/rope.cc
program=crates/cord_bench/out/cord_bench
[ -x "$program" ] || (cd crates/cord_bench && rt run > /dev/null 2>&1)

# the least of five runs of each line
least() {
    for _ in 1 2 3 4 5; do
        "$@" 2>&1
    done | awk '{ name = substr($0, 1, 36); time = substr($0, 37) + 0 }
        !(name in best) { order[++count] = name; unit[name] = $NF }
        !(name in best) || time < best[name] { best[name] = time }
        END { for (k = 1; k <= count; k++) printf "%s %6d %s\n", order[k], best[order[k]], unit[order[k]] }'
}

pages=glibc.malloc.hugetlb=1:glibc.malloc.mmap_threshold=33554432
echo "cordkit's store, a million of each, the least of five runs, with large pages, as bin/cordkit asks for them:"
least env GLIBC_TUNABLES=$pages "$program" store
echo "libstdc++ ext/rope, the same, with large pages too:"
least env GLIBC_TUNABLES=$pages "$peer" store
echo "cordkit's store, without them:"
least "$program" store
echo "libstdc++ ext/rope, without them:"
least "$peer" store
echo "cordkit, what an editor does:"
"$program"
echo "libstdc++ ext/rope, the same:"
"$peer"
library=crates/cord_session/out/libcord_session.a
if [ -f "$library" ]; then
    gcc -O2 -std=gnu11 -I crates/cord_c -I crates/cord_session -o "$peer.c" bench/c_ropes.c "$library"
    echo "the C library, a million of each:"
    least env GLIBC_TUNABLES=$pages "$peer.c" store
    echo "the C library, what an editor does:"
    "$peer.c"
else
    echo "LEFT OUT: the C library: there is no $library: make library builds it"
fi
echo "cordkit, many replacements in a megabyte, every revision kept with its rows:"
"$program" many
echo "libstdc++ ext/rope, the same, no earlier text kept:"
"$peer" many
echo "cordkit, small calls that sessions and checks make again and again:"
"$program" calls
if pkg-config --exists absl_cord 2> /dev/null; then
    g++ -O2 -std=c++17 -o "$peer" bench/absl.cc $(pkg-config --cflags --libs absl_cord)
    echo "absl::Cord:"
    "$peer"
fi
