#!/bin/sh
# Times the image of a session of a million nodes, written to a file, beside cat of the same bytes to another, in one run, and checks it.
set -eu
cd "$(dirname "$0")/.."
bench=crates/cord_bench/out/cord_bench
[ -x "$bench" ] || (cd crates/cord_bench && rt run > /dev/null 2>&1)
program=crates/cordkit/out/cordkit
[ -x "$program" ] || (cd crates/cordkit && rt run < stdin > /dev/null 2>&1)
image=$(mktemp)
copy=$(mktemp)
trap 'rm -f "$image" "$copy"' EXIT

echo "the image written, five times:"
for _ in 1 2 3 4 5; do
    "$bench" image 2>&1 > "$image"
done
echo "$(wc -c < "$image") bytes; cat of them, five times:"
for _ in 1 2 3 4 5; do
    start=$(date +%s%N)
    cat "$image" > "$copy"
    end=$(date +%s%N)
    echo "$(((end - start) / 1000)) us"
done
"$program" check "$image"
