#!/bin/sh
# Times `show` of a revision of a megabyte in short literals, and of one of 256 MB in long ones, beside `cat` of the text, in one run.
set -eu
cd "$(dirname "$0")/.."
program=crates/cordkit/out/cordkit
launcher=bin/cordkit # asks for large pages
[ -x "$program" ] || (cd crates/cordkit && rt run < stdin > /dev/null 2>&1)
folder=$(mktemp -d)
trap 'rm -rf "$folder"' EXIT

# the best of five runs into a file, in milliseconds
best() {
    for _ in 1 2 3 4 5; do
        rm -f "$folder/out"
        start=$(date +%s%N)
        "$@" > "$folder/out"
        end=$(date +%s%N)
        echo $(((end - start) / 1000000))
    done | sort -n | head -n 1
}

# the text of so many literals, each of so many bytes
measure() {
    python3 bench/make_image.py literals "$1" "$2" > "$folder/image"
    "$program" show "$folder/image" 1 > "$folder/text"
    tail -c "$(($1 * $2))" "$folder/image" | cmp - "$folder/text"
    echo "text       $(wc -c < "$folder/text") bytes of $1 literals"
    echo "show       $(best "$launcher" show "$folder/image" 1) ms, without large pages $(best "$program" show "$folder/image" 1)"
    echo "cat        $(best cat "$folder/text") ms"
}

measure 62500 16
measure 4096 65536
