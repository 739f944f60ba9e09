#!/bin/sh
# Shows that tests/open_files.py tells a file that is read at another place, or not at all. No contract refuses these bodies: std's contract of a read at
# a place bounds its count alone, so they are no edits of must-fail/. Each is built in a copy of the tree, by `rt run`, which proves it, or by the command
# $1, which is given the folder of the program's crate and where the program is to be put; then that test has to fail. It takes some minutes for each.
# The last line is 'N passed, M failed'; the status is not 0 where a wrong read was not told.
set -u
top=$(cd "$(dirname "$0")/.." && pwd)
room=$(mktemp -d) || exit 1
trap 'rm -rf "$room"' EXIT
trap 'exit 1' HUP INT TERM
passed=0
failed=0

# The program of a folder, with what earlier checks kept.
proved() {
    (cd "$1" && rt run < stdin > /dev/null) && cp "$1/out/cordkit" "$2"
}

# A wrong read: its name, and what stands for the right one.
try_read() {
    sed "s/$right/$2/" "$top/$file" > "$room/$file"
    if cmp -s "$room/$file" "$top/$file"; then
        failed=$((failed + 1))
        echo "FAILED: $1: $file has no $right"
    elif ! $build "$room/crates/cordkit" "$room/program" > "$room/log" 2>&1; then
        failed=$((failed + 1))
        tail -n 5 "$room/log"
        echo "FAILED: $1: it is not built"
    elif told=$(python3 "$top/tests/open_files.py" --quick "$room/program"); then
        failed=$((failed + 1))
        echo "FAILED: $1 is not told"
    else
        passed=$((passed + 1))
        echo "$1: $(echo "$told" | tail -n 1)"
    fi
}

build=${1:-proved}
file=crates/lazy_file/src/file_device.rt
right='match file.read_at(buffer, off) {'
cp "$top/crates.txt" "$room" || exit 1
[ ! -f "$top/HANDLES" ] || cp "$top/HANDLES" "$room"
# The copy: the crates, with what earlier checks kept of them as libraries.
mkdir "$room/crates"
for crate in "$top"/crates/*; do
    name=crates/$(basename "$crate")
    mkdir "$room/$name"
    for part in src specs proofs stdin stdout; do
        [ ! -e "$crate/$part" ] || cp -R "$crate/$part" "$room/$name" || exit 1
    done
    if [ -d "$crate/out/rlib" ]; then
        mkdir "$room/$name/out"
        cp -Rp "$crate/out/rlib" "$room/$name/out" || exit 1
    fi
done
(cd "$room" && git init -q .)
try_read 'the first bytes for all' 'match file.read_at(buffer, off \& 0) {'
try_read 'places below 65,536 alone' 'match file.read_at(buffer, off \& 0xFFFF) {'
try_read 'places below 2^32 alone' 'match file.read_at(buffer, off \& 0xFFFF_FFFF) {'
try_read 'no bytes at all' 'match file.read_at(\&mut [], off).map(|_| buffer.len()) {'
echo "$passed passed, $failed failed"
[ "$failed" = 0 ]
