#!/bin/sh
# wasm.sh: proves and builds cord_c as WebAssembly, out/cord_c.wasm, and tries it by node, and in a browser by tests/browser.py, where these are. One
# crate is a static library or a module and not both, so it is built in a copy whose crates.txt says so. The last line is 'N passed, M failed'; the
# status is not 0 where one failed.
set -eu
top=$(cd "$(dirname "$0")/../.." && pwd)
room=$(mktemp -d)
trap 'rm -rf "$room"' EXIT
trap 'exit 1' HUP INT TERM
(cd "$top" && tar -cf - --exclude=out --exclude=data crates HANDLES) | (cd "$room" && tar -xf -)
sed 's/^cord_c staticlib:/cord_c wasm64 memory=671088640:/' "$top/crates.txt" > "$room/crates.txt"
(cd "$room/crates/cord_c" && rt lib > "$room/log" 2>&1) || { tail -n 30 "$room/log"; exit 1; }
mkdir -p "$top/crates/cord_c/out"
cp "$room/crates/cord_c/out/cord_c.wasm" "$top/crates/cord_c/out/cord_c.wasm"
if command -v python3 > /dev/null; then
    python3 "$top/page/pack.py" "$top/crates/cord_c/out/cord_c.wasm" "$top/crates/cord_c/out/history.html"
fi
grep '^logic=' "$room/log" | tail -n 1
ls -l "$top/crates/cord_c/out/cord_c.wasm"

passed=0
failed=0

# The module in node, over the worked images.
try_node() {
    flag=$(node --experimental-wasm-memory64 -e 0 2> /dev/null && echo --experimental-wasm-memory64 || true)
    cd "$room"
    printf abc > abc
    printf ab > ab
    printf "$(seq 0 299 | awk '{ printf "\\%03o", $1 % 256 }')" > ramp
    for folder in "$top/tests/vectors" "$top/tests/vectors/version2"; do
        while IFS=';' read -r name source status line; do
            tr -d '[:space:]' < "$folder/$name.hex" | tr a-f A-F | basenc --base16 -d > image
            got=0
            answer=$(check image ${source:+"$source"}) || got=$?
            if [ "$answer" = "$line" ] && [ "$got" = "$status" ]; then
                passed=$((passed + 1))
            else
                failed=$((failed + 1))
                echo "FAILED: $name: status $got, $answer"
            fi
            [ "$name" != one_insert ] || cp image one_insert
        done < "$folder/answers"
    done
    if [ "$(check --show 1 one_insert)" = abc ]; then passed=$((passed + 1)); else failed=$((failed + 1)); fi
    if [ "$(check 136 one_insert || true)" = "refused looks 137" ]; then passed=$((passed + 1)); else failed=$((failed + 1)); fi
}
check() { node $flag --no-warnings "$top/crates/cord_c/callers/check.mjs" "$top/crates/cord_c/out/cord_c.wasm" "$@"; }

if command -v node > /dev/null; then
    try_node
else
    echo "LEFT OUT: the module in node: there is no node here"
fi
if command -v python3 > /dev/null; then
    python3 "$top/tests/browser.py" > "$room/browser" || true
    grep -v ' passed, ' "$room/browser" | cut -c 1-500 || true
    set -- $(tail -n 1 "$room/browser")
    passed=$((passed + $1))
    failed=$((failed + $3))
else
    echo "LEFT OUT: the page in a browser: there is no python3 here"
fi
echo "$passed passed, $failed failed"
[ "$failed" = 0 ]
