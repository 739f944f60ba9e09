#!/bin/sh
# Times a key with its frame, typed at the end and in the middle of 1 MB and of 64 MB, beside vim, where it is installed, on the same texts.
set -eu
cd "$(dirname "$0")/.."
bench=crates/cord_bench/out/cord_bench
[ -x "$bench" ] || (cd crates/cord_bench && rt run > /dev/null 2>&1)
echo "cordkit:"
"$bench" keys 2>&1
command -v vim > /dev/null || exit 0
room=$(mktemp -d)
trap 'rm -rf "$room"' EXIT
awk 'BEGIN { while (n++ < 60) line = line "x"; while (size < 67108864) { print line; size += 61 } }' > "$room/large"
head -c 1048576 "$room/large" > "$room/small"
typed=$(awk 'BEGIN { while (n++ < 2000) text = text "x"; print text }')

# How many microseconds vim takes for a script of keys, its start and end with it; $3 is a command that it begins with.
taken() {
    printf '%s' "$1" > "$room/keys"
    start=$(date +%s%N)
    vim -u NONE -c "$3" -s "$room/keys" "$2" > /dev/null 2>&1 || true
    end=$(date +%s%N)
    echo $(((end - start) / 1000))
}

leave=$(printf '\033:q!\r.'); leave=${leave%.}

# Times vim on both texts, at the end and in the middle.
vim_keys() {
    echo "$1:"
    for file in small large; do
        for where in 'GA' '50%A'; do
            none=$(taken "$where$leave" "$room/$file" "$2")
            all=$(taken "$where$typed$leave" "$room/$file" "$2")
            echo "$(((all - none) / 2000)) us a key, by $where in $(wc -c < "$room/$file") bytes"
        done
    done
}

# Where keys wait, vim draws nothing before it has taken them all; so it is also timed as it draws behind each key.
vim_keys 'vim -u NONE -s, which draws once behind all keys' ':'
vim_keys 'vim -u NONE -s, which draws behind each key' 'autocmd InsertCharPre * redraw'
