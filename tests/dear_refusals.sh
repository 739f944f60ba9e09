#!/bin/sh
# Refusals that come behind much work, or by large files, from the built program, or from the one that $1 names. The last line is
# 'N passed, M failed'; the status is not 0 where a case failed.
set -u
top=$(cd "$(dirname "$0")/.." && pwd)
program=${1:-$top/crates/cordkit/out/cordkit}
case $program in
/*) ;;
*) program=$PWD/$program ;;
esac
if ! [ -x "$program" ]; then
    echo "there is no program $program" >&2
    echo "0 passed, 1 failed"
    exit 1
fi
room=$(mktemp -d) || exit 1
trap 'rm -rf "$room"' EXIT
trap 'exit 1' HUP INT TERM
cd "$room" || exit 1

passed=0
failed=0

is_same() {
    if [ "$2" = "$3" ]; then
        passed=$((passed + 1))
    else
        failed=$((failed + 1))
        echo "FAILED: $1: '$2' for '$3'"
    fi
}

# A key again and again.
keys() {
    head -c "$1" /dev/zero | tr '\0' "$2"
}

# Edits by the keys of standard input. What comes of it: the status, the row of the screen's status in the last frame, and the message.
edited() {
    rm -f image
    { "$program" edit image "$@" 2> message; echo $? > status; } | tail -c 100 > end
    echo "$(cat status), $(tr -d '\033\r' < end | tail -n 1 | sed 's/\[[0-9;]*H$//'), $(cat message)"
}

# An image of as many revisions as there may be, of which all but the first balance the empty text.
is_same 'the revision 1,048,576 is refused' "$({ keys 1048576 '\014' && printf '\030'; } | edited)" '0, rev 1048575 byte 0 of 0 E5, '
is_same 'the image of 1,048,576 revisions' "$("$program" check image)" 'accepted 1048576 revisions 0 nodes 0 rows'

# A text doubled again and again, in as many pieces: all is marked and cut, and pasted twice.
doubled() {
    count=0
    while [ "$count" -lt "$1" ]; do
        printf '\001\000\005\027\031\031'
        count=$((count + 1))
    done
}

# Over a file of 40 bytes, a piece of its own, by three revisions a doubling and one a balance. A balance makes a node less than it
# has pieces, and a row a piece: of 2^20 pieces the sixteenth has too few nodes left, of 2^19 the thirty-second too few rows.
keys 40 a > piece
is_same 'a balance of 1,048,576 pieces' "$({ doubled 20 && keys 15 '\014'; } | edited piece)" '0, rev 75 byte 41943040 of 41943040, '
is_same 'a balance of 2,097,152 pieces is refused' "$({ doubled 21 && keys 1 '\014'; } | edited piece)" \
    '0, rev 63 byte 83886080 of 83886080 E8, '
is_same 'a balance without nodes is refused' "$({ doubled 20 && keys 16 '\014'; } | edited piece)" \
    '0, rev 75 byte 41943040 of 41943040 E7, '
is_same 'a balance without rows is refused' "$({ doubled 19 && keys 32 '\014'; } | edited piece)" \
    '0, rev 88 byte 20971520 of 20971520 E6, '

truncate -s 2147483648 file
is_same 'a file of 2,147,483,648 bytes is not edited' "$(edited file < /dev/null)" '1, , refused K1'

is_same 'the last key that is taken saves' "$({ keys 16777215 '\002' && printf '\030'; } | edited)" '0, rev 0 byte 0 of 0, '
is_same 'and its image' "$("$program" check image)" 'accepted 1 revisions 0 nodes 0 rows'
is_same 'one key more is not taken' "$(keys 16777217 '\002' | edited)" '1, rev 0 byte 0 of 0, refused K2'
is_same 'and no image is written' "$(ls)" "$(printf 'end\nfile\nmessage\npiece\nstatus')"

# A store of as many nodes, and a store and a pool of as many bytes, as there may be: 8 GB of memory, one behind the other.
bench=$top/crates/cord_bench/out/cord_bench
[ -x "$bench" ] || (cd "$top/crates/cord_bench" && rt run > /dev/null 2>&1)
is_same 'a store and a pool that are full' "$("$bench" limits)" "$(printf '%s\n' '16777216 nodes, Some(TableFull)' \
    '4294901760 bytes of a store, Some(PoolFull)' '4294901760 bytes of a pool, Some(PoolFull)')"

echo "$passed passed, $failed failed"
[ "$failed" = 0 ]
