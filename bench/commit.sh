#!/bin/sh
# Times `commit` of a file in which one line changed, beside `apply --onto` of that change, the check of the image, `cmp` of the two texts, and
# `git add` with `git commit`, where there is git: the least of five by turns, in milliseconds, and the most memory that each held, where /usr/bin/time is
# installed. The files: lines of 60 bytes, 64 MB of them or $1 bytes, whose line in the middle changes; the same text again; and lines in another order.
# The image has the text before as one revision of a file, or as bytes that were put in.
# commit.sh [BYTES]
set -eu
cd "$(dirname "$0")/.."
program=${PROGRAM:-$PWD/crates/cordkit/out/cordkit}
[ -x "$program" ] || (cd crates/cordkit && rt run < stdin > /dev/null 2>&1)
size=${1:-67108864}
room=$(mktemp -d)
trap 'rm -rf "$room"' EXIT
cd "$room"

# The milliseconds of a run.
took() {
    start=$(date +%s%N)
    "$@" > out 2>&1 || [ "$(head -c 5 out)" = less ] || [ "$(head -c 7 out)" = greater ] || { cat out; exit 1; }
    end=$(date +%s%N)
    echo $(((end - start) / 1000000))
}

committed() { "$program" commit kept file $source; }
checked() { "$program" check image $source; }
applied() { "$program" apply --onto image line $source; }
compared() { "$program" cmp before file; }
by_git() { git -C repository add file && git -C repository -c user.name=x -c user.email=x@localhost commit -q -m x || true; }

least() { sort -n "$1" | head -n 1; }

held() {
    [ -x /usr/bin/time ] || return 0
    /usr/bin/time -f %M -o held "$@" > out 2>&1 || true
    echo ", $(($(tail -n 1 held) / 1024)) MB"
}

# A session of this name whose last text is `before`, over the files that $2 names; what is committed is `file`.
measure() {
    name=$1 source=${2:-}
    rm -f times_* repository -r
    mkdir repository
    if command -v git > /dev/null; then git -C repository init -q .; fi
    for _ in 1 2 3 4 5; do
        cp image kept
        took committed >> times_committed
        took checked >> times_checked
        [ ! -f line ] || took applied >> times_applied
        took compared >> times_compared
        if command -v git > /dev/null; then
            cp before repository/file
            by_git > /dev/null 2>&1 || true
            cp file repository/file
            took by_git >> times_by_git
        fi
    done
    "$program" show kept "$("$program" check kept $source | awk '{ print $2 - 1 }')" $source | cmp - file
    echo "$name: $(wc -c < file) bytes, $(($(wc -c < kept) - $(wc -c < image))) more of $(wc -c < image) in the image"
    cp image kept
    echo "  commit                $(least times_committed)$(held "$program" commit kept file $source)"
    echo "  check                 $(least times_checked)$(held "$program" check image $source)"
    [ ! -f line ] || echo "  apply --onto          $(least times_applied)$(held "$program" apply --onto image line $source)"
    echo "  cmp of the texts      $(least times_compared)"
    [ ! -f times_by_git ] || echo "  git add, git commit   $(least times_by_git)"
}

awk -v n="$((size / 60))" 'BEGIN { for (k = 0; k < n; k++) printf "%08d of the lines of a text that is as long as it may be ...\n", k }' > before
middle=$((size / 120))
awk -v m="$middle" 'NR == m { print "another line"; next } { print }' before > file
place=$(((middle - 1) * 60))
printf 'replace 0 %d 60 "another line\\n"\n' "$place" > line
echo 'open 0' > script
"$program" apply script before > image
measure 'a line of a file' before

rm -f kept
"$program" commit kept before > out
cp kept image
printf 'replace %d %d 60 "another line\\n"\n' "$(sed 's/committed //' out)" "$place" > line
measure 'a line of bytes that were put in'

rm -f line
cp before file
measure 'the same text again'
sort -r before | awk 'NR % 7 == 0 { print "new", $0; next } { print }' | head -n 100000 > file
measure 'other lines in another order'
