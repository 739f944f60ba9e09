#!/bin/sh
# Times `apply --onto` of one line and `edit --onto` up to its first frame, with keys to be kept, beside the check of the same image and `log` of it applied
# again with that line, in one run: the least of seven by turns, in milliseconds, and the most memory that each held beside the image, where /usr/bin/time
# is installed. The sessions: keys at one place of an empty text, keys in the middle of 2,000 bytes, ten bytes anywhere in a megabyte, `many` of 4,096
# places, and thirty-nine doublings of a byte, which are too long to edit. Both ways give the same last text. The first line is SHA-256 of 32 MB, by
# sha256sum: keys that are kept name a digest of 16 MB of the image and of the file at most. COUNT is how many keys there are, 300,000 where it is not given;
# with `first` only the first session is measured.
# onto.sh [COUNT [first]]
set -eu
cd "$(dirname "$0")/.."
program=$PWD/crates/cordkit/out/cordkit
[ -x "$program" ] || (cd crates/cordkit && rt run < stdin > /dev/null 2>&1)
count=${1:-300000}
room=$(mktemp -d)
trap 'rm -rf "$room"' EXIT
cd "$room"

# The milliseconds of a run into a file.
took() {
    start=$(date +%s%N)
    "$@" > out
    end=$(date +%s%N)
    echo $(((end - start) / 1000000))
}

checked() { "$program" check image $source; }
shown() { "$program" edit --onto image --keep keys edited $source < /dev/null; }
onto() { "$program" apply --onto image line $source; }
again() {
    { "$program" log image $source && cat line; } > longer
    "$program" apply longer $source
}

# The least of the numbers in a file.
least() { sort -n "$1" | head -n 1; }

# The most memory of a run beside the image, in kilobytes.
held() {
    [ -x /usr/bin/time ] || return 0
    /usr/bin/time -f %M -o held "$program" "$@" < /dev/null > out
    echo ", $(($(cat held) - $(wc -c < image) / 1024)) kB beside the image"
}

# A session of this name by the script, over the file that $2 names, if it names one, and the line behind it.
measure() {
    name=$1 source=${2:-}
    "$program" apply script $source > image
    revisions=$("$program" check image $source | cut -d ' ' -f 2)
    echo "back $((revisions - 1))" > line
    rm -f times_*
    for _ in 1 2 3 4 5 6 7; do
        for run in checked onto again; do took "$run" >> "times_$run"; done
        [ "$name" = doublings ] || took shown >> times_shown
    done
    onto > further
    again > remade
    if [ "$name" != doublings ]; then
        "$program" show further "$revisions" $source > text
        "$program" show remade "$revisions" $source | cmp - text
    fi
    echo "$name: $(wc -c < image) bytes, $("$program" check image $source)"
    echo "  check         $(least times_checked)$(held check image $source)"
    echo "  apply --onto  $(least times_onto)$(held apply --onto image line $source)"
    echo "  log, apply    $(least times_again)"
    [ "$name" = doublings ] || echo "  edit --onto   $(least times_shown)$(held edit --onto image --keep keys edited $source)"
}

head -c 33554432 /dev/zero > zeros
for _ in 1 2 3 4 5 6 7; do took sha256sum zeros >> times_digest; done
echo "SHA-256 of 32 MB: $(least times_digest)"
rm zeros

awk -v n="$count" 'BEGIN { print "new"; for (k = 0; k < n; k++) printf "insert %d %d \"%c\"\n", k, k, 97 + k % 26 }' > script
measure 'keys at one place'
[ "${2:-all}" != first ] || exit 0
yes abcdefghi | head -c 2000 > text_of_2000
awk -v n="$count" 'BEGIN { print "open 0"; for (k = 0; k < n; k++) printf "insert %d %d \"%c\"\n", k, 1000 + k, 97 + k % 26 }' > script
measure 'keys in the middle' text_of_2000
yes abcdefghi | head -c 1048576 > megabyte
awk -v n="$count" 'BEGIN { srand(7); print "open 0"; for (k = 0; k < n; k++) printf "insert %d %d \"0123456789\"\n", k, int(rand() * (1048576 + 10 * k)) }' > script
measure 'ten bytes anywhere' megabyte
awk 'BEGIN { print "open 0"; for (k = 0; k < 50; k++) { printf "many %d", k; for (j = 0; j < 4096; j++) printf " %d 1 \"x\"", j * 250; print "" } }' > script
measure 'many of 4,096' megabyte
awk 'BEGIN { print "new"; print "insert 0 0 \"a\""; for (k = 1; k < 40; k++) print "join " k " " k }' > script
measure doublings
