#!/bin/sh
# Times `blame` of the last text, beside the check of the same image and the `apply` of its script, in one run: the least of five by turns, in
# milliseconds, and the most memory that each held, where /usr/bin/time is installed. The sessions: keys at one place of an empty text, a day of editing,
# ten bytes anywhere in a megabyte, `many` of 4,096 places, 2,000 single bytes, one old text again and again with a `many` behind it, and single bytes in
# an old text that is gone back to behind keys. The day is made by chance: keys in a row at a place near the last one, a byte in ten erased, a paste and an
# undo now and then. COUNT is how many commands there are, 20,000 where it is not given; of keys at one place ten times as many, 25 times before an old text
# is gone back to, and of `back` 50 times.
# blame.sh [COUNT]
set -eu
cd "$(dirname "$0")/.."
program=${PROGRAM:-$PWD/crates/cordkit/out/cordkit}
[ -x "$program" ] || (cd crates/cordkit && rt run < stdin > /dev/null 2>&1)
count=${1:-20000}
room=$(mktemp -d)
trap 'rm -rf "$room"' EXIT
cd "$room"

# The milliseconds of a run into a file.
took() {
    start=$(date +%s%N)
    "$@" > out
    end=$(date +%s%N)
    echo $(((end - start) / 1000000))
}

checked() { "$program" check image $source; }
applied() { "$program" apply script $source; }
blamed() { "$program" blame image "$last" $source; }

# The least of the numbers in a file.
least() { sort -n "$1" | head -n 1; }

# The most memory of a run, in kilobytes.
held() {
    [ -x /usr/bin/time ] || return 0
    /usr/bin/time -f %M -o held "$program" "$@" > out
    echo ", $(cat held) kB"
}

# A session of this name by the script, over the file that $2 names, if it names one.
measure() {
    name=$1 source=${2:-}
    "$program" apply script $source > image
    last=$(($("$program" check image $source | cut -d ' ' -f 2) - 1))
    rm -f times_*
    for _ in 1 2 3 4 5; do
        for run in checked applied blamed; do took "$run" >> "times_$run"; done
    done
    echo "$name: $(wc -c < image) bytes, $("$program" check image $source), $(blamed | wc -l) runs"
    echo "  check $(least times_checked)$(held check image $source)"
    echo "  apply $(least times_applied)$(held apply script $source)"
    echo "  blame $(least times_blamed)$(held blame image "$last" $source)"
}

awk -v n="$((10 * count))" 'BEGIN { print "new"; for (k = 0; k < n; k++) printf "insert %d %d \"%c\"\n", k, k, 97 + k % 26 }' > script
measure 'keys at one place'
yes abcdefghi | head -c 1048576 > megabyte
awk -v n="$count" 'BEGIN {
    srand(11); print "open 0"; size = 1048576; at = int(size / 2)
    for (k = 0; k < n; k++) {
        chance = rand()
        if (chance < 0.02) at = int(rand() * size)
        if (chance < 0.90) { printf "insert %d %d \"%c\"\n", k, at, 97 + k % 26; at++; size++ }
        else if (chance < 0.98 && at > 0) { at--; size--; printf "delete %d %d 1\n", k, at }
        else if (chance < 0.99) { printf "paste %d %d %d %d 40\n", k, at, k, int(rand() * (size - 40)); at += 40; size += 40 }
        else { from = int(size / 3); printf "replace %d %d 3 \"abc\"\n", k, from }
    }
}' > script
measure 'a day of editing' megabyte
awk -v n="$count" 'BEGIN { srand(7); print "open 0"; for (k = 0; k < n; k++) printf "insert %d %d \"0123456789\"\n", k, int(rand() * (1048576 + 10 * k)) }' > script
measure 'ten bytes anywhere' megabyte
awk 'BEGIN { print "open 0"; for (k = 0; k < 50; k++) { printf "many %d", k; for (j = 0; j < 4096; j++) printf " %d 1 \"x\"", j * 250; print "" } }' > script
measure 'many of 4,096' megabyte
awk 'BEGIN { srand(3); print "open 0"; for (k = 0; k < 2000; k++) printf "insert %d %d \"x\"\n", k, int(rand() * (1048576 + k)) }' > script
measure '2,000 single bytes' megabyte
awk -v n="$((50 * count))" 'BEGIN {
    print "new"; printf "insert 0 0 \""; for (j = 0; j < 65536; j++) printf "a"; print "\""
    for (k = 0; k < n; k++) print "back 1"
    printf "many %d", n + 1; for (j = 0; j < 4096; j++) printf " %d 1 \"x\"", 16 * j; print ""
}' > script
measure 'an old text again and again, and many'
awk -v n="$((25 * count))" -v m="$((count / 10))" 'BEGIN {
    srand(5); print "open 0"
    for (k = 0; k < n; k++) printf "insert %d %d \"%c\"\n", k, 500000 + k, 97 + k % 26
    print "back 0"
    for (k = 0; k < m; k++) printf "insert %d %d \"x\"\n", n + 1 + k, int(rand() * (1048576 + k))
}' > script
measure 'an old text behind keys' megabyte
