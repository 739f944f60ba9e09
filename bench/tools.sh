#!/bin/sh
# Times the tools over files beside the usual ones, on the same files of 256 MB, and compares what they print on small random files.
set -eu
cd "$(dirname "$0")/.."
program=$PWD/crates/cordkit/out/cordkit
[ -x "$program" ] || (cd crates/cordkit && rt run < stdin > /dev/null)
folder=$(mktemp -d)
trap 'rm -rf "$folder"' EXIT
cd "$folder"

# the answer of cordkit and that of the usual tool are the same
same() {
    if ! cmp -s ours theirs; then
        echo "$1: the answers differ" >&2
        exit 1
    fi
}

# how cmp's answer reads in cordkit's words
order() {
    first=$(cmp "$1" "$2" 2>&1 || true)
    case $first in
    '') echo equal ;;
    *EOF\ on\ "$1"*) echo less ;;
    *EOF\ on\ "$2"*) echo greater ;;
    *) cmp -l "$1" "$2" 2> /dev/null | head -n 1 | { read -r _ x y && if [ $((0$x)) -lt $((0$y)) ]; then echo less; else echo greater; fi; } ;;
    esac
}

runs=0
for n in 1 2 3 5 8 13 40 100 700 3000 9000; do
    head -c "$n" /dev/urandom > a
    head -c $((n / 2 + 1)) /dev/urandom > b
    cat a b > c
    for start in 0 1 $((n / 3)) "$n" $((n + 5)); do
        for count in 0 1 $((n / 2)) 10000; do
            "$program" cut "$start" "$count" c > ours
            dd if=c of=theirs bs=1 skip="$start" count="$count" 2> /dev/null
            same "cut $start $count"
            runs=$((runs + 1))
        done
    done
    "$program" join a b a > ours
    cat a b a > theirs
    same join
    for pair in "a b" "b a" "a c" "c a" "a a"; do
        "$program" cmp $pair > ours || true
        order $pair > theirs
        same "cmp $pair"
    done
    tr '\000-\177' a < a | tr '\200-\377' b > letters
    for pattern in a ab ba aab bbab aaaaaa; do
        "$program" find 0 "$pattern" letters > ours || true
        grep -obaF "$pattern" letters | head -n 1 | cut -d : -f 1 > theirs || true
        same "find $pattern"
        "$program" find --all 0 "$pattern" letters > ours || true
        grep -obaF "$pattern" letters | cut -d : -f 1 > theirs || true
        same "find --all $pattern"
        runs=$((runs + 2))
    done
    runs=$((runs + 6))
done
echo "answers on random files: $runs, each as cat, cmp, dd and grep give it"

# the best of three runs into a file, in milliseconds
best() {
    for _ in 1 2 3; do
        rm -f out
        start=$(date +%s%N)
        "$@" > out || true
        end=$(date +%s%N)
        echo $(((end - start) / 1000000))
    done | sort -n | head -n 1
}

# times a run of cordkit and one of the usual tool
beside() {
    name=$1
    ours=$2
    theirs=$3
    echo "  $name  $ours, $theirs: $((ours * 100 / (theirs + 1))) % of it"
}

usual_cut() { tail -c +1000001 big | head -c 250000000; }

head -c 268435456 /dev/urandom > big
cp big twin
printf 'the needle at the end' >> big
printf 'the needle at the end' >> twin
echo "over files of 256 MB, in milliseconds, with cmp, cat, tail and head, grep doing the same:"
beside cmp "$(best "$program" cmp big twin)" "$(best cmp big twin)"
beside join "$(best "$program" join big)" "$(best cat big)"
beside cut "$(best "$program" cut 1000000 250000000 big)" "$(best usual_cut)"
beside find "$(best "$program" find 0 'the needle at the end' big)" "$(best grep -obaF -m1 'the needle at the end' big)"
beside 'find --all' "$(best "$program" find --all 0 ab big)" "$(best grep -obaF ab big)"
echo 'open 0' | "$program" apply /dev/stdin big > image
beside show "$(best "$program" show image 0 big)" "$(best cat big)"
