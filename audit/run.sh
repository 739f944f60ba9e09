#!/bin/sh
# Tries the edits of audit/CRATE/, which the merge gate leaves out for want of time, on a copy of the tree: the prover must refuse
# each. With words, the edits of those crates alone. AUDIT_JOBS crates at a time, or one a processor.
# The last line is 'N passed, M failed'; the status is not 0 where an edit was not refused.
set -u
cd "$(dirname "$0")/.." || exit 1
room=$(mktemp -d) || exit 1
trap 'rm -rf "$room"' EXIT
trap 'exit 1' HUP INT TERM

# The copy: the crates with what earlier checks kept of them as libraries, and the audit's edits in place of the gate's.
mkdir "$room/crates" "$room/said"
cp crates.txt "$room" || exit 1
[ ! -f HANDLES ] || cp HANDLES "$room"
for crate in crates/*; do
    mkdir "$room/$crate"
    for part in src specs proofs; do
        [ ! -d "$crate/$part" ] || cp -R "$crate/$part" "$room/$crate" || exit 1
    done
    if [ -d "$crate/out/rlib" ]; then
        mkdir "$room/$crate/out"
        cp -Rp "$crate/out/rlib" "$room/$crate/out" || exit 1
    fi
done
[ $# -gt 0 ] || set -- $(cd audit && ls -d */ 2> /dev/null | tr -d /)
if [ $# = 0 ]; then
    echo "audit/ has no edits" >&2
    echo "0 passed, 0 failed"
    exit 0
fi
count=0
for name; do
    if ! [ -d "audit/$name" ]; then
        echo "there are no edits audit/$name" >&2
        echo "0 passed, 1 failed"
        exit 1
    fi
    cp -R "audit/$name" "$room/crates/$name/must-fail" || exit 1
    count=$((count + $(ls "audit/$name" | grep -c '\.edit$')))
done

cd "$room" || exit 1
git init -q .
printf '%s\n' "$@" | xargs -n 1 -P "${AUDIT_JOBS:-$(nproc)}" sh -c 'rt must-fail "$0" > "said/$0" 2>&1; cat "said/$0"'
passed=$(cat said/* | grep -c '^rt: must-fail .*: refused, as it must be')
echo "$passed passed, $((count - passed)) failed"
[ "$passed" = "$count" ]
