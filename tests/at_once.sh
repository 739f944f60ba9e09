#!/bin/sh
# at_once.sh COMMAND...: runs the commands, each a word that sh reads, at the same time, and prints what each wrote, one behind the other in their order.
# The status is not 0 where that of one of them is not.
set -u
room=$(mktemp -d) || exit 1
trap 'rm -rf "$room"' EXIT
trap 'exit 1' HUP INT TERM
count=0
for command in "$@"; do
    count=$((count + 1))
    { sh -c "$command" > "$room/$count" 2>&1 < /dev/null; echo $? > "$room/$count.status"; } &
done
wait
status=0
number=0
for command in "$@"; do
    number=$((number + 1))
    echo "$command"
    cat "$room/$number"
    [ "$(cat "$room/$number.status")" = 0 ] || { status=1 && echo "FAILED: $command"; }
done
exit $status
