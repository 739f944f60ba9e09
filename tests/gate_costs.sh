#!/bin/sh
# gate_costs.sh COMMAND...: runs the gate, and prints behind it the ten crates that were dearest in this run, each with its seconds of
# processor time: in all, and for its proofs, the proofs of its tests, and its edits; then the ten dearest edits, and how many took more than a
# minute. What earlier runs kept costs nothing. The status is the gate's.
#
# The gate tells no times. So each prover below this script is looked at twice a second, in /proc, and its last time counts. It proves tests
# where it has the word --test, and tries an edit where it works in a folder rt-edit-...: the one of that crate whose new text stands there, and
# whose old one does not. Where there is no /proc, there are no times.
set -u
top=$(cd "$(dirname "$0")/.." && pwd)
room=$(mktemp -d) || exit 1
trap 'rm -rf "$room"' EXIT
trap 'exit 1' HUP INT TERM

# What /proc tells of every process, again and again, until the room is gone or the gate has ended.
look() {
    while [ -d "$room" ] && ! [ -e "$room/ended" ]; do
        cat /proc/[0-9]*/stat
        echo
        sleep 0.5
    done 2> /dev/null
}

# The crate and the work of each prover below the process `first`, the edit that it tries, and its time in hundredths of a second.
provers='
function is_below(pid) {
    while (pid in parent && pid != first) pid = parent[pid]
    return pid == first
}
function read(path, line, text) {
    while ((getline line < path) > 0) text = text line "\n"
    close(path)
    return text
}
function edit_of(crate, folder, command, path, lines, count, i, file, old, new, text, found) {
    command = "ls " crates "/" crate "/must-fail/*.edit 2> /dev/null"
    found = "-"
    while ((command | getline path) > 0) {
        count = split(read(path), lines, "\n")
        for (i = 1; i <= count; i++) {
            if (lines[i] ~ /^file: /) file = substr(lines[i], 7)
            if (lines[i] ~ /^old: /) old = substr(lines[i], 6)
            if (lines[i] ~ /^new:/) new = substr(lines[i], 6)
        }
        text = read(folder "/" file)
        if ((new == "" || index(text, new)) && (index(new, old) || !index(text, old))) {
            sub(/.*\//, "", path)
            found = path
        }
    }
    close(command)
    return found
}
function work_of(pid, command, words, folder, crate) {
    command = "{ tr \"\\0\" \" \" < /proc/" pid "/cmdline; echo; readlink /proc/" pid "/cwd; } 2> /dev/null"
    command | getline words
    command | getline folder
    close(command)
    if (!match(words, / --crate-name [a-z0-9_]+ /)) return ""
    crate = substr(words, RSTART + 14, RLENGTH - 15)
    if (words ~ / --test /) return crate " tests -"
    return folder ~ /\/rt-edit-[^\/]*$/ ? crate " edits " edit_of(crate, folder) : crate " proofs -"
}
NF > 21 {
    parent[$1] = $4
    if ($2 == "(rattle)") {
        looked[$1] = $1 " " $22
        spent[$1 " " $22] = $14 + $15
    }
}
NF == 0 {
    for (pid in looked) {
        it = looked[pid]
        if (!(it in work)) work[it] = is_below(pid) ? work_of(pid) : ""
    }
    split("", parent)
    split("", looked)
}
END { for (it in work) if (work[it] != "") print work[it], spent[it] }'

# A line for each crate: seconds in all, and of its proofs, its tests and its edits.
table='
{ sum[$1] += $4; part[$1, $2] += $4 }
END { for (it in sum) printf "%9.0f %9.0f %9.0f %9.0f  %s\n", sum[it] / 100, part[it, "proofs"] / 100, part[it, "tests"] / 100, part[it, "edits"] / 100, it }'

# A line for each edit: its seconds.
edits='
$2 == "edits" { sum[$1 " " $3] += $4 }
END { for (it in sum) printf "%9.0f  %s\n", sum[it] / 100, it }'

look | awk -v first=$$ -v crates="$top/crates" "$provers" > "$room/provers" &
looking=$!
status=0
"$@" || status=$?
: > "$room/ended"
wait "$looking"
awk "$table" "$room/provers" | sort -rn > "$room/table"
echo "the dearest crates of this run, in seconds of processor time:"
echo "   in all    proofs     tests     edits  crate"
head -n 10 "$room/table"
awk '{ all += $1; proofs += $2; tests += $3; edits += $4 }
    END { printf "%9d %9d %9d %9d  all %d crates that were not kept\n", all, proofs, tests, edits, NR }' "$room/table"
awk "$edits" "$room/provers" | sort -rn > "$room/edits"
echo "the dearest edits of this run, in seconds of processor time:"
head -n 10 "$room/edits"
awk '$1 > 60 { dear++ } END { printf "%9d  edits of %d took more than a minute\n", dear, NR }' "$room/edits"
exit "$status"
