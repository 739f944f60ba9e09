#!/bin/sh
# Measures anew what two sections tell, docs/PERF.md "Beside other programs" and docs/SCALE.md "Measured", by the scripts beside this one, one after the
# other, and prints their rows as they stand there, to be laid beside them. What the scripts print goes to standard error. Nothing else should run
# meanwhile; it takes ten minutes, 3 GB of memory and 4 GB of disk. Parts that are named are run alone; `scale` tells of many images by the C library
# too, where `make library` built it. With SMALL=1 the parts that can are run on little data, to try this script and not the program. Left out: rows
# beside the start (bench/run, bench/files), which want a built checkout of it; the picture (bench/plot.py --write); the sizes of the C library, which
# crates/cord_c/wasm.sh and `make library` tell; and images that no session writes (make hostile).
# figures.sh [check|write|rope|edit|tools|scale|onto|first|blame|commit]...
set -eu
cd "$(dirname "$0")/.."
program=crates/cordkit/out/cordkit
[ -x "$program" ] || (cd crates/cordkit && rt run < stdin > /dev/null 2>&1)
room=$(mktemp -d)
trap 'rm -rf "$room"' EXIT
keys=100000 many_keys=1000000 revisions='' commands='' bytes=''
[ -z "${SMALL:-}" ] || keys=100 many_keys=1000 revisions=20 commands=100 bytes=60000

# What awk needs for rows: numbers by thousands, ratios, kB and bytes in MB, and the first number of a line behind a word.
functions='
function grouped(n,   s) { s = int(n + 0.5) ""; while (match(s, /^[0-9]+[0-9][0-9][0-9]($|,)/)) sub(/[0-9][0-9][0-9]($|,)/, ",&", s); return s }
function ratio(a, b,   r) { if (b == 0) return "-"; r = a / b; return sprintf(r < 9.5 ? "%.2f" : "%.0f", r) }
function tenth(a, b) { return b == 0 ? "-" : sprintf(a / b < 9.5 ? "%.1f" : "%.0f", a / b) }
function least(old, n) { return old == "" || n + 0 < old ? n + 0 : old }
function most(old, n) { return old == "" || n + 0 > old ? n + 0 : old }
function behind(word) { return match($0, word " *[0-9.]+") ? substr($0, RSTART + length(word), RLENGTH - length(word)) + 0 : 0 }
function next_name() { return name_of[++names_told] }
BEGIN { split(names, name_of, ";") }
'
# Runs a script, and makes rows of what it prints, with the names of the docs.
names='' instructions=0
rows() {
    lines=$1
    shift
    "$@" > "$room/printed" 2>&1 || { cat "$room/printed" >&2; exit 1; }
    cat "$room/printed" >&2
    awk -v names="$names" -v instructions="$instructions" "$functions $lines" "$room/printed"
}

check() {
    if command -v valgrind > /dev/null; then
        python3 bench/make_image.py source > "$room/source"
        python3 bench/make_image.py session > "$room/image"
        instructions=$(valgrind --tool=callgrind --callgrind-out-file=/dev/null "$program" check "$room/image" "$room/source" 2>&1 | sed -n 's/.*Collected : //p')
    fi
    rows '
        /^accepted/ && !nodes { revisions = $2; nodes = $4; shown = $6 }
        /^image/ && !bytes { bytes = $2 }
        /^cordkit/ && !ours { ours = $2 }
        /^sha256sum/ && !theirs { theirs = $2 }
        END {
            printf "| check %s revisions of all commands but `many`, %s nodes, %s rows, %d MB | ", grouped(revisions), grouped(nodes), grouped(shown), bytes / 1e6 + 0.5
            printf "%d ms, %s million instructions | ", ours, instructions ? int(instructions / 1e6 + 0.5) : "-"
            printf "`sha256sum` %d ms | %s |\n", theirs, ratio(ours, theirs) }' sh bench/check.sh
}

write() {
    rows '
        / us for / { ours = least(ours, $1); nodes = $4 }
        / bytes; cat / { bytes = $1 }
        / us$/ { theirs = least(theirs, $1) }
        END { printf "| write an image of %d MB (%s nodes) | %d ms | `cat` %d ms | %s |\n", bytes / 1e6 + 0.5, grouped(nodes), ours / 1e3 + 0.5, theirs / 1e3 + 0.5,
            ratio(ours, theirs) }' sh bench/write.sh
}

rope() {
    rows '
        /:$/ { part = "" }
        /large pages, as/ { part = "store" }
        /the same, with large pages/ { part = "of store" }
        /what an editor does:$/ { part = "edits" }
        /sessions, every revision kept:$/ { part = "sessions" }
        /the same:$/ { part = "of edits" }
        /with its rows:$/ { part = "many" }
        /no earlier text kept:$/ { part = "of many" }
        { name = substr($0, 3, 34); sub(/ +$/, "", name); time[part, name] = substr($0, 37) + 0 }
        /^  4,096 bytes/ { name = substr($0, 3); sub(/ +[0-9]+ us.*/, "", name); match($0, /[0-9]+ us/); time[part, name] = substr($0, RSTART) + 0 }
        function columns(what, ours, theirs, works,   n, k, work, a, b, all, others, ratios, mark) {
            n = split(works, work, ";")
            for (k = 1; k <= n; k++) {
                a = time[ours, work[k]]; b = time[theirs, work[k]]; mark = k > 1 ? "; " : ""
                all = all mark grouped(a); others = others mark grouped(b); ratios = ratios mark ratio(a, b)
            }
            printf "| %s | %s ns | libstdc++ %s | %s |\n", what, all, others, ratios
        }
        END {
            columns("ropes: append a byte; join two; take a part; fetch a byte anywhere in a megabyte", "store", "of store",
                "an append of one byte;a join of two texts of 64 bytes;a substring of a megabyte;a fetch in a megabyte")
            typed = "a key in the middle;a key in bursts of 20;ten bytes at a random place"
            columns("the store: a key in the middle of a megabyte; in bursts of 20; ten bytes anywhere", "edits", "of edits", typed)
            columns("a session: a key at the end; in the middle; in bursts; ten bytes anywhere", "sessions", "of edits", "a key at the end;" typed)
            one = time["many", "4,096 bytes by one command"]; each = time["many", "4,096 bytes by a command each"]
            peer = time["of many", "4,096 bytes one after the other"]
            printf "| a session: 4,096 bytes of a megabyte by one command; by a command each | %.1f; %.1f ms | libstdc++ %.1f; %.1f ms | %s; %s |\n",
                one / 1e3, each / 1e3, peer / 1e3, peer / 1e3, ratio(one, peer), ratio(each, peer)
            split("source, 10 edits;source, 100 edits;source, 1000 edits;64 each, 0 edits", text, ";")
            for (k = 1; k <= 4; k++) {
                a = time["store", "a search: " text[k]]; b = time["store", "one piece: " text[k]]; mark = k == 4 ? "; " : k > 1 ? ", " : ""
                found = found mark grouped(a / 1e3); plain = least(plain, b); times = times mark tenth(a, b)
            }
            printf "| find 12 bytes at the end of a megabyte after 10, 100, 1,000 insertions; in literals of 64 bytes | %s µs | in one piece %d µs | %s |\n",
                found, plain / 1e3 + 0.5, times
        }' sh bench/rope.sh
}

edit() {
    rows '
        / us a key and its frame/ { low = least(low, $1); high = most(high, $1) }
        /^vim.*once/ { once = 1 }
        /^vim.*each/ { once = 0 }
        / us a key, by / && once { one = least(one, $1); end = most(end, $1) }
        / us a key, by / && !once { first = least(first, $1); last = most(last, $1) }
        END {
            printf "| a key of the editor with its frame, in 1 MB or 64 MB | %d to %d µs | ", low, high
            printf "`vim -u NONE -s`, a frame per key, %d to %d µs; one at the end %d to %d | ", first, last, one, end
            printf "%s to %s; %s to %s |\n", tenth(low, last), tenth(high, first), tenth(low, end), tenth(high, one)
        }' sh bench/edit.sh
}

tools() {
    rows '
        match($0, /^  (cmp|join|cut|find|show)  /) { ours[$1] = behind($1); theirs[$1] = behind(",") }
        END {
            printf "| files of 256 MB: `cmp`; `join`; `cut`; `find`; `show` of one source | "
            printf "%d; %d; %d; %d; %d ms | ", ours["cmp"], ours["join"], ours["cut"], ours["find"], ours["show"]
            printf "`cmp` %d; `cat` %d; `tail` and `head` %d; `grep` %d; `cat` %d | ", theirs["cmp"], theirs["join"], theirs["cut"], theirs["find"], theirs["show"]
            n = split("cmp join cut find show", tool)
            for (k = 1; k <= n; k++) printf "%s%s", ratio(ours[tool[k]], theirs[tool[k]]), k < n ? "; " : " |\n"
        }' sh bench/tools.sh
}

scale() {
    names='the same text again;a key at the end;a key in the middle;ten bytes anywhere;4,096 bytes anywhere, by one `many`'
    rows '
        function seconds(s) { return s < 9.5 ? sprintf(s < 0.95 ? "%.2f s" : "%.1f s", s) : sprintf("%.0f s", s) }
        / revisions, .* nodes, / { code = $0; sub(/.*; then /, "", code); sub(/;.*/, "", code)
            printf "| %s | %s | %s | %s | ", next_name(), grouped(behind(":")), grouped(behind("revisions,")), grouped(behind("nodes,"))
            printf "%d MB | `%s` | %s | %s MB | ", behind("rows,") / 1e6 + 0.5, code, seconds(behind("; apply")), grouped(behind("s within"))
            printf "%s | %s |\n", seconds(behind("check")), seconds(behind("show")) }
        / a million/ && !/Traceback/ { print "| " $0 " |" }' python3 bench/scale.py "$program" $revisions
}

# Going on from an image, and the first frame over one.
onto_lines='
    / bytes, accepted/ { bytes = behind(":") }
    /^  check/ { check = $2; held = $3 }
    /^  apply --onto/ { onto = $3; more = $4 }
    /^  log, apply/ { again = $3 }
    /^  edit --onto/ { frame = $3; beside = $4 }'

onto() {
    names='100,000 keys at one place;100,000 keys in the middle of 2,000 bytes;100,000 times ten bytes anywhere in a megabyte;`many` of 4,096 places, 50 times'
    rows "$onto_lines"' /^  edit --onto/ {
            printf "| %s | %.1f MB | %s | %s | %s | ", next_name(), bytes / 1e6, grouped(check), grouped(onto), grouped(again)
            printf "%d MB, %d MB |\n", held / 1024 + 0.5, more / 1024 + 0.5 }' sh bench/onto.sh "$keys"
}

first() {
    rows "$onto_lines"' /^SHA-256/ { digest = $NF }
        END {
            printf "The first frame of `edit --onto`, an image of %d MB: %d ms, and %d MB beside the image; ", bytes / 1e6 + 0.5, frame, beside / 1024 + 0.5
            printf "`check` of it %d ms; SHA-256 of 32 MB %d ms\n", check, digest }' sh bench/onto.sh "$many_keys" first
}

blame() {
    names='200,000 keys at one place;a day of editing, 20,000 commands in a megabyte;20,000 times ten bytes anywhere in a megabyte'
    names="$names;\`many\` of 4,096 places, 50 times;2,000 single bytes in a megabyte"
    names="$names;1,000,000 times \`back\` to 64 kB, and \`many\` of 4,096 places;500,000 keys, \`back\` to the old megabyte, and 2,000 single bytes"
    rows '
        / runs$/ { runs = $(NF - 1) }
        /^  check/ { check = $2; of_check = $3 }
        /^  apply/ { apply = $2; of_apply = $3 }
        /^  blame/ {
            printf "| %s | %s | %d | %d | %d | ", next_name(), grouped(runs), check, apply, $2
            printf "%d MB, %d MB, %d MB |\n", of_check / 1024 + 0.5, of_apply / 1024 + 0.5, $3 / 1024 + 0.5 }' sh bench/blame.sh $commands
}

commit() {
    names='a line in the middle, over a text that is a source;the same, over a text that was put in;nothing;100,000 lines in another order, 6.6 MB'
    rows '
        / bytes, .* in the image/ { onto = "" }
        /^  commit/ { commit = $2; held = $3 }
        /^  check/ { check = $2 }
        /^  apply --onto/ { onto = $3 + 0 " " }
        /^  cmp/ { compared = $5 }
        /^  git/ { printf "| %s | %d | %d | %s| %d | %d | %d MB |\n", next_name(), commit, check, onto, compared, $NF, held }' sh bench/commit.sh $bytes
}

[ $# -gt 0 ] || set -- check write rope edit tools scale onto first blame commit
for part; do "$part"; done
