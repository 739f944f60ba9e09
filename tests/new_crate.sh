#!/bin/sh
# new_crate.sh NAME [DEP]...: makes the library crate NAME: its folders and files, with one proved function in them to begin from, and its line in
# crates.txt, behind those of the crates that it stands on. `make crate NAME=.. DEPS=".."` runs it.
set -eu
cd "$(dirname "$0")/.."
name=${1:-}
case $name in
'' | *[!a-z0-9_]* | [!a-z]*)
    echo "a crate is named in small letters, digits and _: make crate NAME=.." >&2
    exit 1
    ;;
esac
shift
if [ -e "crates/$name" ] || grep -q "^$name:" crates.txt; then
    echo "there is a crate $name" >&2
    exit 1
fi

rt new "crates/$name" start_lib > /dev/null
mkdir "crates/$name/must-fail"
cat > "crates/$name/README.md" << END
# $name

What it is, in a sentence.
- \`echo\` (\`echo_of\`): its public calls, each with the clauses that say what it gives
- Begin at \`src/lib.rt\` and \`specs/Echo.antt\`.
END

# Behind the last crate that it names; where it names none of ours, behind the comment.
awk -v name="$name" -v deps="$*" '
    BEGIN { count = split(deps, list, " "); for (i = 1; i <= count; i++) wanted[list[i] ":"] = 1 }
    { line[NR] = $0; if ($1 in wanted || (NR == 1 && /^#/)) last = NR }
    END {
        for (i = 0; i <= NR; i++) {
            if (i) print line[i]
            if (i == last + 0) print name ":" (deps ? " " deps : "")
        }
    }' crates.txt > crates.txt.new
mv crates.txt.new crates.txt
echo "crates/$name is there; put your own in place of its function, and go on as CONTRIBUTING.md says under \"A crate\""
