#!/bin/sh
# Times scripts, in one run. `apply` of a million lines that type lines of 60 bytes in the middle of a megabyte, every revision kept with its rows, beside
# python's list of strings and, where it is installed, `ed -s`, which take the same keys and keep one text: the three texts are compared. `log` of the image
# beside `cat` of what it prints, and `find --all` over 64 MB beside `grep -ob`, where the program has them: what they print is compared too.
set -eu
cd "$(dirname "$0")/.."
program=$PWD/crates/cordkit/out/cordkit
[ -x "$program" ] || (cd crates/cordkit && rt run < stdin > /dev/null 2>&1)
launcher=$PWD/bin/cordkit # asks for large pages
room=$(mktemp -d)
trap 'rm -rf "$room"' EXIT
cd "$room"

# the best of $1 runs into a file, in milliseconds
best() {
    runs=$1
    shift
    for _ in $(seq "$runs"); do
        rm -f out
        start=$(date +%s%N)
        "$@" > out
        end=$(date +%s%N)
        echo $(((end - start) / 1000000))
    done | sort -n | head -n 1
}

has() { "$program" "$@" > /dev/null 2>&1 < /dev/null || [ $? != 2 ]; }

# whether two files are the same
same() {
    cmp "$1" "$2" || {
        echo "$3: the answers differ" >&2
        exit 1
    }
}

# A megabyte of lines of 60 bytes; the keys that follow its 8,595th line, as a script and as commands of ed.
yes "$(printf '%060d' 0)" | head -n 17190 > text
awk 'BEGIN { print "open 0"; for (k = 0; k < 1000000; k++) print "insert " k " " 524294 + k (k % 61 ? " \"x\"" : " \"\\n\"") }' > script
awk 'BEGIN { print "8595"; for (k = 0; k < 1000000; k++) print k % 61 ? "s/$/x/" : "a\n\n."; print "w typed\nq" }' > commands
cat > typing.py << 'TYPING'
lines, here = open("text").read().split("\n"), 8594
for k in range(1000000):
    if k % 61:
        lines[here] = lines[here][:len(lines[here])] + "x"
    else:
        here += 1
        lines.insert(here, "")
open("listed", "w").write("\n".join(lines))
TYPING
type_with_ed() { ed -s text < commands; }

echo "a million keys in the middle of $(wc -c < text) bytes, the least of three runs, in milliseconds:"
echo "  apply       $(best 3 "$launcher" apply script text), without large pages $(best 3 "$program" apply script text)"
"$program" apply script text > image
echo "              $("$program" check image text), $(wc -c < image) bytes; check $(best 3 "$program" check image text)"
"$program" show image 1000000 text > shown
echo "  python      $(best 3 python3 typing.py)"
same shown listed python
if command -v ed > /dev/null; then
    echo "  ed -s       $(best 3 type_with_ed 2> /dev/null)"
    same shown typed ed
fi
if has log image text; then
    echo "its log, in milliseconds:"
    echo "  log         $(best 3 "$program" log image text)"
    "$program" log image text > logged
    echo "  cat         $(best 3 cat logged), of $(wc -c < logged) bytes"
    sed 's/ # [^#]*$//' logged > lines
    same script lines log
fi
if has find --all 0 x text; then
    awk 'BEGIN { for (size = 0; size < 67108864; size += 64) printf "%057d%s\n", size, size % 8192 ? "needles" : "needle "; }' > words
    echo "each place of a word in $(wc -c < words) bytes, in milliseconds:"
    for word in 'needle ' needle e; do
        echo "  find --all  $(best 3 "$program" find --all 0 "$word" words)"
        mv out ours
        usual() { grep -obaF "$word" words; }
        echo "  grep -ob    $(best 3 usual), $(wc -l < out) places"
        cut -d : -f 1 out > theirs
        same ours theirs find
    done
fi
