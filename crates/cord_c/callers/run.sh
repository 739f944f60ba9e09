#!/bin/sh
# run.sh [IMAGES [PROGRAM]]: builds the callers in C, Rust and Python over out/libcord_c.a, which `make library` makes, and compares what they answer:
# each on every worked image with the tables of tests/vectors; and each, with the second checker and with the built cordkit, or PROGRAM, on so many
# images that chance makes, whole and damaged (2,100 if left out). Then the header in C++, and examples/check_many.py over a folder of images. What is
# not installed is left out, and said so. With CFLAGS the callers in C and C++ are built so, as CFLAGS=-fsanitize=address (and ASAN_OPTIONS=detect_leaks=0,
# for they hold their files to the end). The last line is 'N passed, M failed'; the status is not 0 where one failed.
set -u
here=$(cd "$(dirname "$0")" && pwd)
top=$(cd "$here/../../.." && pwd)
library=$top/crates/cord_c/out/libcord_c.a
images=${1:-2100}
program=${2:-$top/crates/cordkit/out/cordkit}
case $program in
/*) ;;
*) program=$PWD/$program ;;
esac
if ! [ -f "$library" ]; then
    echo "there is no library $library: make library builds it" >&2
    echo "0 passed, 1 failed"
    exit 1
fi
if ! [ -x "$program" ]; then
    echo "LEFT OUT: the built cordkit beside the library: there is no $program"
    program=
fi
room=$(mktemp -d) || exit 1
trap 'rm -rf "$room"' EXIT
trap 'exit 1' HUP INT TERM
cd "$room" || exit 1

has() { command -v "$1" > /dev/null; }
passed=0
failed=0
pass() { passed=$((passed + 1)); }
fail() {
    failed=$((failed + 1))
    echo "FAILED: $*"
}
try() { if "$@" > log 2>&1; then pass; else fail "$*"; cat log; fi; }

# The callers that can be built: each a name of two programs, check_NAME and show_NAME. Those that start fast are asked for images of chance too.
callers=
pairs=
if has gcc; then
    for caller in check show; do
        # shellcheck disable=SC2086 # each flag is a word
        try gcc -std=c11 -O2 ${CFLAGS:-} -Wall -Wextra -pedantic -Werror -o "${caller}_c" "$here/$caller.c" "$library"
    done
    callers="$callers c"
    pairs="$pairs ./check_c ./show_c"
else
    echo "LEFT OUT: the callers in C, and in Python: there is no gcc here"
fi
if has g++; then
    # shellcheck disable=SC2086 # each flag is a word
    try g++ ${CFLAGS:-} -Wall -Wextra -pedantic -Werror -o check_cpp "$here/check.cpp" "$library"
    callers="$callers cpp"
else
    echo "LEFT OUT: the header in C++: there is no g++ here"
fi
if has rustc; then
    for caller in check show; do
        try rustc --edition 2021 -O -D warnings -L "native=${library%/*}" -o "${caller}_rust" "$here/$caller.rs"
    done
    callers="$callers rust"
    pairs="$pairs ./check_rust ./show_rust"
else
    echo "LEFT OUT: the callers in Rust: there is no rustc here"
fi
if has gcc && has python3; then
    try env CC=gcc sh "$here/../shared.sh" "$library" "$room/libcord_c.so"
    export CORDKIT_LIBRARY="$room/libcord_c.so" PYTHONDONTWRITEBYTECODE=1
    for caller in check show; do
        printf '#!/bin/sh\nexec python3 "%s" "$@"\n' "$here/$caller.py" > "${caller}_python"
        chmod +x "${caller}_python"
    done
    callers="$callers python"
elif ! has python3; then
    echo "LEFT OUT: the callers in Python, and the images that chance makes: there is no python3 here"
fi

# Every worked image by each caller; and, where it is accepted and its last text short, the text as the program shows it.
printf abc > abc
printf ab > ab
printf "$(seq 0 299 | awk '{ printf "\\%03o", $1 % 256 }')" > ramp
mkdir folder
accepted=0
refused=0
for folder in "$top/tests/vectors" "$top/tests/vectors/version2"; do
    while IFS=';' read -r name source status line; do
        tr -d '[:space:]' < "$folder/$name.hex" | tr a-f A-F | basenc --base16 -d > image
        case $name in
        doubled_to_the_limit | fill_of_the_limit | many_to_the_limit) shown= ;;
        *) shown=$(echo "$line" | sed -n 's/^accepted \([0-9]*\) .*/\1/p') ;;
        esac
        if [ -n "$program" ] && [ -n "$shown" ]; then
            "$program" show image $((shown - 1)) ${source:+"$source"} > wanted || fail "cordkit show $name"
        fi
        for caller in $callers; do
            answer=$("./check_$caller" image ${source:+"$source"} 2> /dev/null)
            got=$?
            if [ "$answer" = "$line" ] && [ "$got" = "$status" ]; then
                pass
            else
                fail "check_$caller $name: status $got, $answer"
            fi
            if [ -n "$program" ] && [ -n "$shown" ] && [ -x "./show_$caller" ]; then
                if "./show_$caller" image $((shown - 1)) ${source:+"$source"} 2> /dev/null | cmp -s - wanted; then
                    pass
                else
                    fail "show_$caller $name"
                fi
            fi
        done

        # The same in a folder of images, whose sources lie beside them; where these are missing, others are taken for them there.
        at=folder/$(basename "$folder").$name.cord
        if [ -n "$source" ]; then
            cp "$source" "$at.0"
        elif [ "$(od -A n -t x1 -j 12 -N 4 image 2> /dev/null | tr -d ' ')" != 00000000 ]; then
            continue
        fi
        cp image "$at"
        if [ "$status" = 0 ]; then
            accepted=$((accepted + 1))
        else
            refused=$((refused + 1))
            echo "$at: $line" >> wanted_lines
        fi
    done < "$folder/answers"
done

# A limit of looks, and sources that are not held.
tr -d '[:space:]' < "$top/tests/vectors/bytes_row_over_a_source.hex" | tr a-f A-F | basenc --base16 -d > image
for caller in $callers; do
    [ "$caller" != cpp ] || continue
    answer=$("./check_$caller" 530 image abc)
    [ "$?$answer" = "1refused looks 531" ] && pass || fail "check_$caller 530: $answer"
    answer=$("./check_$caller" 531 image abc)
    [ "$?$answer" = "0accepted 1 revisions 1 nodes 1 rows" ] && pass || fail "check_$caller 531: $answer"
done
if has gcc; then
    answer=$(./check_c -l image abc 2>&1)
    [ "$?$answer" = "3read" ] && pass || fail "check_c -l: $answer"
fi

# The folder of images, by one process and by two; and the images that chance makes.
case $callers in
*python*)
    sort wanted_lines > wanted
    for processes in 1 2; do
        python3 "$top/examples/check_many.py" folder --processes $processes > told 2> log
        [ $? = 1 ] && grep -v ' images: ' told | sort | cmp -s - wanted && pass || fail "check_many.py --processes $processes: $(cat log)"
        line="$((accepted + refused)) images: $accepted accepted, $refused refused, 0 not read;"
        tail -n 1 told | grep -q "^$line" && pass || fail "check_many.py --processes $processes: $(tail -n 1 told)"
    done
    if python3 "$here/compare.py" "$images" "$program" $pairs > log 2>&1; then
        set -- $(tail -n 1 log)
        passed=$((passed + $1))
        echo "images: $(tail -n 2 log | head -n 1)"
    else
        fail "compare.py"
        cut -c 1-500 log
    fi
    ;;
esac
echo "$passed passed, $failed failed"
[ "$failed" = 0 ]
