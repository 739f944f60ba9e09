#!/bin/sh
# Runs the built program, or the one that $1 names, as bin/cordkit, on the cases of the tables, and compares what it writes and its
# status with what the tables say. Where $2 is `launcher`, only the cases whose names begin with a star are tried. The last line is
# 'N passed, M failed'; the status is not 0 where a case failed.
set -u
top=$(cd "$(dirname "$0")/.." && pwd)
program=${1:-$top/crates/cordkit/out/cordkit}
cases=${2:-all}
case $program in
/*) ;;
*) program=$PWD/$program ;;
esac
if ! [ -x "$program" ]; then
    echo "there is no program $program" >&2
    echo "0 passed, 1 failed"
    exit 1
fi
case $cases in
all | launcher) ;;
*)
    echo "the cases are all or launcher, and not $cases" >&2
    echo "0 passed, 1 failed"
    exit 1
    ;;
esac
room=$(mktemp -d) || exit 1
trap 'rm -rf "$room"' EXIT
trap 'exit 1' HUP INT TERM

# The files of the cases: every worked image by its name, and texts.
mkdir "$room/files" "$room/files/folder"
cd "$room/files" || exit 1
for hex in "$top"/tests/vectors/*.hex "$top"/tests/vectors/version2/*.hex; do
    tr -d '[:space:]' < "$hex" | tr a-f A-F | basenc --base16 -d > "$(basename "$hex" .hex)" || exit 1
done
printf "$(seq 0 299 | awk '{ printf "\\%03o", $1 % 256 }')" > ramp
printf abcde > abcde
printf abc > abc
printf ab > ab
printf a-x > dash
printf 'a\303\251' > accent
printf '\377' > highest
: > nothing
yes abcdefg | head -c 10000 > long
cp long long_twin
printf b >> long_twin
yes abcdefg | head -c 3000000 > large
printf 'abc d' > 'a file'
truncate -s 549755813888 half || exit 1
truncate -s 1099511627776 too_long || exit 1
printf 'new\n\n# the fox\ninsert 0 0 "abc" # revision 1\r\n' > script_of_abc
printf 'new\ninsert 0 0 "the fox"\nreplace 1 4 3 "\\x64\\x6fg"\nmany 2 0 0 "A\\n" 3 1 "_"\ncut 3 2 3' > script
printf 'open 0\njoin 0 0\npaste 1 1 0 0 2\nfill 2 0 45 3\nback 3\nbalance 4\ndelete 5 0 1' > script_over_a_source
printf 'new\ninsert 0 0 abc\n' > script_without_quotes
printf 'new\n\ninsert 0 1 "x"\n' > script_past_the_end
printf 'new\n\nback 7\n' > script_of_no_revision
printf 'new\ncut 0 1 2\n' > script_of_long_cuts
printf '# one more byte\ninsert 1 3 "d"\n' > script_of_d
printf 'new\ninsert 0 0 "a"\ninsert 1 1 "b"\n' > script_of_a_and_b
printf 'the image that was there is kept as %s/over.saved-1\n' "$(pwd -P)" > over_is_kept
sixty=$(yes a | head -n 60 | tr -d '\n')
printf 'new\ninsert 0 0 "%sb"\n' "$sixty" > script_of_61
printf 'new # 0: 0 bytes, depth 0, 0 rows\ninsert 0 0 "%s"... # 1: 61 bytes, depth 0, balanced, 1 rows\n' "$sixty" > brief_log
printf 'open 0\nopen 1\n' > script_of_two_sources
printf 'open 0 # 0: 3 bytes, depth 0, balanced, 1 rows\nopen 1 # 1: 2 bytes, depth 0, balanced, 1 rows\n' > log_of_two_sources
printf 'abcdefg abcdefg abcdefg a' > weeks
printf aaaaaaaa > eight
printf 'new\nfill 0 0 0 1099511627776\n' > script_too_long
# every command; the same two lines in other ways; what bytes may be; numbers; commands that are refused; as many bytes and changes as there may be
cat > every_command << 'SCRIPT'
new                            # 0, and its text
open 0                         # 1  abc
insert 1 1 "XY"                # 2  aXYbc
delete 2 0 2                   # 3  Ybc
replace 3 1 1 "--"             # 4  Y--c
paste 4 4 2 1 2                # 5  Y--cXY
join 5 1                       # 6  Y--cXYabc
cut 6 3 4                      # 7  cXYa
fill 7 4 33 3                  # 8  cXYa!!!
back 2                         # 9  aXYbc
balance 8                      # 10 cXYa!!!
many 10 0 1 "" 1 0 "<" 3 2 ">" # 11 <XY>!!
SCRIPT
printf 'new\r\ninsert 0 0 "abc"\r\n' > abc_with_returns
printf 'new\ninsert 0 0 "abc"' > abc_without_end
printf 'new#"\n#\n\t\r\ninsert 0 0 "abc"#"d' > abc_with_comments
printf '\t\r new \n  insert\t0 \t 0\r"abc" \t\n\n' > abc_with_blanks
printf 'new\ninsert 0000000000000000000000000000000 00 "abc"' > abc_with_zeros
printf 'new\ninsert 0 0 "\\x61b\\x63"' > abc_by_digits
printf 'new\ninsert 0 0 "\\t\\r\\\\\\"\\n\\x4a\\x4A\\xfF\\x00"' > script_of_escapes
printf 'new\ninsert 0 0 "\t\303\251\200\377 #"' > script_of_high_bytes
lines_that_are_none() {
    cat << 'LINES'
quotes_without_end;insert 0 0 "abc;the quotes of word 4 are not closed
quotes_of_an_escape;insert 0 0 "abc\";the quotes of word 4 are not closed
quotes_and_more;insert 0 0 "a"bc;bc stands right behind the quotes of word 4
quotes_behind_a_number;insert 0 0"abc";word 3 (0"abc") is no number
letter_behind_a_backslash;insert 0 0 "\a";word 4 has \\a, which is no escape
one_digit;insert 0 0 "\x4";word 4 has \\x without two hex digits
no_digit;insert 0 0 "\x4g";word 4 has \\x without two hex digits
no_number;insert 0 x "abc";word 3 (x) is no number
no_bytes_in_quotes;insert 0 0;word 4, bytes in quotes, is missing
bytes_without_quotes;replace 0 0 0 abc;word 5 (abc) is not in quotes
number_in_quotes;insert 0 "0" "abc";word 3 ("0") is no number
word_too_many;insert 0 0 "abc" 0;word 5 (0) is one too many
word_of_more_than_40_letters;new aaaaaaaaaabbbbbbbbbbccccccccccdddddddddde;word 2 (aaaaaaaaaabbbbbbbbbbccccccccccdddddddddd...) is one too many
number_in_a_comment;delete 0 0 # 0;word 4, a number, is missing
name_too_long;news;there is no command news
large_letters;NEW;there is no command NEW
sign;back -0;word 2 (-0) is no number
plus;back +0;word 2 (+0) is no number
fraction;back 0.0;word 2 (0.0) is no number
comma;join 0,0;word 2 (0,0) is no number
number_of_2_64;cut 0 0 18446744073709551616;word 4 (18446744073709551616) is more than 18446744073709551615
revision_of_2_32;back 4294967296;word 2 (4294967296) is more than 4294967295
source_of_2_32;open 4294967296;word 2 (4294967296) is more than 4294967295
byte_of_256;fill 0 0 256 1;word 4 (256) is more than 255
change_without_bytes;many 0 0 0;word 5, bytes in quotes, is missing
change_of_two_numbers;many 0 0 0 "a" 1 0;word 8, bytes in quotes, is missing
LINES
    printf 'return_in_quotes;insert 0 0 "a\rb";word 4 has a byte that is to be written \\\\x0d\n'
    printf 'delete_in_quotes;insert 0 0 "\177";word 4 has a byte that is to be written \\\\x7f\n'
    printf 'blank_that_is_none;new\013;there is no command new\\\\x0b\n'
    printf 'bytes_of_no_text;new "\377\200";word 2 ("\357\277\275\357\277\275") is one too many\n'
}
commands_that_are_refused() {
    cat << 'LINES'
E1;the_next_revision;back 1
E1;a_revision_of_2_32_less_1;back 4294967295
E1;a_second_revision;join 0 1
E1;all_that_can_be;many 1
E9;no_change;many 0
E2;a_source;open 0
E3;a_place_of_2_64_less_1;insert 0 18446744073709551615 ""
E3;a_sum_past_2_64;delete 0 1 18446744073709551615
E3;a_part_of_what_is_pasted;paste 0 0 0 0 1
E3;a_part_of_what_is_cut;cut 0 1 0
E3;a_change_at_a_place_twice;many 0 0 0 "a" 0 0 "b"
E3;a_change_past_the_end;many 0 0 1 "a"
E4;no_bytes;insert 0 0 ""
E4;no_bytes_in_place_of_none;replace 0 0 0 ""
E4;a_change_of_nothing;many 0 0 0 ""
E7(N1);a_fill;fill 0 0 0 18446744073709551615
LINES
}
lines_that_are_none | while IFS=';' read -r name line _; do printf 'new\n%s\nback 9' "$line" > "none_$name"; done
commands_that_are_refused | while IFS=';' read -r _ name line; do printf '# a comment\nnew\n%s\nnone' "$line" > "refused_$name"; done
yes a | head -n 65536 | tr -d '\n' > most_bytes
{ printf 'new\ninsert 0 0 "' && cat most_bytes && printf '"'; } > script_of_most_bytes
{ printf 'new\ninsert 0 0 "' && cat most_bytes && printf 'a"'; } > script_of_more_bytes
{ printf 'new\ninsert 0 0 "x"\nreplace 1 0 1 "' && cat most_bytes && printf 'a"'; } > script_of_a_long_replacement
{ printf 'new\ninsert 0 0 "x"\nmany 1 0 0 "a" 1 0 "' && cat most_bytes && printf 'a"'; } > script_of_a_long_change
changes() { printf '\nmany 1' && seq 0 "$1" | awk '{ printf " %d 1 \"b\"", $1 * 2 }'; }
{ cat script_of_most_bytes && changes 4095; } > script_of_most_changes
{ cat script_of_most_bytes && changes 4096; } > script_of_more_changes
{ yes ba | head -n 4096 | tr -d '\n' && tail -c 57344 most_bytes; } > most_changes
{ printf 'new\ninsert 0 0 "' && head -c 800 most_bytes && printf '"' && changes 399; } > script_of_changes
"$program" apply script_of_changes > second_bytes
seq 0 399 | awk '{ printf "%d 1 2 %d many 1 \"b\"\n%d 1 1 %d insert 0 0 \"a\"\n", 2 * $1, 2 * $1, 2 * $1 + 1, 2 * $1 + 1 }' > second_bytes_blamed
# One text gone back to from revision to revision: a walk that goes through all records before each text anew takes more than a minute.
seq 1 500000 | awk 'BEGIN { print "new\ninsert 0 0 \"ab\"" } { print "back " $1 }' > script_of_backs
"$program" apply script_of_backs > gone_back
printf 'open 0\njoin 0 0\n' > script_of_a_double
seq 0 4999 | awk 'BEGIN { print "new" } { print "insert " $1 " 0 \"x\"" }' > script_of_5000
{ printf 'CORDSESS\0\0\0\2' && head -c 28 /dev/zero; } > no_revisions_in_two
printf 'ab\025c\030' > keys_saved
printf 'ab\025c\003' > keys_left
printf '\016\006\003' > keys_moved
printf 'ab\025c' > keys_ended
printf '\030' > key_save
printf '\025\003' > key_undo
printf x > key_x
printf 'new\nfill 0 0 0 2147483648' > script_of_2_31
printf 'new\nfill 0 0 0 2147483647' > script_of_less_than_2_31
# frames over an image whose last text is abc: of those keys, of Undo, and of no key over what those keys gave; and over as long a text as there may be
frame() { printf '\033[2J\033[H%s\r\n' "$1" && yes "$(printf '\r')" | head -n 22 && printf '%s\033[1;%dH' "$2" "$3"; }
frame aacbc 'rev 5 byte 3 of 5' 4 > last_frame_onto
{ frame abc 'rev 1 byte 0 of 3' 1 && frame aabc 'rev 2 byte 1 of 4' 2 && frame ababc 'rev 3 byte 2 of 5' 3 && frame aabc 'rev 4 byte 2 of 4' 3; } > frames_onto
cat last_frame_onto >> frames_onto
{ frame abc 'rev 1 byte 0 of 3' 1 && frame '' 'rev 2 byte 0 of 0' 1; } > frames_of_undo
frame aacbc 'rev 5 byte 0 of 5' 1 > first_frame_onto
of_zeros=$(yes '?' | head -n 80 | tr -d '\n')
{ frame "$of_zeros" 'rev 1 byte 0 of 2147483647' 1 && frame "$of_zeros" 'rev 1 byte 0 of 2147483647 K1' 1; } > frames_of_zeros
awk 'BEGIN { RS = "\033\\[2J" } { last = $0 } END { printf "\033[2J%s", last }' "$top/tests/data/edit.txt" > last_frame
# the insertion of abc with a pool of 1,048,576 bytes, which begins with abc; the same a byte shorter, longer, and with a row of bytes
{ head -c 32 one_insert && printf '\0\0\0\0\0\020\0\0' && tail -c +41 one_insert && head -c 1048573 /dev/zero; } > long_pool
head -c -1 long_pool > long_pool_short
{ cat long_pool && printf x; } > long_pool_more
{ head -c 184 long_pool && printf '\003' && tail -c +186 long_pool; } > long_pool_bytes
# images and their twins in version 2; a header alone whose version is 3; a terabyte of zeros behind an image
for image in one_insert new_alone one_source bytes_row_over_a_source; do
    { head -c 11 "$image" && printf '\002' && tail -c +13 "$image"; } > "${image}_in_two" || exit 1
done
{ head -c 11 one_insert && printf '\003' && tail -c +13 one_insert | head -c 28; } > header_in_three
# what is kept of keys over an image, and over one with a file: a header with a digest of both, and then the keys
digest() { cat "$@" | sha256sum | head -c 64 | tr a-f A-F | basenc --base16 -d; }
{ printf 'CORDKEYS\0\0\0\2\0\0\0\0\0\0\0\0\0\0\0\0' && digest one_insert_in_two && printf 'ab\025c'; } > keys_onto_one_insert
{ printf 'CORDKEYS\0\0\0\2\0\0\0\1\0\0\0\0\0\0\0\3' && digest one_source abc && printf 'ab\025c'; } > keys_onto_one_source
cp one_insert too_much
truncate -s 1099511627776 too_much || exit 1
mkfifo pipe pipe_of_a_script || exit 1
cat one_insert > pipe &
writer=$!
cat script_without_quotes > pipe_of_a_script &
script_writer=$!
# a file of keys that another one has, where there is flock
: > keys_in_use
holder=$writer
if command -v flock > /dev/null; then
    (flock 9 && exec sleep 600) 9> keys_in_use > /dev/null 2>&1 &
    holder=$!
fi
trap 'kill "$writer" "$script_writer" "$holder" 2> /dev/null; rm -rf "$room"' EXIT

# What the program has to write: the text of a file of tests/data, or of a file of the cases behind an @, or what printf makes of the
# column.
expected() {
    case $1 in
    *.txt) cat "$top/tests/data/$1" ;;
    @*) cat "${1#@}" ;;
    *) printf '%b' "$1" ;;
    esac
}

# Whether what was written, to standard output and to standard error, is what was expected.
is_expected() {
    set -- $(sha256sum ../out ../expected_out ../err ../expected_err)
    [ "$1 $5" = "$3 $7" ]
}

# A case: its name; the words, as a shell reads them; the file that is standard input, if any; the status; what goes to standard
# output, or /dev/full where that is what it goes to; what goes to standard error.
passed=0
failed=0
try() {
    name=$1 words=$2 input=$3 status=$4 out=$5 err=$6
    eval "set -- $words"
    got=0
    if [ "$out" = /dev/full ]; then
        : > ../out
        out=
        timeout 60 "$program" "$@" < "${input:-/dev/null}" > /dev/full 2> ../err || got=$?
    else
        timeout 60 "$program" "$@" < "${input:-/dev/null}" > ../out 2> ../err || got=$?
    fi
    expected "$out" > ../expected_out
    expected "$err" > ../expected_err
    if [ "$got" = "$status" ] && is_expected; then
        passed=$((passed + 1))
    else
        failed=$((failed + 1))
        echo "FAILED: $name: status $got for $status, and it wrote:"
        cat ../out ../err
        echo
    fi
}

# The same image from a file and from standard input.
try_both() {
    try "$1" "check $2" "" "$3" "$4\n" ""
    try "$1, as standard input" "" "$2" "$3" "$4\n" ""
}

# The image $1 with the bytes that $3 spells in hex in place of those from place $2 on, as the file `changed`.
change() {
    { head -c "$2" "$1" && printf %s "$3" | basenc --base16 -d && tail -c "+$(($2 + ${#3} / 2 + 1))" "$1"; } > changed
}

# Every worked image: its name, the file that is its source, if any, the status, and the line.
try_worked_images() {
    answered=0
    while IFS=';' read -r image source status line; do
        if [ -n "$source" ]; then
            try "the worked image $image" "check $image $source" "" "$status" "$line\n" ""
        else
            try_both "the worked image $image" "$image" "$status" "$line"
        fi
        answered=$((answered + 1))
    done < "$1/answers"
    if [ "$answered" != "$(ls "$1"/*.hex | wc -l)" ]; then
        failed=$((failed + 1))
        echo "FAILED: $answered answers for another number of worked images"
    fi
}

# Each shorter prefix of an image ends too early.
try_prefixes() {
    size=$(wc -c < "$1")
    count=0
    while [ "$count" -lt "$size" ]; do
        head -c "$count" "$1" > changed
        try "the first $count bytes of $1" "check changed" "" 1 "refused C1(I1)\n" ""
        count=$((count + 1))
    done
}

# The bytes of one insertion that are for later use, from one place to another: set to 1, each is refused.
try_unused_bytes() {
    while read -r place last; do
        while [ "$place" -le "$last" ]; do
            change one_insert "$place" 01
            try "an image whose unused byte $place is set" "check changed" "" 1 "refused C1(I6)\n" ""
            place=$((place + 1))
        done
    done << 'PLACES'
28 31
42 47
64 71
74 75
80 119
124 127
130 131
140 143
152 159
180 183
185 191
200 207
PLACES
}

# Worked images of which some bytes are others: the case, the image, the place, the bytes there in hex, and the line.
try_changed_images() {
    while IFS=';' read -r name image place bytes line; do
        change "$image" "$place" "$bytes"
        try_both "$name" changed 1 "$line"
    done << 'CHANGES'
more nodes than there may be;one_insert;16;01000001;refused C1(I5)
more revisions than are there;one_insert;20;00000003;refused C1(I1)
more rows than are there;one_insert;24;00000002;refused C1(I1)
a revision of more rows than the header has;one_insert;179;02;refused C1(I5)
as many splices as there may be, which are not there;many_replacements;28;01000000;refused C1(I1)
more splices than there may be;many_replacements;28;01000001;refused C1(I5)
no replacement, in version 1;many_of_no_splices;11;01;refused C1(I7)
more replacements than splices;many_replacements;420;00001001;refused C1(I5)
a replacement past every text;many_replacements;464;FFFFFFFFFFFFFFFF;refused C8(2)
a replacement of more than any text has;many_replacements;472;FFFFFFFFFFFFFFFF;refused C8(2)
replacements in their own text;many_replacements;416;00000002;refused C8(2)
replacements with a place outside their splices;many_replacements;431;01;refused C1(I6)
replacements with a length outside their splices;many_replacements;439;01;refused C1(I6)
replacements with a place of the pool outside their splices;many_replacements;447;01;refused C1(I6)
replacements with a number of bytes outside their splices;many_replacements;455;01;refused C1(I6)
a replacement that makes a text of 2^40 bytes;many_to_the_limit;351;00;refused C8(2)
CHANGES
}

# Lines that are no command, and commands that are refused, each behind a revision of no text.
try_scripts() {
    lines_that_are_none > ../lines
    while IFS=';' read -r script _ reason; do
        try "a line of a script with $script" "apply --explain none_$script" "" 1 "" \
            "refused P(2)\nP(2): line 2 of none_$script is no command: $reason\n"
    done < ../lines
    commands_that_are_refused > ../lines
    while IFS=';' read -r code script _; do
        case $code in
        *')') told="${code%')'},3)" ;;
        *) told="$code(3)" ;;
        esac
        try "a refused command of $script" "apply refused_$script" "" 1 "" "refused $told\n"
    done < ../lines
}

# A case that is no run of its own: its name, what was found, and what was to be.
is() {
    if [ "$2" = "$3" ]; then
        passed=$((passed + 1))
    else
        failed=$((failed + 1))
        echo "FAILED: $1: $2 for $3"
    fi
}

# The line of a source, of a digest of these files.
line_over() {
    size=$(wc -c < "$1") && [ $# = 1 ] || shift
    echo "$(cat "$@" | sha256sum | head -c 64) $size"
}

# What is told of a file that is not the one of an image.
changed() {
    printf '%s\\n' "$1 is not the file that $2 was made from: its digest is not the one in $2.sources. cordedit --copy keeps a copy of the file beside the image"
}

# What a commit tells of a text that was not committed from its file: of which revision, image, file and sources.
other() {
    printf '%s\\n' "revision $1 of $2 was not committed from $3: what it had and $3 has not is taken out, and cordkit show $2 $1${4:+ $4} still gives it"
}

# Digests of sources beside an image: who writes them, and who tells that a source has other bytes.
try_sources() {
    printf abd > abd
    frame abd 'rev 0 byte 0 of 3' 1 > frame_of_abd
    one='accepted 1 revisions 1 nodes 1 rows\n'
    try 'a session over a file' 'edit made abc' key_save 0 edit_abc.txt ''
    is 'its digest beside it' "$(cat made.sources)" "$(line_over abc)"
    printf 'open 0\n' > script_of_a_file
    "$program" apply script_of_a_file abc | cmp -s - made
    is 'and not in it' "$?" 0
    try 'the file as it was' 'check made abc' '' 0 "$one" ''
    try 'a file of other bytes is checked' 'check made abd' '' 0 "$one" "$(changed abd made)"
    try 'a file of other bytes is shown' 'show made 0 abd' '' 0 abd "$(changed abd made)"
    try 'a file of other bytes is gone on with' 'edit --onto made made abd' key_save 0 @frame_of_abd "$(changed abd made)"
    is 'it is told again: the digest stays' "$(cat made.sources)" "$(line_over abc)"
    try 'and by kept keys' 'edit --onto=made --keep=made.keys made abd' nothing 0 @frame_of_abd "$(changed abd made)"
    try 'a session from a session' 'edit --onto made from_made abd' key_save 0 @frame_of_abd "$(changed abd made)"
    is 'has the digest of that' "$(cat from_made.sources)" "$(line_over abc)"
    try 'a log reads no bytes of a file' 'log made abd' '' 0 'open 0 # 0: 3 bytes, depth 0, balanced, 1 rows\n' ''
    try 'a file of another length' 'check made ab' '' 1 'refused C3(0)\n' ''
    try 'a file that is not there' 'check made missing' '' 3 '' 'read\n'
    mkfifo abd_pipe
    cat abd > abd_pipe &
    try 'a file by a pipe' 'check made abd_pipe' '' 0 "$one" ''
    wait $!
    escape=$(printf 'a\033b')
    cp abd "$escape"
    try 'a name with a control character' 'check made "$escape"' '' 0 "$one" "$(changed 'a?b' made)"
    ln -s made link_of_made
    try 'an image by a link' 'check link_of_made abd' '' 0 "$one" "$(changed abd link_of_made)"
    mv made.sources kept.sources
    try 'no digests' 'check made abd' '' 0 "$one" ''
    try 'and none to go on with' 'edit --onto made unsaved abd' nothing 0 @frame_of_abd ''
    mkfifo made.sources
    try 'a pipe in their place' 'check made abd' '' 0 "$one" ''
    rm made.sources
    printf 'a list\n' > made.sources
    try 'a text in their place' 'show made 0 abd' '' 0 abd ''
    try 'which stays' 'edit made abc' key_save 0 edit_abc.txt "$PWD/made.sources could not be written\n"
    is 'as it was' "$(cat made.sources)" 'a list'
    { head -c 63 kept.sources && tail -c 3 kept.sources; } > made.sources
    try 'a damaged line' 'check made abd' '' 0 "$one" ''
    truncate -s 549755813888 made.sources
    try 'half a terabyte in their place' 'check made abd' '' 0 "$one" ''
    : > made.sources
    try 'nothing in their place' 'check made abd' '' 0 "$one" ''
    try 'a commit over a file' 'commit made ab abc' '' 0 'committed 1\n' "$(other 0 made ab abc)"
    is 'its digest is written' "$(cat made.sources)" "$(line_over abc)"
    try 'a commit over a file of other bytes' 'commit made abcde abd' '' 0 'committed 2\n' "$(changed abd made)$(other 1 made abcde abd)"
    is 'and stays' "$(cat made.sources) $(ls made*)" "$(line_over abc) $(printf 'made\nmade.committed\nmade.sources')"
    rm made.sources
    try 'the same text' 'commit made abcde abc' '' 0 'same 2\n' ''
    is 'writes nothing' "$(ls made*)" "$(printf 'made\nmade.committed')"
    printf 'open 0\nopen 1\n' > script_of_two_files
    "$program" apply script_of_two_files ab abc > made
    try 'a commit over two files' 'commit made abcde ab abc' '' 0 'committed 2\n' "$(other 1 made abcde 'ab abc')"
    is 'a line of each' "$(cat made.sources)" "$(line_over ab && line_over abc)"
    try 'the second has other bytes' 'check made ab abd' '' 0 "$("$program" check made ab abc)\n" "$(changed abd made)"
    rm made made.committed made.sources
    try 'a session over no file' 'edit made' key_save 0 "$("$program" edit unsaved < /dev/null)" ''
    is 'has no digests' "$(ls made*)" made
    rm made
    (umask 077 && cp abc abc_of_its_owner && "$program" edit made abc_of_its_owner < key_save > ../frames)
    is 'a session of its owner alone' "$(stat -c %a made made.sources)" "$(printf '600\n600')"
    try 'an image that is no file' 'edit /dev/null abc' key_save 0 edit_abc.txt ''
    is 'has none beside it' "$(ls /dev/null.sources 2> /dev/null)" ''
    truncate -s 20000000 of_20000000
    head -c 1048576 of_20000000 > one_end
    { head -c 2000000 of_20000000 && printf x && head -c 17999999 of_20000000; } > byte_between
    { head -c 19000000 of_20000000 && printf x && head -c 999999 of_20000000; } > byte_at_the_end
    frame "$of_zeros" 'rev 0 byte 0 of 20000000' 1 > frame_of_large
    rm made made.sources
    try 'a session over a large file' 'edit made of_20000000' key_save 0 @frame_of_large ''
    is 'no digest where no keys are kept' "$(cat made.sources)" -
    try 'is checked with any file' 'check made byte_between' '' 0 "$one" ''
    rm made made.sources
    try 'one whose keys are kept' 'edit --keep=made.keys made of_20000000' key_save 0 @frame_of_large ''
    is 'the digest of its ends' "$(cat made.sources)" "$(line_over of_20000000 one_end one_end)"
    try 'another byte at an end' 'check made byte_at_the_end' '' 0 "$one" "$(changed byte_at_the_end made)"
    try 'another byte between them' 'check made byte_between' '' 0 "$one" ''
}

# The file of the last commit beside an image: who writes it, and when a commit tells that the last text came from elsewhere.
try_last_commits() {
    rm -f made made.*
    unwritten="$(pwd -P)/made.committed could not be written\\n"
    cp abc note && try 'a first commit tells nothing' 'commit made note' '' 0 'committed 1\n' ''
    is 'its file stands beside the image' "$(cat made.committed)" "$(stat -c %s made) note"
    cp abcde note && try 'nor does the next one' 'commit made note' '' 0 'committed 2\n' ''
    is 'of the image as it is now' "$(cat made.committed)" "$(stat -c %s made) note"
    printf 'insert 2 0 "typed"\n' > script_behind && "$program" apply --onto made script_behind > further && cp further made
    try 'a text that a script made is taken out' 'commit made note' '' 0 'committed 4\n' "$(other 3 made note)"
    try 'and shown still' 'show made 3' '' 0 typedabcde ''
    try 'a file of another name' 'commit made abc' '' 0 'committed 5\n' "$(other 4 made abc)"
    ln -s abc note_too && try 'a link to a file of that name' 'commit made note_too' '' 0 'same 5\n' ''
    try 'a text that was the last one is restored' 'restore made last note' '' 0 'committed 6\n' ''
    cp ab note && try 'and gone on from' 'commit made note' '' 0 'committed 7\n' ''
    printf 'a list\n' > made.committed && cp abc note
    try 'something else stands there' 'commit made note' '' 0 'committed 8\n' "$(other 7 made note)$unwritten"
    is 'and stays' "$(cat made.committed) $(ls made*)" "$(printf 'a list made\nmade.committed')"
    rm made.committed && cp ab note && try 'nothing stands there' 'commit made note' '' 0 'committed 9\n' "$(other 8 made note)"
    mkdir made.committed.new && cp abc note && try 'it cannot be written' 'commit made note' '' 0 'committed 10\n' "$unwritten"
    rmdir made.committed.new && cp ab note && try 'so that is told' 'commit made note' '' 0 'committed 11\n' "$(other 10 made note)"
    head -c 9 /dev/zero > made.committed && cp abc note && try 'a line that a loss of power emptied' 'commit made note' '' 0 'committed 12\n' "$(other 11 made note)"
    rm note && try 'a file that is gone gets the last text' 'restore made last note' '' 0 '' ''
    cp ab note && try 'and is gone on from' 'commit made note' '' 0 'committed 13\n' ''
    rm -f notes && try 'another file gets the last text' 'restore made last notes' '' 0 '' ''
    cp abc notes && try 'and is gone on from too' 'commit made notes' '' 0 'committed 14\n' ''
    mv notes note && rm made.committed && try 'the same text as before' 'commit made note' '' 0 'same 14\n' ''
    cp made.committed before && try 'an image that is replaced' 'edit made' key_save 0 "$("$program" edit unsaved < /dev/null)" \
        "the image that was there is kept as $(pwd -P)/made.saved-1\n"
    is 'has it by its other name' "$(ls made*)" "$(printf 'made\nmade.saved-1\nmade.saved-1.committed')"
    is 'as it was' "$(cat made.saved-1.committed)" "$(cat before)"
    rm -f made made.* note note_too further before
}

# The header of the lines that go on from an image with these files.
lines_over() {
    { printf 'CORDKEYS\0\0\0\2\0\0\0' && if [ $# = 2 ]; then printf '\1\0\0\0\0\0\0\0\3'; else printf '\0\0\0\0\0\0\0\0\0'; fi; } | od -An -tx1 | tr -d ' \n'
    cat "$@" | sha256sum | head -c 64
}

# Waits until a file has so many lines, for a minute at most.
await_lines() {
    tries=0
    until [ "$(wc -l < "$2")" = "$1" ] || [ "$tries" = 600 ]; do
        sleep 0.1
        tries=$((tries + 1))
    done
}

# A session that is served: requests and their answers, what is kept, what a save leaves, and who is refused meanwhile.
try_served() {
    printf 'new\ninsert 0 0 "abc"\n\n# a comment\nlast\nlength 1\nbytes 1 1 2\nfind 1 0 "c"\nfind 1 0 "x"\n' > requests
    printf 'bytes 1 2 2\nlength 2\ninsert 0 0 abc\ninsert 2 0 "a"\nsync\nlast 1\nquit\nnew\n' >> requests
    try 'requests and answers' 'serve served' requests 0 \
        '0 0\n1 3\nnone\nnone\n1 3\n1 3\n"bc"\n2\nnone\nrefused E3\nrefused E1\nrefused P\nrefused E1\nsynced 1\nrefused P\n' ''
    is 'the image is not saved' "$("$program" check served)" 'accepted 0 revisions 0 nodes 0 rows'
    is 'what is kept' "$(cat served.lines)" "# cordkit lines $(lines_over served)
new
insert 0 0 \"abc\""
    is 'for its owner alone' "$(stat -c %a served.lines)" 600
    "$program" apply --onto served served.lines > by_hand
    is 'and makes the session by hand' "$("$program" show by_hand)" abc
    for words in 'commit served abc' 'edit served' 'edit --keep=served.keys served' 'edit --onto=served --keep=served.keys served'; do
        try "while lines are kept: $words" "$words" key_save 1 '' 'refused J2\n'
    done
    try 'and in words' 'commit --explain served abc' '' 1 '' 'refused J2\nJ2: cordkit serve keeps the lines of a session in served.lines, and has not saved them\n'
    is 'and a second name of the image' "$(echo served*) $(stat -c %i served | grep -cFx -- "$(stat -c %i served.lines.over)")" 'served served.lines served.lines.over 1'
    printf 'insert 1 0 "' >> served.lines
    printf 'last\ninsert 1 3 "d"\nlast' > requests
    try 'a line that was cut, and a request that is' 'serve served' requests 0 '1 3\n2 4\n' ''
    is 'what is kept then' "$(tail -n +2 served.lines)" 'new
insert 0 0 "abc"
insert 1 3 "d"'
    ln -s served link_of_served
    printf 'save\ninsert 2 4 "e"\nsave\nsync\n' > requests
    try 'saves, by a link' 'serve link_of_served' requests 0 'saved 2\n3 5\nsaved 3\nsynced 3\n' ''
    is 'the image alone is left' "$(echo served*) $("$program" show served)" 'served abcde'
    printf 'last\nsave\nsync\n' > requests
    try 'no revision' 'serve served_anew' requests 0 'none\nsaved none\nsynced none\n' ''
    is 'an image all the same' "$("$program" check served_anew)" 'accepted 0 revisions 0 nodes 0 rows'
    printf 'new\n' > requests
    head -c 77 served.lines 2> /dev/null > served_anew.lines
    printf '# cordkit lines 434f52' > served_anew.lines
    try 'a header that was cut' 'serve served_anew' requests 0 '0 0\n' ''
    is 'is written to its end' "$(cat served_anew.lines)" "# cordkit lines $(lines_over served_anew)
new"
    mv served_anew.lines served.lines
    rm served_anew.lines.over
    try 'lines of another image' 'serve --explain served' requests 1 '' \
        'refused J1\nJ1: served.lines has the lines of another image or file, or something else\n'
    cp served served.lines.over
    try 'whose image has another name' 'serve --explain served' requests 1 '' \
        'refused J1\nJ1: served.lines has the lines of another image, which is kept as served.lines.over, or of another file\n'
    rm served.lines.over
    is 'stay' "$(tail -n +2 served.lines)" new
    { head -n 1 served.lines | head -c 16 && lines_over served && printf '\ninsert 3 0 "x"\nback 9\n'; } > further
    mv further served.lines
    try 'a kept line that is refused' 'serve --explain served' requests 1 '' 'refused E1(3)\nE1(3): line 3 of served.lines names a revision that is not there\n'
    is 'stays' "$(tail -n 1 served.lines)" 'back 9'
    mv served.lines served.lines.saved
    try 'lines that are set aside' 'commit served abc' '' 1 '' 'refused J2\n'
    try 'and a file to restore' 'restore served 0 abc' '' 1 '' 'refused J2\n'
    sed -i '$d' served.lines.saved
    printf 'last\n' > requests
    try 'are taken up where the image is the older one' 'serve served' requests 0 '4 6\n' ''
    is 'by their name' "$(echo served.*)" 'served.lines served.lines.over'
    mv served.lines served.lines.saved
    "$program" apply --onto served served.lines.saved > further
    mv further served
    cp served served.new
    try 'stay where the new image is not in its place' 'serve served' requests 1 '' 'refused J1\n'
    rm served.new
    try 'and dropped where it has them' 'serve served' requests 0 '4 6\n' ''
    is 'with their name' "$(echo served*)" 'served served_anew'
    : > answers
    { printf 'insert 4 0 "y"\nlast\n' && await_lines 2 answers && rm served.lines && printf 'sync\nsave\nlast\nsync\n'; } | "$program" serve served > answers
    is 'a journal that is taken away' "$(cat answers) $(echo served*) $("$program" show served | wc -c)" '5 7
5 7
refused J5
saved 5
5 7
synced 5 served served_anew 7'
    : > answers
    { printf 'last\n' && await_lines 1 answers && chmod 640 served && printf 'back 5\nsave\n'; } | "$program" serve served > answers
    is 'an image that gets another mode' "$(cat answers) $(echo served*) $(stat -c %a served)" '5 7
6 7
saved 6 served served_anew 640'
    { printf 'CORDKEYS' && head -c 48 /dev/zero && printf a; } > served.keys
    try 'keys beside the image' 'serve --explain served' requests 1 '' 'refused J2\nJ2: a session keeps its keys in served.keys, and has not saved them\n'
    truncate -s 56 served.keys
    try 'no keys beside the image' 'serve served' requests 0 '6 7\n' ''
    printf 'open 0\nlast\ninsert 0 3 "d"\nbytes 1 1 3\nfind 1 1 "cd"\nsave\n' > requests
    try 'over a file' 'serve served_over abc' requests 0 '0 3\n0 3\n1 4\n"bcd"\n2\nsaved 1\n' ''
    is 'its digest beside the image' "$(echo served_over*) $(cat served_over.sources)" "served_over served_over.sources $(line_over abc)"
    printf 'insert 1 0 "a"\n' > requests
    try 'it goes on' 'serve served_over abc' requests 0 '2 5\n' ''
    is 'over the file too' "$(cat served_over.lines)" "# cordkit lines $(lines_over served_over abc)
insert 1 0 \"a\""
    printf abd > abd
    try 'over a file of other bytes' 'serve served_over abd' requests 1 '' "$(changed abd served_over)refused J1\n"
    try 'over a file of another length' 'serve --explain served_over ab' requests 1 '' \
        'refused C3(0)\nC3(0): source 0, ab, has 2 bytes, and the image was made over 3\n'
    try 'without its file' 'serve served_over' requests 1 '' 'refused C2\n'
    try 'an image that is refused' 'serve child_not_earlier' requests 1 '' 'refused C4(1)\n'
    try 'a look more than the limit' "serve --at-most=136 $(cp one_insert served_one && echo served_one)" requests 1 '' 'refused looks 137\n'
    is 'nothing is kept' "$(echo served_one* child_not_earlier.*)" 'served_one child_not_earlier.*'
    try 'as many looks as the limit' 'serve --at-most=137 served_one' nothing 0 '' ''
    try 'a folder as an image' 'serve folder' requests 3 '' 'read\n'
    is 'neither there' "$(echo folder.*)" 'folder.*'
    try 'what is no image' 'serve abcde' requests 1 '' 'refused C1(I1)\n'
    try 'a device as an image' 'serve /dev/null' requests 3 '' 'write\n'
    try 'a folder that is not there' 'serve --explain missing/image' requests 3 '' 'write\nwrite: missing/image.lines could not be written: its folder is not there\n'
    try 'answers on a full device' 'serve served_one' requests 3 /dev/full 'write\n'
    is 'are kept before' "$(tail -n +2 served_one.lines)" 'insert 1 0 "a"'
    try 'a folder as requests' 'serve served_anew' folder 3 '' 'read\n'
    if command -v flock > /dev/null; then
        : > served.lines
        flock served.lines sleep 5 &
        sleep 0.5
        for words in 'serve served' 'commit served abc' 'edit served' 'edit --keep=served.keys served'; do
            try "lines that another run has: $words" "$words" requests 1 '' 'refused J2\n'
        done
        wait $!
    else
        echo "LEFT OUT: lines that another run has: there is no flock here"
    fi
    rm -f served served.* served_* link_of_served by_hand requests further answers
}

# What is longer than a pipe holds, into one whose reader goes.
try_closed_pipe() {
    { timeout 60 "$program" "$2" --explain "$3" 2> ../err; echo $? > ../status; } | head -c 1 > ../out
    if [ "$(cat ../status) $(cat ../err)" = "3 write
write: standard output could not be written: it is a pipe that nobody reads any more" ]; then
        passed=$((passed + 1))
    else
        failed=$((failed + 1))
        echo "FAILED: $1: status $(cat ../status) for 3, and it wrote $(cat ../err)"
    fi
}

# A case as above, of whose standard descriptors these are a terminal: the name, the descriptors, the words, standard input, the status, and what goes
# to standard output and to the terminal.
try_on_terminal() {
    name=$1 descriptors=$2 words=$3 input=$4 status=$5
    eval "set -- \"\$6\" \"\$7\" $words"
    expected "$1" > ../expected_out
    expected "$2" > ../expected_err
    shift 2
    got=0
    timeout 60 python3 "$top/tests/on_terminal.py" "$descriptors" "$program" "$@" < "${input:-/dev/null}" > ../out 2> ../err || got=$?
    if [ "$got" = "$status" ] && is_expected; then
        passed=$((passed + 1))
    else
        failed=$((failed + 1))
        echo "FAILED: $name: status $got for $status, and it wrote:"
        cat ../out ../err
        echo
    fi
}

# A file that fails is named unasked where standard error is a terminal, and nothing else is explained there.
try_terminals() {
    try_on_terminal 'an image that is not there, on a terminal' 2 'check missing' '' 3 '' 'read\nread: there is no file missing\n'
    try_on_terminal 'an image on a full device, on a terminal' 2 'commit /dev/full abc' '' 3 '' \
        'write\nwrite: /dev/full could not be written: its disk is full\n'
    try_on_terminal 'a commit in a folder that is not there, on a terminal' 2 'commit missing/image abc' '' 3 '' \
        'write\nwrite: missing/image could not be written: its folder is not there\n'
    try_on_terminal 'no word on a terminal' 02 '' '' 1 'refused C1(I1)\n' \
        'cordkit waits for an image on standard input; cordkit --help shows what else it does\n'
    try_on_terminal 'no word, and an image from a file' 2 '' one_insert 0 'accepted 2 revisions 1 nodes 1 rows\n' ''
    try_on_terminal 'a refusal on a terminal' 2 'log abcde' '' 1 '' 'refused C1(I1)\n'
    try_on_terminal 'an answer on a terminal' 2 'cmp ab abc' '' 1 'less\n' ''
}

# A file of 39,960 bytes in lines of so many is cut to 7,879 once the frame behind so many keys Down has come. The frame behind one more needs no byte past these:
# its place is in line 12 of the screen.
try_cut_file() {
    line=$(yes x | head -n $(($2 - 1)) | tr -d '\n')
    yes "$line" | head -c 39960 > cut_file
    rm -f key_pipe
    mkfifo key_pipe
    timeout 60 "$program" edit unsaved cut_file < key_pipe > ../frames 2> ../err &
    exec 3> key_pipe
    yes "$(printf '\016')" | head -n "$3" | tr -d '\n' >&3
    tries=0
    until grep -aq "byte $(($2 * $3)) of 39960" ../frames || [ "$tries" = 500 ]; do
        sleep 0.1
        tries=$((tries + 1))
    done
    truncate -s 7879 cut_file
    printf '\016' >&3
    exec 3>&-
    got=0
    wait $! || got=$?
    awk 'BEGIN { RS = "\033\\[2J" } { last = $0 } END { printf "%s", last }' ../frames > ../out
    {
        printf '\033[H'
        yes "$line" | head -n 23 | awk '{ printf "%s\r\n", $0 }'
        printf 'rev 0 byte %d of 39960\033[12;1H' $(($2 * ($3 + 1)))
    } > ../expected_out
    : > ../expected_err
    if [ "$got" = 0 ] && is_expected; then
        passed=$((passed + 1))
    else
        failed=$((failed + 1))
        echo "FAILED: $1: status $got for 0, and it wrote:"
        cat ../out ../err
        echo
    fi
}

# What `--version` writes: the version that CHANGELOG.md names first, and the toolchain that README.md says it was proved with.
try_version() {
    version=$(sed -n 's/^## \([0-9.]*\).*/\1/p' "$top/CHANGELOG.md" | head -n 1)
    kit=$(grep -o 'rattle-kit-[0-9a-z]* logic [0-9a-f]*' "$top/README.md" | head -n 1)
    try "the version is that of CHANGELOG.md, and the toolchain that of README.md" --version "" 0 "cordkit $version ($kit)\n" ""
    try "the version by its letter" -V "" 0 "cordkit $version ($kit)\n" ""
    try "the version on a full device" --version "" 3 /dev/full "write\n"
}

if [ "$cases" = all ]; then
    try_scripts
    try_closed_pipe 'an image into a closed pipe' apply script_of_5000
    try_terminals
    try_version
    try_sources
    try_last_commits
    try_served
    try_cut_file 'a file in lines of 60 that is cut behind a frame' 60 51
    try_cut_file 'a file in lines of 48 that is cut behind a frame' 48 64
    if command -v flock > /dev/null; then
        try "keys that another session keeps" "edit --explain --keep keys_in_use kept" keys_saved 1 "" "refused J2\nJ2: a session keeps its keys in keys_in_use, and has not saved them\n"
    else
        echo "LEFT OUT: keys that another session keeps: there is no flock here"
    fi
    try_worked_images "$top/tests/vectors"
    try_worked_images "$top/tests/vectors/version2"
    try_prefixes one_insert
    try_prefixes many_replacements
    try_unused_bytes
    try_changed_images
fi

# A row whose name begins with a star shows that bin/cordkit hands on the words, standard input, what is written, and the status.
while IFS=';' read -r name words input status out err; do
    [ -n "$name" ] || continue
    case $cases$name in
    all* | 'launcher* '*) ;;
    *) continue ;;
    esac
    try "$name" "$words" "$input" "$status" "$out" "$err"
done << 'TABLE'
an empty text is accepted;check new_alone;;0;accepted 1 revisions 0 nodes 0 rows\n;
* an insertion is accepted;check one_insert;;0;accepted 2 revisions 1 nodes 1 rows\n;
* no words check standard input;;one_insert;0;accepted 2 revisions 1 nodes 1 rows\n;
standard input without an image is refused;;nothing;1;refused C1(I1)\n;
* a text is no image;check abcde;;1;refused C1(I1)\n;
a byte more is refused;check one_byte_more;;1;refused C1(I2)\n;
a kind that is not known is refused;check unknown_node_kind;;1;refused C1(I7)\n;
a child that is not earlier is refused;check child_not_earlier;;1;refused C4(1)\n;
a length that is no sum is refused;check join_past_the_limit;;1;refused C5(2)\n;
a wrong depth is refused;check substring_depth_wrong;;1;refused C6(4)\n;
a mark on what is not balanced is refused;check chain_of_four_marked;;1;refused C10(1)\n;
the same without the mark is accepted;check chain_of_four_unmarked;;0;accepted 2 revisions 7 nodes 4 rows\n;
text that no row covers is refused;check text_left_uncovered;;1;refused C11(1,1)\n;
substrings are accepted to depth 64;check substrings_of_depth_64;;0;accepted 2 revisions 65 nodes 1 rows\n;
a source is accepted;check one_source abc;;0;accepted 1 revisions 0 nodes 0 rows\n;
a source of another length is refused;check one_source ab;;1;refused C3(0)\n;
a source that is not given is refused;check one_source;;1;refused C2\n;
* a length in the place of a source;check --length 3 one_source;;0;accepted 1 revisions 0 nodes 0 rows\n;
a length that a source had not;check --length=2 one_source;;1;refused C3(0)\n;
a length too many;check one_source --length 3 --length 3;;1;refused C2\n;
a length that no source has;check --length 1099511627776 one_source;;1;refused S5\n;
a length that is no number;check --length x one_source;;2;;error: invalid value 'x' for '<LENGTH>': invalid digit found in string\n\nUsage: cordkit check [OPTIONS] <IMAGE> [SOURCE]...\n\nFor more information, try '--help'.\n
no byte is made up where one is compared;check --length 3 bytes_row_over_a_source;;3;;read\n
nor where that is written anew;migrate --length 3 bytes_row_over_a_source;;3;;read\n
nor where it is logged;log --length 3 bytes_row_over_a_source;;3;;read\n
that is told in words;check --explain --length 3 bytes_row_over_a_source;;3;;read\nread: bytes of a source are wanted whose length alone is given: name the file of each\n
a length and a file;check --length 3 $("$program" apply script_of_two_sources abc ab > two_sources && echo two_sources) ab;;0;accepted 2 revisions 2 nodes 2 rows\n;
a file and a length;check two_sources abc --length 2;;0;accepted 2 revisions 2 nodes 2 rows\n;
two lengths;check two_sources --length 3 --length 2;;0;accepted 2 revisions 2 nodes 2 rows\n;
a length in the place of another source;check two_sources --length 2 abc;;1;refused C3(0)\n;
a script of lengths alone;log --length 3 --length 2 two_sources;;0;@log_of_two_sources;
an image of a length alone in version 2;migrate --length 3 one_source;;0;@one_source_in_two;
another length in words;check --explain --length 3 two_sources abc;;1;refused C3(1)\n;C3(1): source 1 of two_sources had 2 bytes when that was made, and has others now\n
a length too few in words;check --explain --length 3 two_sources;;1;refused C2\n;C2: the sources of two_sources are 2 in number, and 1 are given\n
a row of bytes over a source is accepted;check bytes_row_over_a_source abc;;0;accepted 1 revisions 1 nodes 1 rows\n;
a row that leads elsewhere is refused;check back_shared_elsewhere;;1;refused C11(2,0)\n;
a command past its text is refused;check insert_past_the_end;;1;refused C8(2)\n;
as many looks as the limit;check --at-most 137 one_insert;;0;accepted 2 revisions 1 nodes 1 rows\n;
a look more than the limit;check --at-most 136 one_insert;;1;refused looks 137\n;
a limit behind the image;check one_insert --at-most=136;;1;refused looks 137\n;
the largest limit;check --at-most 18446744073709551615 one_insert;;0;accepted 2 revisions 1 nodes 1 rows\n;
as many looks as the limit with bytes compared;check --at-most 531 bytes_row_over_a_source abc;;0;accepted 1 revisions 1 nodes 1 rows\n;
a look more than the limit with bytes compared;check --at-most 530 bytes_row_over_a_source abc;;1;refused looks 531\n;
a row of 4096 bytes and one of 1 are looked at;check --at-most 541072 bytes_row_of_the_limit;;1;refused looks 541073\n;
of a row of 4097 bytes 4096 are counted;check --at-most 540808 bytes_row_too_long;;1;refused looks 540809\n;
it is refused by its row within the limit;check --at-most 540809 bytes_row_too_long;;1;refused C11(1,0)\n;
the limit stands behind the bytes;check --at-most 0 abcde;;1;refused C1(I1)\n;
the limit stands behind the number of sources;check --at-most 0 one_source;;1;refused C2\n;
the limit stands behind the lengths of sources;check --at-most 0 one_source ab;;1;refused C3(0)\n;
the limit stands before the nodes;check --at-most 3 child_not_earlier;;1;refused looks 4\n;
a node is refused within the limit;check --at-most 4 child_not_earlier;;1;refused C4(1)\n;
the limit stands before the commands;check --at-most 0 insert_past_the_end;;1;refused looks 139\n;
256 sources are refused;check one_source $(yes abc | head -n 256);;1;refused S4\n;
* an image that is not there;check missing;;3;;read\n
a source that is not there;check one_source missing;;3;;read\n
an image by a pipe;check pipe;;0;accepted 2 revisions 1 nodes 1 rows\n;
an image that is standard input;check /dev/stdin;one_insert;0;accepted 2 revisions 1 nodes 1 rows\n;
an image that is a folder;check folder;;3;;read\n
zeros without end are no image;check /dev/zero;;1;refused C1(I3)\n;
a header alone is refused by its own fault;check header_in_three;;1;refused C1(I4)\n;
a terabyte behind an image is refused;check too_much;;1;refused C1(I2)\n;
standard input that is a folder;;folder;3;;read\n
* a line on a full device;check one_insert;;3;/dev/full;write\n
a revision is shown;show one_insert 1;;0;abc;
the text of New is shown;show one_insert 0;;0;;
the text of New alone is shown;show new_alone 0;;0;;
* a text of every byte is shown;show ramp_wraps 0 ramp;;0;@ramp;
a text before many replacements is shown;show many_replacements 1;;0;abcdef;
a text of many replacements is shown;show many_replacements 2;;0;aXdYZe;
a text of which many replacements leave nothing is shown;show many_deletes_all 2;;0;;
a substring of a substring is shown;show substring_of_substring 1;;0;cd;
a revision beside a source is shown;show one_source 0 abc;;0;;
a text of a source is shown;show bytes_row_over_a_source 0 abc;;0;abc;
an insertion in the middle is shown;show insert_in_three_rows 2;;0;acb;
a text taken back is shown;show back_shared 2;;0;abc;
all of a text deleted leaves none;show delete_all 2;;0;;
a revision that is not there;show one_insert 2;;1;;refused no revision\n
the largest number is no revision;show one_insert 18446744073709551615;;1;;refused no revision\n
a refused image is not shown;show child_not_earlier 0;;1;;refused C4(1)\n
a text is shown within the limit;show --at-most 137 one_insert 1;;0;abc;
a text is not shown past the limit;show --at-most 136 one_insert 1;;1;;refused looks 137\n
nor is that of a long pool;show --at-most 136 long_pool 1;;1;;refused looks 137\n
a text in a long pool is shown within the limit;show --at-most 137 long_pool 1;;0;abc;
an image is not shown beside a source too many;show one_insert 1 abc;;1;;refused C2\n
an image is not shown beside 256 sources;show one_insert 1 $(yes abc | head -n 256);;1;;refused S4\n
a text in a long pool is shown;show long_pool 1;;0;abc;
the text of New beside a long pool is shown;show long_pool 0;;0;;
a text in a long pool by a pipe is shown;show /dev/stdin 1;long_pool;0;abc;
a text in a long pool that a row compares is shown;show long_pool_bytes 1;;0;abc;
a revision that is not there beside a long pool;show long_pool 2;;1;;refused no revision\n
an image of a long pool that is cut short is not shown;show long_pool_short 1;;1;;refused C1(I1)\n
an image of a long pool and a byte more is not shown;show long_pool_more 1;;1;;refused C1(I2)\n
an image of a long pool is not shown beside a source too many;show long_pool 1 abc;;1;;refused C2\n
a text in a long pool on a full device;show long_pool 1;;3;/dev/full;write\n
an image to show that is not there;show missing 0;;3;;read\n
zeros without end are not shown;show /dev/zero 0;;1;;refused C1(I3)\n
a text on a full device;show one_insert 1;;3;/dev/full;write\n
an image is written in version 2;migrate one_insert;;0;@one_insert_in_two;
an image of version 2 is written as it is;migrate one_insert_in_two;;0;@one_insert_in_two;
the image of an empty text is written in version 2;migrate new_alone;;0;@new_alone_in_two;
an image over a source is written in version 2;migrate bytes_row_over_a_source abc;;0;@bytes_row_over_a_source_in_two;
what is so written is accepted;check bytes_row_over_a_source_in_two abc;;0;accepted 1 revisions 1 nodes 1 rows\n;
and its text is the same;show one_insert_in_two 1;;0;abc;
an image by a pipe is written in version 2;migrate /dev/stdin;one_insert;0;@one_insert_in_two;
a refused image is not written;migrate child_not_earlier;;1;;refused C4(1)\n
zeros without end are not written;migrate /dev/zero;;1;;refused C1(I3)\n
an image is not written beside a source too many;migrate one_insert abc;;1;;refused C2\n
an image is not written beside 256 sources;migrate one_insert $(yes abc | head -n 256);;1;;refused S4\n
an image to write that is not there;migrate missing;;3;;read\n
an image in version 2 on a full device;migrate one_insert;;3;/dev/full;write\n
a script makes the image of its session;apply script_of_abc;;0;@one_insert_in_two;
a script by a pipe does;apply /dev/stdin;script_of_abc;0;@one_insert_in_two;
a letter behind another is in its literal;apply script_of_a_and_b;;0;@literal_grown_in_place;
a text of a script is shown;show $("$program" apply script > applied && echo applied) 3;;0;A\nthe_dog;
the last text of a script is shown;show $("$program" apply script > applied && echo applied) 4;;0;the;
a text of a script over a source is shown;show $("$program" apply script_over_a_source abc > applied && echo applied) 6 abc;;0;--aabbcabc;
a line that is no command is told;apply script_without_quotes;;1;;refused P(2)\n
a refused command is told with its line;apply script_past_the_end;;1;;refused E3(3)\n
a command over a revision that is not there;apply script_of_no_revision;;1;;refused E1(3)\n
a text that is too long;apply script_too_long;;1;;refused E7(N1,2)\n
a script beside a source that is not there;apply script_of_abc missing;;3;;read\n
a script over a source that is not handed in;apply script_over_a_source;;1;;refused E2(1)\n
a script beside 256 sources;apply script_of_abc $(yes abc | head -n 256);;1;;refused S4\n
a script that is not there;apply missing;;3;;read\n
a script of 2^40 bytes;apply too_long;;1;;refused S5\n
every command, new;show $("$program" apply every_command abc > applied && echo applied) 0 abc;;0;;
every command, open;show applied 1 abc;;0;abc;
every command, insert;show applied 2 abc;;0;aXYbc;
every command, delete;show applied 3 abc;;0;Ybc;
every command, replace;show applied 4 abc;;0;Y--c;
every command, paste;show applied 5 abc;;0;Y--cXY;
every command, join;show applied 6 abc;;0;Y--cXYabc;
every command, cut;show applied 7 abc;;0;cXYa;
every command, fill;show applied 8 abc;;0;cXYa!!!;
every command, back;show applied 9 abc;;0;aXYbc;
every command, balance;show applied 10 abc;;0;cXYa!!!;
every command, many;show applied 11 abc;;0;<XY>!!;
lines of a script that end with a return;apply abc_with_returns;;0;@one_insert_in_two;
a last line without its end;apply abc_without_end;;0;@one_insert_in_two;
comments right behind words;apply abc_with_comments;;0;@one_insert_in_two;
blanks, tabs and returns between words;apply abc_with_blanks;;0;@one_insert_in_two;
numbers with zeros before them;apply abc_with_zeros;;0;@one_insert_in_two;
bytes by their digits;apply abc_by_digits;;0;@one_insert_in_two;
escapes;show $("$program" apply script_of_escapes > applied && echo applied) 1;;0;\t\r\\"\nJJ\0377\0000;
bytes of no ASCII, a tab and a sign in quotes;show $("$program" apply script_of_high_bytes > applied && echo applied) 1;;0;\t\0303\0251\0200\0377 #;
a script that says nothing;apply nothing;;0;@no_revisions_in_two;
as many bytes as a command takes;show $("$program" apply script_of_most_bytes > applied && echo applied) 1;;0;@most_bytes;
a byte more;apply script_of_more_bytes;;1;;refused E7(N1,2)\n
as many changes as a command takes;show $("$program" apply script_of_most_changes > applied && echo applied) 2;;0;@most_changes;
a change more;apply script_of_more_changes;;1;;refused E9(3)\n
a text of a source twice that is too long;apply script_of_a_double half;;1;;refused E7(N1,2)\n
a script that is a folder;apply folder;;3;;read\n
a script's image on a full device;apply script_of_abc;;3;/dev/full;write\n
a script goes on from an image;apply --onto one_insert script_of_d;;0;@two_inserts;
what is so written is accepted;check two_inserts;;0;accepted 3 revisions 3 nodes 3 rows\n;
its last text is what its command gives;show $("$program" apply --onto one_insert_in_two script_of_d > applied && echo applied) 2;;0;abcd;
a script that says nothing, behind an image of version 1;apply --onto one_insert nothing;;0;@one_insert_in_two;
a script that says nothing, behind an image of version 2;apply --onto two_inserts nothing;;0;@two_inserts;
an image to go on from by a pipe;apply --onto /dev/stdin nothing;one_insert;0;@one_insert_in_two;
a script by a pipe, behind an image;apply --onto one_insert /dev/stdin;script_of_d;0;@two_inserts;
a text over a source, behind an image;show $("$program" apply script_over_a_source abc > applied && printf 'join 6 1' > script_of_more && "$program" apply --onto applied script_of_more abc > further && echo further) 7 abc;;0;--aabbcabcabcabc;
a row of bytes over a source;apply --onto bytes_row_over_a_source nothing abc;;1;;refused G1(0)\n
such a row over a source that is shorter;apply --onto bytes_row_over_a_source nothing ab;;1;;refused C3(0)\n
such a row over no source;apply --onto bytes_row_over_a_source nothing;;1;;refused C2\n
an image is refused before a script is;apply --onto child_not_earlier script_without_quotes;;1;;refused C4(1)\n
a row over a source is before a script is;apply --onto bytes_row_over_a_source script_without_quotes abc;;1;;refused G1(0)\n
a script of 2^40 bytes is before an image is;apply --onto child_not_earlier too_long;;1;;refused S5\n
256 sources are before an image is;apply --onto child_not_earlier nothing $(yes abc | head -n 256);;1;;refused S4\n
as many looks as the limit, and going on;apply --onto one_insert --at-most 137 nothing;;0;@one_insert_in_two;
a look more than the limit, and no going on;apply --at-most=136 nothing --onto one_insert;;1;;refused looks 137\n
a line that is no command, behind an image;apply --onto one_insert script_without_quotes;;1;;refused P(2)\n
a place past the end, behind an image;apply --onto new_alone script_of_d;;1;;refused E1(2)\n
a source that is not handed in, behind an image;apply --onto one_insert script_over_a_source;;1;;refused E2(1)\n
an image to go on from that is not there;apply --onto missing script_of_d;;3;;read\n
an image to go on from that is a folder;apply --onto folder script_of_d;;3;;read\n
a script that is not there, behind an image;apply --onto one_insert missing;;3;;read\n
an image behind another on a full device;apply --onto one_insert script_of_d;;3;/dev/full;write\n
a file is committed anew;commit committed abc;;0;committed 1\n;
the image is that of an empty text and the file's;check committed;;0;accepted 2 revisions 1 nodes 1 rows\n;
a committed text is shown;show committed 1;;0;abc;
the text before it is empty;show committed 0;;0;;
the text that it has already;commit committed abc;;0;same 1\n;
another text behind it;commit committed abcde;;0;committed 2\n;revision 1 of committed was not committed from abcde: what it had and abcde has not is taken out, and cordkit show committed 1 still gives it\n
that one is shown;show committed 2;;0;abcde;
the earlier one is shown still;show committed 1;;0;abc;
what stays keeps its origin;blame --count 3 committed 2;;0;0 3 1 0 many 0 "abc"\n;
what came is of the commit;blame --start 3 committed 2;;0;3 2 2 3 many 1 "de"\n;
an empty file is committed;commit committed nothing;;0;committed 3\n;revision 2 of committed was not committed from nothing: what it had and nothing has not is taken out, and cordkit show committed 2 still gives it\n
its text is shown;show committed 3;;0;;
a file by a pipe is committed;commit committed /dev/stdin;highest;0;committed 4\n;
its bytes are shown;show committed 4;;0;@highest;
nothing is beside it;show committed.new 0;;3;;read\n
an empty file is committed anew;commit committed_of_nothing nothing;;0;committed 0\n;
an image of an empty text alone is made;check committed_of_nothing;;0;accepted 1 revisions 0 nodes 0 rows\n;
more bytes than a command puts in, anew;commit committed_large large;;0;committed 46\n;
they are shown;show committed_large 46;;0;@large;
the image of another program is gone on from;commit $(cp one_insert committed_further && echo committed_further) abcde;;0;committed 2\n;revision 1 of committed_further was not committed from abcde: what it had and abcde has not is taken out, and cordkit show committed_further 1 still gives it\n
its texts are kept;show committed_further 1;;0;abc;
an image over a file is gone on from;commit $(cp one_source committed_over && echo committed_over) abcde abc;;0;committed 1\n;
the text behind it is shown;show committed_over 1 abc;;0;abcde;
a row of bytes over a source is not gone on from by a file;commit $(cp bytes_row_over_a_source over_bytes && echo over_bytes) ab abc;;1;;refused G1(0)\n
as many looks as the limit, and a commit;commit --at-most 137 $(cp one_insert committed_further && echo committed_further) abcde;;0;committed 2\n;revision 1 of committed_further was not committed from abcde: what it had and abcde has not is taken out, and cordkit show committed_further 1 still gives it\n
a look more than the limit, and no commit;commit --at-most=136 $(cp one_insert committed_further && echo committed_further) abcde;;1;;refused looks 137\n
an image is as it was where it is refused;cmp committed_further one_insert;;0;equal\n;
an image to commit to that is refused;commit child_not_earlier abc;;1;;refused C4(1)\n
an image to commit to that is none;commit abcde abc;;1;;refused C1(I3)\n
what is none is as it was;cut 0 9 abcde;;0;abcde;
an image to commit to without its source;commit one_source abcde;;1;;refused C2\n
an image to commit to beside a shorter source;commit one_source abcde ab;;1;;refused C3(0)\n
an image to commit to beside 256 sources;commit one_source abcde $(yes abc | head -n 256);;1;;refused S4\n
a file that is the image;commit committed committed;;1;;refused J6\n
a file that is the image by another name;commit committed $(ln -s committed committed_too && echo committed_too);;1;;refused J6\n
a file that is a source;commit committed_over abc abc;;1;;refused J6\n
a file that is to be the image;commit committed $(cp committed committed.new && echo committed.new);;1;;refused J6\n
it is as it was;cmp committed committed.new;;0;equal\n;
an image with keys beside it;commit $(cp committed keyed && cp abc keyed.keys && echo keyed) abc;;1;;refused J2\n
an image with an empty file of keys beside it;commit $(: > keyed.keys && echo keyed) abc;;0;committed 5\n;revision 4 of keyed was not committed from abc: what it had and abc has not is taken out, and cordkit show keyed 4 still gives it\n
a state that comes back;commit $("$program" commit came_back abc >> told 2>&1 && "$program" commit came_back abcde >> told 2>&1 && echo came_back) abc;;0;committed 3\n;revision 2 of came_back was not committed from abc: what it had and abc has not is taken out, and cordkit show came_back 2 still gives it\n
its bytes have the origin that they had;blame came_back 3;;0;0 3 1 0 many 0 "abc"\n;
the state between comes back;commit came_back abcde;;0;committed 4\n;revision 3 of came_back was not committed from abcde: what it had and abcde has not is taken out, and cordkit show came_back 3 still gives it\n
so have its bytes;blame came_back 4;;0;0 3 1 0 many 0 "abc"\n3 2 2 3 many 1 "de"\n;
the first one comes back once more;commit came_back abc;;0;committed 5\n;revision 4 of came_back was not committed from abc: what it had and abc has not is taken out, and cordkit show came_back 4 still gives it\n
the latest with a text is gone back to, by one command;log came_back;;0;new # 0: 0 bytes, depth 0, 0 rows\nmany 0 0 0 "abc" # 1: 3 bytes, depth 0, balanced, 1 rows\nmany 1 3 0 "de" # 2: 5 bytes, depth 0, balanced, 2 rows\nback 1 # 3: 3 bytes, depth 0, balanced, 1 rows\nback 2 # 4: 5 bytes, depth 0, balanced, 1 rows\nback 3 # 5: 3 bytes, depth 0, balanced, 1 rows\n;
a state that is the last one;commit came_back abc;;0;same 5\n;
what is left of a line that tells the file;commit $(printf 1 > came_back.committed && : > came_back.committed.new && cp ab turning && echo came_back) turning;;0;committed 6\n;revision 5 of came_back was not committed from turning: what it had and turning has not is taken out, and cordkit show came_back 5 still gives it\n
that line is written anew;commit came_back $(cp abcde turning && echo turning);;0;committed 7\n;
the last text is restored, and nothing of it was taken out;restore came_back last $(cp ab turned && echo turned);;0;committed 8\n;
a file to commit that is not there;commit committed missing;;3;;read\n
a file to commit that is a folder;commit committed folder;;3;;read\n
a file to commit of 512 gigabytes;commit committed half;;1;;refused E7(N4)\n
an image to commit to that is not there beside a source;commit missing abcde abc;;3;;read\n
an image to commit to that is a folder;commit folder abcde;;3;;write\n
a commit to a full device;commit /dev/full abc;;3;;write\n
a file gets the text of a revision;restore $(cp committed restored && cp ab note && chmod 640 note && echo restored) 1 note;;0;committed 5\n;revision 4 of restored was not committed from note: what it had and note has not is taken out, and cordkit show restored 4 still gives it\n
it has that text;cut 0 9 note;;0;abc;
what it held is kept;show restored 5;;0;ab;
it has the mode that it had;cut 0 9 $(test "$(stat -c %a note)" = 640 && echo note);;0;abc;
an older text again;restore restored 2 note;;0;committed 6\n;
what a file holds is the last text;restore restored 2 $(cp abc note && echo note);;0;same 6\n;
a file behind a link gets a text;restore restored 1 $(ln -s note note_link && echo note_link);;0;committed 7\n;
the link leads to it still;cut 0 9 $(test -h note_link && echo note);;0;abc;
a file that is not there is made;restore restored 2 note_anew;;0;;
it has the text;cut 0 9 note_anew;;0;abcde;
an empty text is restored;restore restored 0 note_anew;;0;same 7\n;
the file is empty;cmp note_anew nothing;;0;equal\n;
a file gets a text over a source;restore $(echo open 0 > open_script && "$program" apply open_script abc > opened && echo opened) 0 note_anew abc;;0;committed 1\n;
it has the bytes of the source;cut 0 9 note_anew;;0;abc;
what a commit over a source takes out is shown over it;commit $("$program" apply open_script abc > opened_told && echo opened_told) ab abc;;0;committed 1\n;revision 0 of opened_told was not committed from ab: what it had and ab has not is taken out, and cordkit show opened_told 0 abc still gives it\n
a revision that is not there to restore;restore restored 99 note;;1;;refused no revision\n
an image to restore from that is not there;restore missing 0 note;;3;;read\n
none is made;check missing;;3;;read\n
an image to restore from that is refused;restore child_not_earlier 0 note;;1;;refused C4(1)\n
an image to restore from without its source;restore one_source 0 note;;1;;refused C2\n
a look more than the limit, and nothing is restored;restore --at-most=136 $(cp one_insert restored_one && echo restored_one) 0 note;;1;;refused looks 137\n
an image with keys beside it to restore from;restore $(cp restored keyed && cp abc keyed.keys && echo keyed) 0 note;;1;;refused J2\n
its answer on a full device, and the text stays;restore restored 0 note;;3;/dev/full;revision 7 of restored was not committed from note: what it had and note has not is taken out, and cordkit show restored 7 still gives it\nwrite\n
the file has what it had;cmp note abc;;0;equal\n;
nothing is beside it any more;check note.new-1;;3;;read\n
a file to restore that is to be the image;restore restored 0 restored.new;;1;;refused J6\n
by another name of its folder;restore restored 0 ../files/restored.new;;1;;refused J6\n
a file that is made is as open as its image;cut 0 9 $(chmod 600 restored && "$program" restore restored 1 note_made && test "$(stat -c %a note_made)" = 600 && echo note_made);;0;abc;
a file to restore that is the image;restore restored 0 restored;;1;;refused J6\n
a folder to restore;restore restored 0 folder;;3;;write\n
a device to restore;restore restored 0 /dev/null;;3;;write\n
its answer on a full device;commit committed_told abc;;3;/dev/full;write\n
the image is there;show committed_told 1;;0;abc;
an image is logged;log one_insert;;0;new # 0: 0 bytes, depth 0, 0 rows\ninsert 0 0 "abc" # 1: 3 bytes, depth 0, balanced, 1 rows\n;
an image over a source is logged;log bytes_row_over_a_source abc;;0;open 0 # 0: 3 bytes, depth 0, 1 rows\n;
its script makes the image again;apply $("$program" log one_insert > logged && echo logged);;0;@one_insert_in_two;
an image is logged in brief;log --brief $("$program" apply script_of_61 > applied && echo applied);;0;@brief_log;
a brief script is none;apply $("$program" log --brief applied > logged && echo logged);;1;;refused P(2)\n
an image is logged within the limit;log --at-most 137 new_alone;;0;new # 0: 0 bytes, depth 0, 0 rows\n;
an image is not logged past the limit;log --at-most 136 one_insert;;1;;refused looks 137\n
a refused image is not logged;log child_not_earlier;;1;;refused C4(1)\n
an image is not logged beside a source too many;log one_insert abc;;1;;refused C2\n
an image is not logged beside 256 sources;log one_insert $(yes abc | head -n 256);;1;;refused S4\n
an image to log that is not there;log missing;;3;;read\n
a log on a full device;log one_insert;;3;/dev/full;write\n
where bytes come from;blame one_insert 1;;0;0 3 1 0 insert 0 0 "abc"\n;
a byte of them;blame --start 1 --count 1 one_insert 1;;0;1 1 1 1 insert 0 0 "b"\n;
a source shows no bytes;blame bytes_row_over_a_source 0 abc;;0;0 3 0 0 open 0\n;
an empty text comes from nowhere;blame new_alone 0;;0;;
no byte of a text;blame --count 0 one_insert 1;;0;;
each second byte is of another command;blame second_bytes 2;;0;@second_bytes_blamed;
bytes that half a million revisions went back to;blame gone_back 500001;;0;0 2 1 0 insert 0 0 "ab"\n;
a place past the end of a text;blame --start 3 one_insert 1;;0;;
a revision that is not there to blame;blame one_insert 2;;1;;refused no revision\n
bytes are not told past the limit;blame --at-most 136 one_insert 1;;1;;refused looks 137\n
a refused image is not blamed;blame child_not_earlier 0;;1;;refused C4(1)\n
an image is not blamed beside a source too many;blame one_insert 1 abc;;1;;refused C2\n
an image to blame that is not there;blame missing 0;;3;;read\n
runs on a full device;blame one_insert 1;;3;/dev/full;write\n
keys are shown and saved;edit saved;keys_saved;0;edit.txt;
the saved image shows its last text;show saved 4;;0;ac;
the saved image shows what undo gave;show saved 3;;0;a;
the saved image shows the text before;show saved 2;;0;ab;
an image takes another one's place, which is kept;edit $(cp one_insert over && echo over);keys_saved;0;edit.txt;@over_is_kept
its last text is the new one;show over 4;;0;ac;
what was there has another name;cmp over.saved-1 one_insert;;0;equal\n;
the same bytes take no place;edit over;keys_saved;0;edit.txt;
they are not kept;check over.saved-2;;3;;read\n
an image that may go;edit --replace $(cp one_insert over && echo over);keys_saved;0;edit.txt;
it is not kept;check over.saved-2;;3;;read\n
keys that leave are shown;edit unsaved;keys_left;0;edit.txt;
keys that end are shown;edit unsaved;keys_ended;0;edit.txt;
neither is saved;check unsaved;;3;;read\n
a file is shown where no key comes;edit unsaved abc;nothing;0;edit_abc.txt;
an image on a full device;edit /dev/full;keys_saved;3;edit.txt;write\n
an image in a folder that is not there;edit missing/image;keys_saved;3;edit.txt;write\n
frames on a full device;edit unsaved;keys_saved;3;/dev/full;write\n
no image behind them;check unsaved;;3;;read\n
a file to edit that is not there;edit unsaved missing;keys_saved;3;;read\n
keys that are a folder;edit unsaved abc;folder;3;edit_abc.txt;read\n
a file that is no image is not replaced;edit abc;keys_saved;1;;refused C1(I3)\n
it is as it was;cut 0 10 abc;;0;abc;
a folder is not replaced;edit folder;keys_saved;3;;write\n
what cannot be read stands beside an image;edit $(cp one_insert beside && mkfifo beside.new && echo beside);keys_saved;3;;write\n
the image is not written in place;cmp beside one_insert;;0;equal\n;
keys that leave are kept;edit --keep keys kept;keys_left;0;edit.txt;
no image is behind them;check kept;;3;;read\n
they are not those of a file;edit --keep keys kept abc;keys_saved;1;;refused J1\n
a file that is no journal keeps no keys;edit --keep=abcde kept;keys_saved;1;;refused J1\n
what was kept is played before the first frame;edit --keep keys kept;key_save;0;@last_frame;
the image has what was typed before;show kept 4;;0;ac;
keys that were saved are not kept;cut 0 1 keys;;3;;read\n
keys that cannot be kept;edit --keep missing/keys kept;keys_saved;3;;write\n
an image that is there;edit --no-clobber saved;keys_saved;1;;refused J3\n
keys go on from an image;edit --onto one_insert saved_onto;keys_saved;0;@frames_onto;
its last text is what they gave;show saved_onto 5;;0;aacbc;
its texts are in it;show saved_onto 1;;0;abc;
undo crosses what was made before;edit --onto one_insert unsaved;key_undo;0;@frames_of_undo;
an image takes its own place;edit --onto saved_onto saved_onto;key_save;0;@first_frame_onto;
it is as it was;show saved_onto 5;;0;aacbc;
it has no revision more;show saved_onto 6;;1;;refused no revision\n
keys over an image are kept;edit --keep keys_onto --onto one_insert_in_two unsaved;keys_left;0;@frames_onto;
they have a digest of the image;cut 0 99 keys_onto;;0;@keys_onto_one_insert;
they are not those of the image in version 1;edit --keep keys_onto --onto one_insert unsaved;key_save;1;;refused J1\n
nor of that image and a file;edit --keep keys_onto --onto one_insert_in_two unsaved abc;key_save;1;;refused J1\n
nor of a session from no file;edit --keep keys_onto unsaved;key_save;1;;refused J1\n
they are played before the first frame;edit --keep keys_onto --onto one_insert_in_two saved_onto;key_save;0;@last_frame_onto;
the image has what was typed over it;show saved_onto 5;;0;aacbc;
those are not kept then;cut 0 1 keys_onto;;3;;read\n
keys over an image and its file are kept;edit --keep=keys_onto --onto=one_source unsaved abc;keys_left;0;edit.txt;
they have a digest of both;cut 0 99 keys_onto;;0;@keys_onto_one_source;
an image to go on from that is not there, by keys;edit --onto missing unsaved;keys_saved;3;;read\n
an image to go on from that is a folder, by keys;edit --onto folder unsaved;keys_saved;3;;read\n
a file beside an image that is not there;edit --onto one_insert unsaved missing;keys_saved;3;;read\n
a file beside an image that is too long;edit --onto one_insert unsaved too_long;keys_saved;1;;refused S5\n
an image to go on from that is none;edit --onto abcde unsaved;keys_saved;1;;refused C1(I1)\n
an image to go on from that is refused;edit --onto child_not_earlier unsaved;keys_saved;1;;refused C4(1)\n
an image without its file;edit --onto one_source unsaved;keys_saved;1;;refused C2\n
an image with a file that is shorter;edit --onto one_source unsaved ab;keys_saved;1;;refused C3(0)\n
a row of bytes over a file;edit --onto bytes_row_over_a_source unsaved abc;keys_saved;1;;refused G1(0)\n
a text that is too long to edit;edit --onto $("$program" apply script_of_2_31 > long_text && echo long_text) unsaved;keys_saved;1;;refused K1\n
a key that makes a text too long;edit --onto $("$program" apply script_of_less_than_2_31 > longest_text && echo longest_text) unsaved;key_x;0;@frames_of_zeros;
an image is there, and another is gone on from;edit --no-clobber --onto one_insert saved;keys_saved;1;;refused J3\n
what stands there is looked at first;edit --onto child_not_earlier abc;keys_saved;1;;refused C1(I3)\n
the keys are looked at before an image is;edit --keep=abcde --onto child_not_earlier unsaved;keys_saved;1;;refused J1\n
keys in a device;edit --keep /dev/zero unsaved;keys_left;1;;refused J1\n
keys behind an image on a full device;edit --onto one_insert /dev/full;keys_saved;3;@frames_onto;write\n
frames behind an image on a full device;edit --onto one_insert unsaved;keys_saved;3;/dev/full;write\n
nothing is saved of all these;check unsaved;;3;;read\n
keys that only moved are not kept;edit --discard $("$program" edit --keep moved unsaved abc < keys_moved > /dev/null && echo moved);;1;;refused J5\n
keys to be dropped;edit --keep dropped unsaved;keys_left;0;edit.txt;
with a file;edit --discard dropped ab;;2;;error: the argument '--discard' cannot be used with a word for a session: it takes the file of keys alone\n\nUsage: cordkit edit [OPTIONS] <IMAGE> [FILE]\n\nFor more information, try '--help'.\n
with keys to be kept;edit --keep kept --discard dropped;;2;;error: the argument '--discard' cannot be used with a word for a session: it takes the file of keys alone\n\nUsage: cordkit edit [OPTIONS] <IMAGE> [FILE]\n\nFor more information, try '--help'.\n
with a session;edit --discard --session kept dropped;;2;;error: the argument '--discard' cannot be used with a word for a session: it takes the file of keys alone\n\nUsage: cordkit edit [OPTIONS] <IMAGE> [FILE]\n\nFor more information, try '--help'.\n
with another word about the image;edit --replace --discard dropped;;2;;error: the argument '--discard' cannot be used with a word for a session: it takes the file of keys alone\n\nUsage: cordkit edit [OPTIONS] <IMAGE> [FILE]\n\nFor more information, try '--help'.\n
with a word about the image;edit --no-clobber --discard dropped;;2;;error: the argument '--discard' cannot be used with a word for a session: it takes the file of keys alone\n\nUsage: cordkit edit [OPTIONS] <IMAGE> [FILE]\n\nFor more information, try '--help'.\n
they are dropped;edit --discard dropped;;0;;
they are not there;edit --discard dropped;;1;;refused J5\n
what is no file of keys is not dropped;edit --discard abc;;1;;refused J1\n
it stays;cut 0 10 abc;;0;abc;
a part of a file;cut 1 3 abcde;;0;bcd;
a part past the end ends with the file;cut 3 10 abcde;;0;de;
a part behind the end is empty;cut 9 1 abcde;;0;;
a part of no bytes is empty;cut 0 0 abcde;;0;;
the largest numbers cut nothing;cut 18446744073709551615 18446744073709551615 abcde;;0;;
a part of a file that is not there;cut 0 1 missing;;3;;read\n
a part of a folder;cut 0 1 folder;;3;;read\n
a part on a full device;cut 0 1 abcde;;3;/dev/full;write\n
a part over the border of two blocks;cut 4094 5 long;;0;g\nabc;
a part of standard input;cut 1 3 /dev/stdin;abcde;0;bcd;
a part of a file of 2^39 bytes;cut 549755813885 10 half;;0;\0000\0000\0000;
a part of a file of 2^40 bytes;cut 0 1 too_long;;1;;refused S5\n
files are joined in their order;join abcde ab highest;;0;abcdeab\0377;
* a large file is joined;join large;;0;@large;
one file is joined;join abc;;0;abc;
255 files are joined;join abc $(yes nothing | head -n 253) ab;;0;abcab;
256 files are refused;join $(yes abc | head -n 256);;1;;refused S4\n
nothing is joined where a file is not there;join abcde missing;;3;;read\n
files on a full device;join abcde ab;;3;/dev/full;write\n
files of 2^40 bytes together;join half half;;1;;refused N1\n
a pattern is found;find 0 bcd abcde;;0;1\n;
* words with a space;find 0 "c d" "a file";;0;2\n;
a pattern is found at its start;find 1 bcd abcde;;0;1\n;
a pattern before the start is not found;find 2 bcd abcde;;1;;
a pattern that does not occur;find 0 zz abcde;;1;;
a pattern over the border of two blocks;find 4090 efg long;;0;4092\n;
* an empty pattern is found at the end;find 5 "" abcde;;0;5\n;
an empty pattern is not found past the end;find 6 "" abcde;;1;;
a pattern is its bytes;find 0 "$(printf '\303\251')" accent;;0;1\n;
a pattern that begins with a dash;find 0 -- -x dash;;0;1\n;
a pattern of 4096 bytes is looked for;find 0 $(yes a | head -n 4096 | tr -d '\n') abcde;;1;;
a pattern of 4097 bytes is refused;find 0 $(yes a | head -n 4097 | tr -d '\n') abcde;;1;;refused F1\n
a file to look in that is not there;find 0 a missing;;3;;read\n
a place on a full device;find 0 bcd abcde;;3;/dev/full;write\n
a file of three blocks and a longer one;cmp long long_twin;;1;less\n;
equal files;cmp abc abc;;0;equal\n;
empty files are equal;cmp nothing nothing;;0;equal\n;
a prefix is less;cmp ab abc;;1;less\n;
what goes on is greater;cmp abc ab;;1;greater\n;
bytes have no sign;cmp highest abc;;1;greater\n;
a file to compare that is not there;cmp abc missing;;3;;read\n
an order on a full device;cmp abc abc;;3;/dev/full;write\n
help;--help;;2;;help.txt
help by its word;help;;2;;help.txt
help for a command;cut --help;;2;;cut_help.txt
a command that is not known;frobnicate;;2;;error: unrecognized subcommand 'frobnicate'\n\nUsage: cordkit [OPTIONS] [COMMAND]\n\nFor more information, try '--help'.\n
an option that is not known;--frobnicate;;2;;error: unexpected argument '--frobnicate' found\n\nUsage: cordkit [OPTIONS] [COMMAND]\n\nFor more information, try '--help'.\n
a word that is missing to serve;serve;;2;;error: the following required arguments were not provided:\n  <IMAGE>\n\nUsage: cordkit serve <IMAGE> [SOURCE]\n\nFor more information, try '--help'.\n
a source too many to serve;serve a b c;;2;;error: unexpected argument 'c' found\n\nUsage: cordkit serve [OPTIONS] <IMAGE> [SOURCE]\n\nFor more information, try '--help'.\n
a word that is missing;restore one_insert 0;;2;;error: the following required arguments were not provided:\n  <FILE>\n\nUsage: cordkit restore <IMAGE> <REV> <FILE> [SOURCE]...\n\nFor more information, try '--help'.\n
a word too many;cmp abc ab abcde;;2;;error: unexpected argument 'abcde' found\n\nUsage: cordkit cmp [OPTIONS] <FIRST> <SECOND>\n\nFor more information, try '--help'.\n
a number of more than 64 bits;cut 18446744073709551616 1 abcde;;2;;error: invalid value '18446744073709551616' for '<START>': number too large to fit in target type\n\nUsage: cordkit cut [OPTIONS] <START> <COUNT> <FILE>\n\nFor more information, try '--help'.\n
a limit that is no number;check --at-most few one_insert;;2;;error: invalid value 'few' for '<LOOKS>': invalid digit found in string\n\nUsage: cordkit check [OPTIONS] <IMAGE> [SOURCE]...\n\nFor more information, try '--help'.\n
a word that is no number;show one_insert one;;2;;error: invalid value 'one' for '<REV>': invalid digit found in string\n\nUsage: cordkit show [OPTIONS] <IMAGE> [REV] [SOURCE]...\n\nFor more information, try '--help'.\n

an image cut short on standard input is refused;;cut_short_by_one;1;refused C1(I1)\n;
a kind that is not known on standard input is refused;;unknown_node_kind;1;refused C1(I7)\n;
a child that is not earlier on standard input is refused;;child_not_earlier;1;refused C4(1)\n;
a mark on what is not balanced on standard input is refused;;chain_of_four_marked;1;refused C10(1)\n;
text that no row covers on standard input is refused;;text_left_uncovered;1;refused C11(1,1)\n;
a source that standard input has none of is refused;;bytes_row_over_a_source;1;refused C2\n;
the empty text of the shortest image is shown;show new_alone 0;;0;;
an image cut short is not shown;show cut_short_by_one 1;;1;;refused C1(I1)\n
an image is not shown beside a shorter source;show bytes_row_over_a_source 0 ab;;1;;refused C3(0)\n
a part up to the largest number;cut 1 18446744073709551615 abcde;;0;bcde;
a part at the end is empty;cut 5 1 abcde;;0;;
an empty file is joined;join ab nothing abcde;;0;ababcde;
200 files are joined;join $(yes abc | head -n 200);;0;joined.txt;
a pattern at the start of the search;find 2 cd abcde;;0;2\n;

a number to find that is too large;find --all 18446744073709551616 b abcde;;2;;error: invalid value '18446744073709551616' for '<START>': number too large to fit in target type\n\nUsage: cordkit find [OPTIONS] <START> <PATTERN> <FILE>\n\nFor more information, try '--help'.\n
a limit of a log that is no number;log --at-most few one_insert;;2;;error: invalid value 'few' for '<LOOKS>': invalid digit found in string\n\nUsage: cordkit log [OPTIONS] <IMAGE> [SOURCE]...\n\nFor more information, try '--help'.\n
a flag twice;find --all --all 1 b abcde;;2;;error: the argument '--all' cannot be used multiple times\n\nUsage: cordkit find [OPTIONS] <START> <PATTERN> <FILE>\n\nFor more information, try '--help'.\n
a word that is no UTF-8;check "$(printf '\377')";;2;;error: a word is no UTF-8\n\nUsage: cordkit [OPTIONS] [COMMAND]\n\nFor more information, try '--help'.\n
a program's option behind its command;cmp --version abc abc;;2;;error: unexpected argument '--version' found\n\n  tip: to pass '--version' as a value, use '-- --version'\n\nUsage: cordkit cmp [OPTIONS] <FIRST> <SECOND>\n\nFor more information, try '--help'.\n
each place of a pattern;find --all 0 abcdefg weeks;;0;0\n8\n16\n;
each place behind the end of the one before;find --all 1 aa eight;;0;1\n3\n5\n;
no place of a pattern;find --all 0 zz abcde;;1;;

what is accepted needs no words;check --explain one_insert;;0;accepted 2 revisions 1 nodes 1 rows\n;
nor does what is not found;find --explain 0 zz abcde;;1;;
nor what is different;cmp --explain ab abc;;1;less\n;
nor a usage fault;cmp --explain ab;;2;;error: the following required arguments were not provided:\n  <SECOND>\n\nUsage: cordkit cmp --explain <FIRST> <SECOND>\n\nFor more information, try '--help'.\n
* a source of another length in words;check --explain one_source ab;;1;refused C3(0)\n;C3(0): source 0, ab, has 2 bytes, and the image was made over 3\n
the flag before the command;--explain check one_source ab;;1;refused C3(0)\n;C3(0): source 0, ab, has 2 bytes, and the image was made over 3\n
standard input of another length in words;check --explain one_source /dev/stdin;ab;1;refused C3(0)\n;C3(0): source 0, /dev/stdin, has 2 bytes, and the image was made over 3\n
a source that is not given in words;check --explain one_source;;1;refused C2\n;C2: one_source was made over one source, of 3 bytes, and 0 are given\n
a source too many in words;migrate --explain one_insert abc;;1;;refused C2\nC2: the sources of one_insert are 0 in number, and 1 are given\n
256 sources in words;check --explain one_source $(yes abc | head -n 256);;1;refused S4\n;S4: there are more than 255 files\n
a damaged image in words;show --explain child_not_earlier 0;;1;;refused C4(1)\nC4(1): node 1 of child_not_earlier names one that is not earlier, or a source that is not there\n
a row in words;check --explain text_left_uncovered;;1;refused C11(1,1)\n;C11(1,1): revision 1 of text_left_uncovered is not shown to be what its command gives: row 1 does not fit, or is missing\n
a text in words;log --explain abcde;;1;;refused C1(I1)\nC1(I1): abcde ends too early to be an image\n
standard input in words;--explain;cut_short_by_one;1;refused C1(I1)\n;C1(I1): standard input ends too early to be an image\n
a limit of looks in words;check --explain --at-most 136 one_insert;;1;refused looks 137\n;looks 137: the check of one_insert may take 137 looks at nodes, more than --at-most allows\n
a revision that is not there in words;show --explain one_insert 7;;1;;refused no revision\nno revision: one_insert is accepted, and has no such revision\n
a revision to restore that is not there in words;restore --explain one_insert 7 note;;1;;refused no revision\nno revision: one_insert is accepted, and has no such revision\n
a file to restore that is a folder in words;restore --explain one_insert 0 folder;;3;;write\nwrite: folder could not be written: it is no regular file\n
a revision to blame that is not there in words;blame --explain one_insert 7;;1;;refused no revision\nno revision: one_insert is accepted, and has no such revision\n
a file that is not there in words;cmp --explain abc missing;;3;;read\nread: there is no file missing\n
an image that is not there in words;check --explain missing abc;;3;;read\nread: there is no file missing\n
a folder in words;check --explain folder;;3;;read\nread: folder is a folder\n
a file below a file in words;cut --explain 0 1 abc/abc;;3;;read\nread: abc/abc is below what is no folder\n
a full device in words;join --explain abc;;3;/dev/full;write\nwrite: standard output could not be written: its disk is full\n
an image on a full device in words;edit --explain /dev/full;keys_saved;3;edit.txt;write\nwrite: /dev/full could not be written: its disk is full\n
frames on a full device in words;edit --explain unsaved;keys_saved;3;/dev/full;write\nwrite: standard output could not be written: its disk is full\n
an image in a folder that is not there in words;edit --explain missing/image;keys_saved;3;edit.txt;write\nwrite: missing/image could not be written: its folder is not there\n
a commit in a folder that is not there in words;commit --explain missing/image abc;;3;;write\nwrite: missing/image could not be written: its folder is not there\n
an image below a file in words;commit --explain abc/image ab;;3;;read\nread: abc/image is below what is no folder\n
an image that is a folder in words;commit --explain folder abc;;3;;write\nwrite: folder could not be written: it is a folder\n
keys in a folder that is not there in words;edit --explain --keep missing/keys kept;keys_saved;3;;write\nwrite: missing/keys could not be written: its folder is not there\n
a session's file that is a folder in words;edit --explain --keep kept_keys --session folder kept;keys_saved;3;;read\nread: folder is a folder\n
no session begins in what is none in words;edit --explain --keep kept_keys --session abc kept;keys_saved;3;;read\nread: abc could not be read to its end: it is no file of a session\n
a commit's answer on a full device in words;commit --explain committed_told ab;;3;/dev/full;revision 1 of committed_told was not committed from ab: what it had and ab has not is taken out, and cordkit show committed_told 1 still gives it\nwrite\nwrite: standard output could not be written: its disk is full\n
control bytes of a name in words;cmp --explain abc $(printf 'a\033[31m\177b');;3;;read\nread: there is no file a\\x1b[31m\\x7fb\n
keys that are a folder in words;edit --explain unsaved abc;folder;3;edit_abc.txt;read\nread: standard input is a folder\n
standard input that is a folder in words;--explain;folder;3;;read\nread: standard input is a folder\n
a line that is no command in words;apply --explain script_without_quotes;;1;;refused P(2)\nP(2): line 2 of script_without_quotes is no command: word 4 (abc) is not in quotes\n
a line that is no command, of a script by a pipe, in words;apply --explain pipe_of_a_script;;1;;refused P(2)\nP(2): line 2 of pipe_of_a_script is no command\n
a brief script in words;apply --explain $("$program" apply script_of_61 > applied && "$program" log --brief applied > logged && echo logged);;1;;refused P(2)\nP(2): line 2 of logged is no command: ... stands right behind the quotes of word 4\n
a place past the end in words;apply --explain script_past_the_end;;1;;refused E3(3)\nE3(3): line 3 of script_past_the_end names a place behind the end of revision 0\n
bytes past the end in words;apply --explain script_of_long_cuts;;1;;refused E3(2)\nE3(2): line 2 of script_of_long_cuts names bytes behind the end of revision 0\n
a script by a pipe in words;apply --explain /dev/stdin;script_past_the_end;1;;refused E3(3)\nE3(3): line 3 of /dev/stdin names a place behind the end of revision 0\n
no such revision in words;apply --explain script_of_no_revision;;1;;refused E1(3)\nE1(3): line 3 of script_of_no_revision names a revision that is not there\n
no such source in words;apply --explain script_over_a_source;;1;;refused E2(1)\nE2(1): line 1 of script_over_a_source names a source that is not there\n
more bytes than a command takes in words;apply --explain script_of_more_bytes;;1;;refused E7(N1,2)\nE7(N1,2): line 2 of script_of_more_bytes puts in more than 65,536 bytes at a place\n
more bytes in place of others in words;apply --explain script_of_a_long_replacement;;1;;refused E7(N1,3)\nE7(N1,3): line 3 of script_of_a_long_replacement puts in more than 65,536 bytes at a place\n
a change of more bytes in words;apply --explain script_of_a_long_change;;1;;refused E7(N1,3)\nE7(N1,3): line 3 of script_of_a_long_change puts in more than 65,536 bytes at a place\n
a text of a source twice that is too long in words;apply --explain script_of_a_double half;;1;;refused E7(N1,2)\nE7(N1,2): line 2 of script_of_a_double would make a text of 2^40 bytes or more\n
changes out of order in words;apply --explain refused_a_change_at_a_place_twice;;1;;refused E3(3)\nE3(3): line 3 of refused_a_change_at_a_place_twice has changes that are out of order, or behind the end of revision 0\n
a part past the end of what is pasted in words;apply --explain refused_a_part_of_what_is_pasted;;1;;refused E3(3)\nE3(3): line 3 of refused_a_part_of_what_is_pasted names a place or bytes behind the end of revision 0 or 0\n
a text that is too long in words;apply --explain script_too_long;;1;;refused E7(N1,2)\nE7(N1,2): line 2 of script_too_long would make a text of 2^40 bytes or more\n
a row of bytes over a source in words;apply --explain --onto bytes_row_over_a_source nothing abc;;1;;refused G1(0)\nG1(0): revision 0 of bytes_row_over_a_source has a row that compares bytes of a source: a session of its commands is made by cordkit log bytes_row_over_a_source SOURCE.. | cordkit apply /dev/stdin SOURCE..\n
an image to go on from that is refused in words;apply --explain --onto abcde script_of_d;;1;;refused C1(I1)\nC1(I1): abcde ends too early to be an image\n
no such revision behind an image in words;apply --explain --onto new_alone script_of_d;;1;;refused E1(2)\nE1(2): line 2 of script_of_d names a revision that is not there\n
another number of sources of an image in words;apply --explain --onto one_insert script_of_d abc;;1;;refused C2\nC2: the sources of one_insert are 0 in number, and 1 are given\n
a script that is not there, behind an image, in words;apply --explain --onto one_insert missing;;3;;read\nread: there is no file missing\n
a file that is the image in words;commit --explain committed committed;;1;;refused J6\nJ6: committed is the image itself, the file beside it that is to be the image, or a source of its session\n
an image with keys beside it in words;commit --explain $(cp abc keyed.keys && echo keyed) abcde;;1;;refused J2\nJ2: a session keeps its keys in keyed.keys, and has not saved them\n
a file to commit of 512 gigabytes in words;commit --explain committed half;;1;;refused E7(N4)\nE7(N4): the commit of half would put in more bytes than there may be\n
an image to commit to that is none in words;commit --explain abcde abc;;1;;refused C1(I3)\nC1(I3): abcde is no image: it does not begin with CORDSESS. It stays as it is: move it away and give the same command again, or name another image\n
a row of bytes over a source in words, by a file;commit --explain over_bytes ab abc;;1;;refused G1(0)\nG1(0): revision 0 of over_bytes has a row that compares bytes of a source: a session of its commands is made by cordkit log over_bytes SOURCE.. | cordkit apply /dev/stdin SOURCE..\n
a file to commit that is not there in words;commit --explain committed missing;;3;;read\nread: there is no file missing\n
a commit to a full device in words;commit --explain /dev/full abc;;3;;write\nwrite: /dev/full could not be written: its disk is full\n
a file that is too long in words;cut --explain 0 1 too_long;;1;;refused S5\nS5: too_long has more than 2^40 - 1 bytes\n
files that are too long together in words;join --explain half half;;1;;refused N1\nN1: the files together would make a text of 2^40 bytes or more\n
a pattern that is too long in words;find --explain 0 $(yes a | head -n 4097 | tr -d '\n') abcde;;1;;refused F1\nF1: the pattern has more than 4,096 bytes\n
keys of another file in words;edit --explain --keep=abcde kept;keys_saved;1;;refused J1\nJ1: abcde has the keys of another file or image, or something else\n
an image that is there in words;edit --explain --no-clobber saved;keys_saved;1;;refused J3\nJ3: saved is there already: cordedit -f replaces it, and cordedit --continue saved NEW begins with its last text\n
keys of another image in words;edit --explain --keep=abcde --onto one_insert unsaved;keys_saved;1;;refused J1\nJ1: abcde has the keys of another file or image, or something else\n
an image to go on from that is not there, by keys, in words;edit --explain --onto missing unsaved;keys_saved;3;;read\nread: there is no file missing\n
an image to go on from that is none, in words;edit --explain --onto abcde unsaved;keys_saved;1;;refused C1(I1)\nC1(I1): abcde ends too early to be an image\n
an image to go on from that is refused, by keys, in words;edit --explain --onto child_not_earlier unsaved;keys_saved;1;;refused C4(1)\nC4(1): node 1 of child_not_earlier names one that is not earlier, or a source that is not there\n
an image without its file in words;edit --explain --onto one_source unsaved;keys_saved;1;;refused C2\nC2: one_source was made over one source, of 3 bytes, and 0 are given\n
an image with a file that is not its own in words;edit --explain --onto one_insert unsaved abc;keys_saved;1;;refused C2\nC2: the sources of one_insert are 0 in number, and 1 are given\n
an image with a file that is shorter in words;edit --explain --onto one_source unsaved ab;keys_saved;1;;refused C3(0)\nC3(0): source 0, ab, has 2 bytes, and the image was made over 3\n
a row of bytes over a file in words;edit --explain --onto bytes_row_over_a_source unsaved abc;keys_saved;1;;refused G1(0)\nG1(0): revision 0 of bytes_row_over_a_source has a row that compares bytes of a source: a session of its commands is made by cordkit log bytes_row_over_a_source SOURCE.. | cordkit apply /dev/stdin SOURCE..\n
a text that is too long to edit in words;edit --explain --onto long_text unsaved;keys_saved;1;;refused K1\nK1: a text of long_text has more than 2,147,483,647 bytes\n
keys that are not there in words;edit --explain --discard missing;;1;;refused J5\nJ5: missing is not there, or not the one that the session had\n
a file that is no image in words;edit --explain abc;keys_saved;1;;refused C1(I3)\nC1(I3): abc is no image: it does not begin with CORDSESS. It stays as it is: move it away and give the same command again, or name another image\n

help to check;check --help;;2;;check_help.txt
help to show;show --help;;2;;show_help.txt
help to show by its word;help show;;2;;show_help.txt
help to edit;edit --help;;2;;edit_help.txt
a file before its command;abcde check;;2;;error: unrecognized subcommand 'abcde'\n\nUsage: cordkit [OPTIONS] [COMMAND]\n\nFor more information, try '--help'.\n
an image to check that is missing;check;;2;;error: the following required arguments were not provided:\n  <IMAGE>\n\nUsage: cordkit check <IMAGE> [SOURCE]...\n\nFor more information, try '--help'.\n
an option of check that is not known;check --frobnicate one_insert;;2;;error: unexpected argument '--frobnicate' found\n\n  tip: to pass '--frobnicate' as a value, use '-- --frobnicate'\n\nUsage: cordkit check [OPTIONS] <IMAGE> [SOURCE]...\n\nFor more information, try '--help'.\n
an image that is missing;show;;2;;error: the following required arguments were not provided:\n  <IMAGE>\n\nUsage: cordkit show <IMAGE> [REV] [SOURCE]...\n\nFor more information, try '--help'.\n
a source in the place of a revision;show one_insert abc 1;;2;;error: invalid value 'abc' for '<REV>': invalid digit found in string\n\nUsage: cordkit show [OPTIONS] <IMAGE> [REV] [SOURCE]...\n\nFor more information, try '--help'.\n
a revision with a fraction;show one_insert 1.0;;2;;error: invalid value '1.0' for '<REV>': invalid digit found in string\n\nUsage: cordkit show [OPTIONS] <IMAGE> [REV] [SOURCE]...\n\nFor more information, try '--help'.\n
a revision of more than 64 bits;show one_insert 18446744073709551616;;2;;error: invalid value '18446744073709551616' for '<REV>': number too large to fit in target type\n\nUsage: cordkit show [OPTIONS] <IMAGE> [REV] [SOURCE]...\n\nFor more information, try '--help'.\n
the last revision;show one_insert;;0;abc;
the last revision by a word;show one_insert last;;0;abc;
the last revision by a sign;show one_insert -1;;0;abc;
the last revision over a source;show one_source -1 abc;;0;;
the last of no revisions;show no_revisions_in_two;;1;;refused no revision\n
where the bytes of the last revision come from;blame one_insert;;0;0 3 1 0 insert 0 0 "abc"\n;
where they come from by a sign;blame --start 2 one_insert -1;;0;2 1 1 2 insert 0 0 "c"\n;
a sign behind the end of options;show one_insert -- -1;;0;abc;
a sign in the place of a file;restore one_insert 1 -1;;2;;error: unexpected argument '-1' found\n\n  tip: to pass '-1' as a value, use '-- -1'\n\nUsage: cordkit restore [OPTIONS] <IMAGE> <REV> <FILE> [SOURCE]...\n\nFor more information, try '--help'.\n
a sign that names another revision;show one_insert -2;;2;;error: unexpected argument '-2' found\n\n  tip: to pass '-2' as a value, use '-- -2'\n\nUsage: cordkit show [OPTIONS] <IMAGE> [REV] [SOURCE]...\n\nFor more information, try '--help'.\n
a sign in the place of a limit;show --at-most -1 one_insert;;2;;error: unexpected argument '-1' found\n\n  tip: to pass '-1' as a value, use '-- -1'\n\nUsage: cordkit show [OPTIONS] <IMAGE> [REV] [SOURCE]...\n\nFor more information, try '--help'.\n
a control character in a word;show one_insert $(printf 'a\033[1mb');;2;;error: invalid value 'a\\x1b[1mb' for '<REV>': invalid digit found in string\n\nUsage: cordkit show [OPTIONS] <IMAGE> [REV] [SOURCE]...\n\nFor more information, try '--help'.\n
all words of cut that are missing;cut;;2;;error: the following required arguments were not provided:\n  <START>\n  <COUNT>\n  <FILE>\n\nUsage: cordkit cut <START> <COUNT> <FILE>\n\nFor more information, try '--help'.\n
a file to cut that is missing;cut 1 2;;2;;error: the following required arguments were not provided:\n  <FILE>\n\nUsage: cordkit cut <START> <COUNT> <FILE>\n\nFor more information, try '--help'.\n
a start that is no number;cut x 2 abcde;;2;;error: invalid value 'x' for '<START>': invalid digit found in string\n\nUsage: cordkit cut [OPTIONS] <START> <COUNT> <FILE>\n\nFor more information, try '--help'.\n
a count that is no number;cut 1 x abcde;;2;;error: invalid value 'x' for '<COUNT>': invalid digit found in string\n\nUsage: cordkit cut [OPTIONS] <START> <COUNT> <FILE>\n\nFor more information, try '--help'.\n
a file too many to cut;cut 1 2 abcde ab;;2;;error: unexpected argument 'ab' found\n\nUsage: cordkit cut [OPTIONS] <START> <COUNT> <FILE>\n\nFor more information, try '--help'.\n
a limit of looks without an image;apply --at-most 137 nothing;;2;;error: the argument '--at-most <LOOKS>' cannot be used without '--onto <IMAGE>'\n\nUsage: cordkit apply [OPTIONS] <SCRIPT> [SOURCE]...\n\nFor more information, try '--help'.\n
files to join that are missing;join;;2;;error: the following required arguments were not provided:\n  <FILE>...\n\nUsage: cordkit join <FILE>...\n\nFor more information, try '--help'.\n
a file to look in that is missing;find 1 b;;2;;error: the following required arguments were not provided:\n  <FILE>\n\nUsage: cordkit find <START> <PATTERN> <FILE>\n\nFor more information, try '--help'.\n
a place that is no number;find x b abcde;;2;;error: invalid value 'x' for '<START>': invalid digit found in string\n\nUsage: cordkit find [OPTIONS] <START> <PATTERN> <FILE>\n\nFor more information, try '--help'.\n
a second file that is missing;cmp abc;;2;;error: the following required arguments were not provided:\n  <SECOND>\n\nUsage: cordkit cmp <FIRST> <SECOND>\n\nFor more information, try '--help'.\n
an image to save that is missing;edit;;2;;error: the following required arguments were not provided:\n  <IMAGE>\n\nUsage: cordkit edit <IMAGE> [FILE]\n\nFor more information, try '--help'.\n
a file too many to edit;edit unsaved abc ab;;2;;error: unexpected argument 'ab' found\n\nUsage: cordkit edit [OPTIONS] <IMAGE> [FILE]\n\nFor more information, try '--help'.\n
TABLE

echo "$passed passed, $failed failed"
[ "$failed" = 0 ]
