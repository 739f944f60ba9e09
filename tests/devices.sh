#!/bin/sh
# Runs the program that `make run` built, or the one that $1 names, over inputs and outputs that are closed, that are folders, or that have no
# room. Each run that needs them has to end with the status 3 and the one word for what stopped it, and what it wrote is a front of its answer. Files that
# it writes are whole, whichever streams are closed. The last line is 'N passed, M failed'.
set -u
cd "$(dirname "$0")/../crates/cordkit" || exit 1
program=${1:-out/cordkit}
answer='accepted 2 revisions 1 nodes 1 rows'
folder=$(mktemp -d) || exit 1
trap 'rm -rf "$folder"' EXIT
trap 'exit 1' HUP INT TERM
out=$folder/out
err=$folder/err
printf abc > "$folder/abc"
printf b > "$folder/b"
passed=0
failed=0

# The run $1 was stopped, and said so by the word $2, behind what $3 is.
is_stopped() {
    if [ "$status" = 3 ] && [ "$(cat "$err")" = "$2" ] && [ "$(cat "$out")" = "${3-}" ]; then
        passed=$((passed + 1))
    else
        failed=$((failed + 1))
        echo "FAILED: $1: status $status" >&2
        cat "$out" "$err" >&2
    fi
}

# No input, and a folder as one.
status=0
"$program" <&- > "$out" 2> "$err" || status=$?
is_stopped "no input" read
status=0
"$program" < . > "$out" 2> "$err" || status=$?
is_stopped "a folder as input" read
for words in "check . $folder/abc" "show . 1" "show stdin 1 ." "migrate ." "apply ." "apply --onto stdin ." "apply --onto . $folder/abc" "cut 0 1 ." \
    "join $folder/abc ." "find 0 c ." "cmp $folder/abc ." "edit $folder/image ." "edit --onto . $folder/image" \
    "edit --onto stdin $folder/image ." "edit --onto . --keep $folder/keys $folder/image" "edit --onto stdin --keep $folder/keys $folder/image ." \
    "serve $folder/image ."; do
    status=0
    "$program" $words < /dev/null > "$out" 2> "$err" || status=$?
    is_stopped "a folder: $words" read
done

# No output, and one that has no room.
: > "$out"
for words in "check stdin" "show stdin 1" "migrate stdin" "cut 0 1 $folder/abc" "join $folder/abc" "find 0 c $folder/abc" \
    "cmp $folder/abc $folder/b" "edit --onto stdin $folder/image"; do
    status=0
    "$program" $words < /dev/null >&- 2> "$err" || status=$?
    is_stopped "no output: $words" write
    status=0
    "$program" $words < /dev/null > /dev/full 2> "$err" || status=$?
    is_stopped "a full device: $words" write
done

# A session that is served: what it answers is kept before, where no answer can be written; and a line that has no room is neither kept nor answered.
printf 'new\ninsert 0 0 "abc"\n' > "$folder/requests"
status=0
"$program" serve "$folder/served" < "$folder/requests" >&- 2> "$err" || status=$?
is_stopped "no output of a session that is served" write
tail -n +2 "$folder/served.lines" > "$out"
is_stopped "its lines are kept" write "$(cat "$folder/requests")"
: > "$out"
status=0
printf 'last\n' | "$program" serve "$folder/served" > /dev/full 2> "$err" || status=$?
is_stopped "its answers on a full device" write
status=0
"$program" serve "$folder/served" < . > "$out" 2> "$err" || status=$?
is_stopped "a folder as its requests" read
{ printf 'last\nsync\ninsert 1 3 "' && head -c 500 /dev/zero | tr '\0' x && printf '"\nlast\n'; } > "$folder/requests"
status=0
(
    trap '' XFSZ
    ulimit -f 1
    exec "$program" serve "$folder/served" < "$folder/requests" > "$out" 2> "$err"
) || status=$?
is_stopped "no room for a line" write "$(printf '1 3\nsynced 1')"
printf 'last\n' | "$program" serve "$folder/served" > "$out"
is_stopped "it is not there" write '1 3'
{ printf 'insert 1 3 "' && head -c 300 /dev/zero | tr '\0' x && printf '"\nsync\nsave\n'; } > "$folder/requests"
cp "$folder/served" "$folder/before"
status=0
(
    trap '' XFSZ
    ulimit -f 1
    exec "$program" serve "$folder/served" < "$folder/requests" > "$out" 2> "$err"
) || status=$?
is_stopped "no room for its image" write "$(printf '2 303\nsynced 2')"
printf 'last\nsave\n' | "$program" serve "$folder/served" > "$out"
cmp -s "$folder/served" "$folder/before" && echo 'not saved' >> "$out"
[ ! -e "$folder/served.lines" ] && [ ! -e "$folder/served.new" ] || echo 'something is left' >> "$out"
is_stopped "all is kept, and is saved then" write "$(printf '2 303\nsaved 2')"

# The output takes only the first bytes of the line: a file that may hold 512 bytes has room for no more.
taken=0
while [ "$taken" -le "${#answer}" ]; do
    head -c $((512 - taken)) /dev/zero > "$folder/file"
    status=0
    (
        trap '' XFSZ
        ulimit -f 1
        exec "$program" < stdin >> "$folder/file" 2> "$err"
    ) || status=$?
    tail -c +$((513 - taken)) "$folder/file" > "$out"
    is_stopped "room for $taken bytes" write "$(printf %s "$answer" | head -c "$taken")"
    taken=$((taken + 1))
done

# A session that takes the place of the image that it goes on from: no file takes its keys; and there is room for these and not for the image, which is as
# it was then. The same command plays what was kept, and saves it.
cp stdin "$folder/image"
printf 'abcdefgh\030' > "$folder/typed"
printf '\030' > "$folder/save"
goes_on() {
    status=0
    "$program" edit --onto "$folder/image" --keep "$1" "$folder/image" < "$folder/$2" > /dev/null 2> "$err" || status=$?
    : > "$out"
}
for keys in "$folder" "$folder/abc/keys" "$folder/missing/keys"; do
    goes_on "$keys" typed
    is_stopped "no file for keys: $keys" write
done
(
    trap '' XFSZ
    ulimit -f 1
    goes_on "$folder/keys" typed
    exit "$status"
) || status=$?
is_stopped "no room for an image" write
cmp -s stdin "$folder/image" && [ ! -e "$folder/image.new" ] && [ ! -e "$folder/keys.saved" ] && tail -c +57 "$folder/keys" > "$out"
status=3
echo write > "$err"
is_stopped "the image is as it was, and the keys are kept" write abcdefgh
goes_on "$folder/keys" save
[ ! -e "$folder/keys" ] && [ "$status" = 0 ] && "$program" show "$folder/image" 9 > "$out"
status=3
echo write > "$err"
is_stopped "they are saved then" write abcdefghabc

# What stands beside the image and cannot take its place: nothing is begun, and the image is not written to.
cp stdin "$folder/old"
mkfifo "$folder/old.new"
for words in "edit $folder/old" "edit --keep $folder/keys $folder/old" "edit --onto stdin $folder/old"; do
    status=0
    printf 'a\030' | "$program" $words > "$out" 2> "$err" || status=$?
    is_stopped "a pipe beside the image: $words" write
done
cmp -s stdin "$folder/old" && [ ! -e "$folder/keys" ] && echo write > "$err"
is_stopped "the image is as it was" write

# Standard streams that are closed, one, two and all of them: no file that is opened takes the place of one, so no byte of an answer, a frame or a line of an
# error is in an image or in a file of keys, and none of those is read as keys. By the program itself, and by its launcher, which runs what was built here.
launcher=$PWD/../../bin/cordkit
[ "$program" = out/cordkit ] || launcher=''
case $program in
/*) ;;
*) program=$PWD/$program ;;
esac
mkdir "$folder/closed" && cd "$folder/closed" || exit 1
image_of_text() { rm -f "$1"*; printf one > text && "$program" commit "$1" text > /dev/null && printf two > text; }

# The run of these words with the streams closed that $1 names, by their numbers. It writes to `out` and `err`, and reads `typed`.
with_closed() {
    streams=$1 && shift
    : > out
    : > err
    status=0
    (
        case $streams in *0*) exec 0<&- ;; *) exec 0< typed ;; esac
        case $streams in *1*) exec 1>&- ;; *) exec 1> out ;; esac
        case $streams in *2*) exec 2>&- ;; *) exec 2> err ;; esac
        exec "$@"
    ) || status=$?
}

# An image is whole, and has this text last.
is_whole() {
    answer=$("$program" check "$1" < /dev/null 2>&1) && revisions=${answer#accepted } &&
        [ "$("$program" show "$1" $((${revisions%% *} - 1)))" = "$2" ]
}

# What the run $1 has to end with: the status, and what it says where standard error is not closed.
ends() {
    is=yes
    [ "$status" = "$2" ] || is="status $status"
    case $streams in *2*) [ ! -s err ] || is="standard error $(cat err)" ;; *) [ "$(cat err)" = "$3" ] || is="standard error $(cat err)" ;; esac
    [ "$4" = true ] || is='another image'
    [ ! -e image.keys ] || [ "$(head -c 8 image.keys)" = CORDKEYS ] || is='other keys'
    [ ! -e image.new ] || is='image.new'
    if [ "$is" = yes ]; then
        passed=$((passed + 1))
    else
        failed=$((failed + 1))
        echo "FAILED: $1, closed $streams: $is" >&2
    fi
}
if_true() { if "$@"; then echo true; else echo false; fi; }

# A tool that needs its output ends by `write` where that is closed, and the editor by `read` where its keys are.
try_closed() {
    by=$1 && shift
    for streams in 0 1 2 01 02 12 012; do
        case $streams in *1*) got=3 said=write ;; *) got=0 said='' ;; esac
        image_of_text image
        with_closed "$streams" "$by" commit image text
        ends commit "$got" "$said" "$(if_true is_whole image two)"
        [ "$got" = 3 ] || { [ "$(cat out)" = 'committed 2' ] && passed=$((passed + 1)) || failed=$((failed + 1)); }
        rm -f image
        with_closed "$streams" "$by" commit image text
        ends 'a first commit' "$got" "$said" "$(if_true is_whole image two)"
        for words in 'apply script text' 'apply --onto old onto' 'migrate old'; do
            # shellcheck disable=SC2086 # words
            with_closed "$streams" "$by" $words
            ends "$words" "$got" "$said" "$(if_true is_whole old one)"
            [ "$got" = 3 ] || { "$program" check out $(case $words in *text) echo text ;; esac) > answer && passed=$((passed + 1)) || failed=$((failed + 1)); }
        done
        case $streams in *1*) ;; *0*) got=3 said=read ;; esac
        for words in 'edit image' 'edit image text' 'edit --keep=image.keys image' 'edit --keep=image.keys image text' \
            'edit --onto=old image' 'edit --onto=image --keep=image.keys image'; do
            image_of_text image
            case $words in *--onto=image*) ;; *) rm -f image ;; esac
            # shellcheck disable=SC2086 # words
            with_closed "$streams" "$by" $words
            case $got$words in
            3*--onto=image*) text='is_whole image one' ;;
            3*) text='test ! -e image' ;;
            0*text) text='"$program" check image text' ;;
            0*--onto*) text='is_whole image XYone' ;;
            0*) text='is_whole image XY' ;;
            esac
            ends "$words" "$got" "$said" "$(if_true eval "$text > answer")"
        done
    done
}
printf 'XY\030' > typed
printf 'open 0\ninsert 0 0 "XY"\n' > script
printf 'insert 1 0 "XY"\n' > onto
image_of_text old
try_closed "$program"
[ -z "$launcher" ] || try_closed "$launcher"

echo "$passed passed, $failed failed"
[ "$failed" = 0 ]
