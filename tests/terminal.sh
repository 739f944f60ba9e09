#!/bin/sh
# Runs bin/cordedit, or $CORDEDIT, in a terminal of 80 columns and 24 rows that tmux keeps, with the built program, or the one that $1 names. It
# types keys, and compares the screens, the saved image and the terminal's mode with what they have to be. The last line is
# 'N passed, M failed'; the status is not 0 where a case failed. Where there is no tmux it says so, and nothing is tried.
set -u
top=$(cd "$(dirname "$0")/.." && pwd)
program=${1:-$top/crates/cordkit/out/cordkit}
cordedit=${CORDEDIT:-$top/bin/cordedit}
case $program in
/*) ;;
*) program=$PWD/$program ;;
esac
if ! command -v tmux > /dev/null; then
    echo "there is no tmux here: nothing was tried"
    echo "0 passed, 0 failed"
    exit 0
fi
if ! [ -x "$program" ]; then
    echo "there is no program $program" >&2
    echo "0 passed, 1 failed"
    exit 1
fi
room=$(mktemp -d) || exit 1

# A tmux of its own, which no other one sees, and another one for each session.
session=0
in_tmux() {
    LC_ALL=C.UTF-8 tmux -f "$room/tmux.conf" -S "$room/socket$session" "$@"
}

trap 'in_tmux kill-server 2> /dev/null; rm -rf "$room"' EXIT
trap 'exit 1' HUP INT TERM
cd "$room" || exit 1

cat > tmux.conf << 'CONF'
set -g status off
set -g escape-time 0
set -g default-terminal screen
CONF

# What runs in the terminal: cordedit with its words, then what became of the status and of the mode. The file `editor` has its
# process.
cat > session.sh << 'SESSION'
before=$(stty -g)
got=0
sh -c 'echo $$ > editor; exec "$@"' sh "$CORDEDIT" "$@" || got=$?
[ "$(stty -g)" = "$before" ] && mode=restored || mode=changed
echo "status $got, mode $mode"
read -r answer
echo "read $answer"
sleep 600
SESSION

passed=0
failed=0

passes() {
    passed=$((passed + 1))
}

fails() {
    failed=$((failed + 1))
    echo "FAILED: $1"
}

is_same() {
    if [ "$2" = "$3" ]; then
        passes
    else
        fails "$1: '$2' for '$3'"
    fi
}

# Starts cordedit on these words in a terminal of its own.
start() {
    in_tmux kill-server 2> /dev/null
    session=$((session + 1))
    rm -f editor
    in_tmux new-session -d -x 80 -y 24 -e "CORDKIT=$program" -e "CORDEDIT=$cordedit" sh session.sh "$@"
}

# Types text as it stands, and keys by their names.
type_text() {
    in_tmux send-keys -l "$1"
}

press() {
    in_tmux send-keys "$@"
}

# The screen, and where the cursor stands, as column and row counted from 0.
shown() {
    in_tmux capture-pane -p
    in_tmux display-message -p 'cursor #{cursor_x} #{cursor_y}'
}

# 23 rows, of which the first ones are these, the row of the status, and the cursor.
wanted() {
    status=$1
    cursor=$2
    shift 2
    rows=0
    for row; do
        printf '%s\n' "$row"
        rows=$((rows + 1))
    done
    while [ "$rows" -lt 23 ]; do
        echo
        rows=$((rows + 1))
    done
    printf '%s\n%s\n' "$status" "cursor $cursor"
}

# Waits, ten seconds at most, until what a command prints is the file `wanted`: a case of this name.
awaits() {
    name=$1
    what=$2
    shift 2
    tries=0
    while "$@" > printed 2> /dev/null; ! cmp -s printed wanted; do
        tries=$((tries + 1))
        if [ "$tries" -ge 100 ]; then
            fails "$name, where $what:"
            cat printed
            return
        fi
        sleep 0.1
    done
    passes
}

screen() {
    name=$1
    shift
    wanted "$@" > wanted
    awaits "$name" 'the screen is' shown
}

first_rows() {
    in_tmux capture-pane -p | head -n "$1"
}

# What the session writes once the editor is gone.
ended() {
    name=$1
    shift
    printf '%s\n' "$@" > wanted
    awaits "$name" 'the screen begins' first_rows $#
}

text_of() {
    "$program" show "$@" | od -An -tx1 | tr -d ' \n'
}

# A text that is typed, and every kind of key.
start image
screen 'the first frame' 'rev 0 byte 0 of 0' '0 0'
type_text ab
screen 'two bytes are typed' 'rev 2 byte 2 of 2' '2 0' ab
press Enter
screen 'a line is ended' 'rev 3 byte 3 of 3' '0 1' ab
type_text cde
screen 'a second line is typed' 'rev 6 byte 6 of 6' '3 1' ab cde
press C-b
screen 'left' 'rev 6 byte 5 of 6' '2 1' ab cde
press C-p
screen 'up to the same column' 'rev 6 byte 2 of 6' '2 0' ab cde
press C-a C-f
screen 'to the start of the line, and right' 'rev 6 byte 1 of 6' '1 0' ab cde
press C-n
screen 'down to the same column' 'rev 6 byte 4 of 6' '1 1' ab cde
press C-a C-Space C-e
screen 'the mark, and the end of the line' 'rev 6 byte 6 of 6' '3 1' ab cde
press C-w
screen 'the second line is cut' 'rev 7 byte 3 of 3' '0 1' ab
press C-p C-y
screen 'it is pasted before the first one' 'rev 8 byte 3 of 6' '3 0' cdeab
press C-u
screen 'the paste is undone' 'rev 9 byte 3 of 3' '0 1' ab
press C-u
screen 'the cut is undone' 'rev 10 byte 3 of 6' '0 1' ab cde
press BSpace
screen 'the line break is erased' 'rev 11 byte 2 of 5' '2 0' abcde
press C-d
screen 'a byte is erased' 'rev 12 byte 2 of 4' '2 0' abde
press C-l C-g C-v C-s C-q C-z
screen 'a balance, and keys that do nothing' 'rev 13 byte 2 of 4' '2 0' abde
press C-x
ended 'saved' 'cordedit: saved image, 14 revisions' 'status 0, mode restored'
type_text back
press Enter
ended 'the terminal echoes and reads lines' 'cordedit: saved image, 14 revisions' 'status 0, mode restored' back 'read back'
case $("$program" check image) in
'accepted 14 revisions '*) passes ;;
*) fails 'the image is accepted' ;;
esac
is_same 'the last revision' "$(text_of image 13)" 61626465
is_same 'the revision of the paste' "$(text_of image 8)" 63646561620a
is_same 'the first revision' "$(text_of image 0)" ''

# The text of a file, with a byte that is shown as a question mark.
printf 'one\n\ttwo\n' > file
start copy file
screen 'a file' 'rev 0 byte 0 of 9' '0 0' one '?two'
type_text x
screen 'a byte before it' 'rev 1 byte 1 of 10' '1 0' xone '?two'
press C-x
ended 'saved beside its file' 'cordedit: saved copy, 2 revisions' 'status 0, mode restored'
case $("$program" check copy file) in
'accepted 2 revisions '*) passes ;;
*) fails 'the image with its file is accepted' ;;
esac
is_same 'the text over the file' "$(text_of copy 1 file)" 786f6e650a0974776f0a

# Ways out.
start none
screen 'before it is left' 'rev 0 byte 0 of 0' '0 0'
press C-c
ended 'left' 'status 0, mode restored'
is_same 'no image is written' "$(ls none 2> /dev/null)" ''
start missing/image
ended 'a folder that is not there' write 'write: the image missing/image, the file of keys or standard output could not be' \
    ' written' 'status 3, mode restored'
start image
screen 'an image that is there' 'rev 13 byte 0 of 4' '0 0' abde
press C-e
type_text f
screen 'a byte behind its text' 'rev 14 byte 5 of 5' '5 0' abdef
press C-u C-u C-u
screen 'undo crosses what was saved' 'rev 17 byte 4 of 5' '4 0' abcde
press C-x
ended 'saved again' 'cordedit: saved image, 18 revisions' 'status 0, mode restored'
is_same 'the text before and behind' "$(text_of image 13) $(text_of image 14) $(text_of image 17)" '61626465 6162646566 6162636465'
start -f image
screen 'an image that is replaced' 'rev 0 byte 0 of 0' '0 0'
press C-c
ended 'it stays until Save' 'status 0, mode restored'
case $("$program" check image) in
'accepted 18 revisions '*) passes ;;
*) fails 'the image is as it was' ;;
esac
start copy
ended 'an image without its file' 'refused C2' 'C2: copy was made over one source, of 9 bytes, and 0 are given' 'status 1, mode restored'
start copy file
screen 'an image with its file' 'rev 1 byte 0 of 10' '0 0' xone '?two'
press C-c
ended 'left' 'status 0, mode restored'
start --discard none
ended 'no keys are kept' 'cordedit: no keys are kept for none' 'status 1, mode restored'
start none missing
ended 'a message comes behind the screen' read 'read: there is no file missing' 'status 3, mode restored'
start none
screen 'before a signal' 'rev 0 byte 0 of 0' '0 0'
kill -TERM "$(cat editor)"
ended 'a signal' 'status 143, mode restored'
start typed
screen 'before keys of a terminal' 'rev 0 byte 0 of 0' '0 0'
type_text abc
press Left Left
screen 'an arrow types nothing' 'rev 3 byte 1 of 3' '1 0' abc
press Home DC End M-x
screen 'Home, Delete, End, and Alt and a key' 'rev 4 byte 2 of 2' '2 0' bc
printf 'x\030y' > pasted
in_tmux load-buffer -b pasted pasted
in_tmux paste-buffer -p -r -d -b pasted
screen 'a paste has no command' 'rev 6 byte 4 of 4' '4 0' bcxy
press C-c
ended 'left with keys' 'cordedit: not saved; the keys are kept: the same command goes on from there, and' \
    " cordedit --discard 'typed' drops them" 'status 0, mode restored'
start typed
screen 'gone on from the keys' 'rev 6 byte 4 of 4' '4 0' bcxy
press C-x
ended 'saved from there' 'cordedit: saved typed, 7 revisions' 'status 0, mode restored'
is_same 'the text that was kept' "$(text_of typed 6) $(ls typed*)" '62637879 typed'

# A paste under whose first lines the file of keys is full: none of its lines runs in the shell.
in_tmux kill-server 2> /dev/null
session=$((session + 1))
in_tmux new-session -d -x 80 -y 24 -e "CORDKIT=$program" -e "CORDEDIT=$cordedit" -e 'PS1=> ' \
    sh -c 'trap "" XFSZ; ulimit -f 1; exec sh -i'
yes "touch ran # $(printf %0100d 0)" | head -n 285 > pasted
type_text 'clear; "$CORDEDIT" full; echo "status $?"; touch ended'
press Enter
screen 'before the paste' 'rev 0 byte 0 of 0' '0 0'
in_tmux load-buffer -b pasted pasted
in_tmux paste-buffer -p -d -b pasted
ended 'a full file of keys' write 'write: full.keys could not be written: it would be longer than a file may be' \
    "cordedit: not saved; the keys are kept: the same command goes on from there, and" " cordedit --discard 'full' drops them" 'status 3'
sleep 2
is_same 'no line of the paste ran' "$(ls ran ended 2> /dev/null)" ended
type_text 'echo typed > typed_then'
press Enter
sleep 1
is_same 'what is typed then runs' "$(cat typed_then 2> /dev/null)" typed
rm -f full.keys

# Keys that are no terminal's.
got=0
printf 'a\030' | CORDKIT=$program "$cordedit" piped > frames || got=$?
is_same 'keys from a pipe' "$got $(text_of piped 1)" '0 61'

# Long work tells how far it is where standard error is a terminal, and wipes the line.
percent() {
    in_tmux capture-pane -p | sed -n 's/^[0-9]* % of \([0-9]* bytes\)$/a part of \1/p'
}
truncate -s 17179869184 sparse
in_tmux kill-server 2> /dev/null
session=$((session + 1))
in_tmux new-session -d -x 80 -y 24 sh -c '"$0" find --all 0 xyz sparse; echo "status $?"; sleep 600' "$program"
echo 'a part of 17179869184 bytes' > wanted
awaits 'long work' 'the line is' percent
echo 'status 1' > wanted
for _ in 1 2 3 4 5 6; do
    in_tmux capture-pane -p | grep -q status || sleep 10
done
awaits 'long work that ended' 'the screen is' first_rows 1
is_same 'no terminal' "$("$program" find --all 0 xyz sparse 2>&1; echo "status $?")" 'status 1'
in_tmux kill-server 2> /dev/null
session=$((session + 1))
in_tmux new-session -d -x 80 -y 24 sh -c '"$0" find --all --quiet 0 xyz sparse; echo "status $?"; sleep 600' "$program"
sleep 3
is_same 'long work that is quiet' "$(in_tmux capture-pane -p | head -n 1)" ''

echo "$passed passed, $failed failed"
[ "$failed" = 0 ]
