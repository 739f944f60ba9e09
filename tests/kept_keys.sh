#!/bin/sh
# kept_keys.sh [CASE...]: types keys into the built program or $CORDKIT, by pipes and by bin/cordedit or $CORDEDIT in a terminal that tmux keeps, ends it in
# each way that its users and their systems may end it, with a second session beside it, and goes on. The last line is 'N passed, M failed'; the
# status is not 0 where a case failed. Where there is no tmux that is told, and the cases that need no terminal are tried: those named
# pipes, which the gate runs. KILLS=N: so many rounds of random keys and kills.
set -u
here=$(cd "$(dirname "$0")/.." && pwd)
: "${CORDKIT:=$here/crates/cordkit/out/cordkit}" "${CORDEDIT:=$here/bin/cordedit}"
export CORDKIT
if ! [ -x "$CORDKIT" ]; then
    echo "there is no program $CORDKIT" >&2
    echo "0 passed, 1 failed"
    exit 1
fi
pipes='over_another kept_by_name restores discarding gone_on two_files_of_keys left_behind no_room words_of_the_script goes_on between_renames two_over_one at_once modes'
if ! command -v tmux > /dev/null; then
    echo "there is no tmux here: nothing was tried in a terminal"
    # shellcheck disable=SC2086 # words
    [ $# -gt 0 ] || set -- $pipes
fi
room=$(mktemp -d) || exit 1
session=0
in_tmux() { LC_ALL=C.UTF-8 tmux -f "$room/tmux.conf" -S "$room/socket$session" "$@"; }
trap 'in_tmux kill-server 2> /dev/null; kill "$a" "$b" 2> /dev/null; cd /; rm -rf "$room"' EXIT
trap 'exit 1' HUP INT TERM
cd "$room" || exit 1
printf 'set -g status off\nset -g escape-time 0\nset -g default-terminal screen\n' > tmux.conf
passed=0 failed=0 a='' b=''
is() { if [ "$2" = "$3" ]; then passed=$((passed + 1)); else failed=$((failed + 1)); echo "FAILED: $1: '$2' for '$3'"; fi; }
await() { n=0; until "$@" 2> /dev/null; do n=$((n + 1)); [ "$n" -lt 500 ] || { echo "no: $*"; return 1; }; sleep 0.02; done; }

cat > session.sh << 'SESSION'
trap : INT
before=$(stty -g)
sh -c 'echo $$ > wrapper; exec "$@"' sh sh "$CORDEDIT" "$@" 2> said
got=$?
sleep 0.1
[ "$(stty -g)" = "$before" ] && mode=restored || mode=changed
cat said
echo "$got $mode" > status
read -r answer
echo "$answer" > answer
sleep 600
SESSION
size='-x 80 -y 24'
start() {
    in_tmux kill-server 2> /dev/null
    session=$((session + 1))
    rm -f wrapper status answer
    # shellcheck disable=SC2086 # words
    in_tmux new-session -d $size -e "CORDKIT=$CORDKIT" -e "CORDEDIT=$CORDEDIT" sh session.sh "$@"
}
start_beside() { in_tmux new-window -d sh -c '"$0" "$@" 2> said_beside' "$CORDEDIT" "$@"; }
paste() { in_tmux load-buffer -b k "$1" && in_tmux paste-buffer -r -d -b k; }
keys() { in_tmux send-keys "$@"; }
type_text() { in_tmux send-keys -l "$1"; }
shows() { in_tmux capture-pane -p | grep -qF "$1"; }
program_id() { pgrep -f "edit --explain --keep=image[.]keys" | while read -r id; do [ "$(readlink "/proc/$id/cwd")" != "$room" ] || echo "$id"; done; }
is_stopped() { ps -o stat= -p "$(cat wrapper)" | grep -q T; }
none_left() { [ -z "$(program_id)" ]; }
ended() { await test -s status; }
body() { tail -c +57 image.keys; }
last() { echo $(($("$CORDKIT" check image "$@" | cut -d ' ' -f 2) - 1)); }
text() { "$CORDKIT" show image "$(last "$@")" "$@"; }
clean() { rm -rf image image.*; }
ready() { start "$@"; await shows 'rev 0 byte'; }
refused() { name=$1; shift; start "$@"; ended; is "$name" "$(cut -d ' ' -f 1 status) $(cat said)" "$wanted"; }

basic() {
    clean; ready image; type_text abc; await shows 'rev 3'; is 'kept' "$(body)" abc
    keys C-x; ended; is 'saved' "$(cat status) $(text) $(echo image*)" '0 restored abc image'
    type_text next; keys Enter; await test -s answer; is 'no key is eaten after Save' "$(cat answer)" next
    start image; await shows 'rev 3 byte 0 of 3'; type_text d; await shows 'rev 4'; keys C-x; ended; is 'goes on with what is there' "$(cat status) $(text) $(echo image*)" '0 restored dabc image'
    start image; await shows 'rev 4 byte 0 of 4'; keys C-u; await shows 'rev 5 byte 0 of 3'; keys C-c; ended; is 'undo crosses Save' "$(cat status) $(tail -c 1 image.keys | od -An -tx1) $(text)" '0 restored  15 dabc'
    wanted="2 cordedit: image.keys has keys over the image that is there: without -f the same command goes on from there, and cordedit --discard 'image' drops them"; refused 'they are not over the file' -f image
    start image; await shows 'rev 5 byte 0 of 3'; keys C-x; ended; is 'goes on from there' "$(cat status) $(text) $(echo image*)" '0 restored abc image'
    ready -f image; type_text new; keys C-x; ended; is 'replaced' "$(text) $(echo image*)" 'new image image.saved-1'
    clean; ready image; type_text abc; await shows 'rev 3'; keys C-c; ended; is 'left' "$(cat status) $(body) $(echo image*)" '0 restored abc image.keys'; sed 's/^/    /' said
    start image; await shows 'rev 3 byte 3 of 3'; type_text d; await shows 'rev 4'; is 'goes on' "$(body)" abcd; keys C-x; ended; is 'saved' "$(text) $(echo image*)" 'abcd image'
    clean; ready image; keys C-c; ended; is 'no key, no journal' "$(echo image*)" 'image*'
    printf 'one\ntwo\n' > file; ready image file; keys Down Left End Home Right; await shows 'byte 1 of 8'; keys C-c; ended; is 'only looked' "$(cat status said) $(echo image*)" '0 restored image*'; rm -f file
    ready image; type_text abc; await shows 'rev 3'; keys C-c; ended; start --discard image; ended; is 'discarded' "$(cat status) $(echo image*)" '0 restored image*'
    clean; printf 'prose' > image; wanted='1 refused C1(I3)
C1(I3): image is no image: it does not begin with CORDSESS. It stays as it is: move it away and give the same command again, or name another image'; refused 'prose' -f image; is 'as it was' "$(cat image) $(echo image*)" 'prose image'
    wanted='1 refused C1(I3)
C1(I3): image.new is no image: it does not begin with CORDSESS. It stays as it is: move it away and give the same command again, or name another image'; rm -f image; printf 'torn' > image.new; refused 'no image beside it' image; is 'as it was' "$(cat image.new) $(echo image*)" 'torn image.new'
    : > image.new; ready image; type_text a; await shows 'rev 1'; keys C-x; ended; is 'an empty one is replaced' "$(text) $(echo image*)" 'a image'; printf 'prose' > image
    "$CORDKIT" edit image < /dev/null > out 2> err; is 'prose, without the option' "$? $(cat err) $(wc -c < out) $(cat image)" '1 refused C1(I3) 0 prose'
    rm -f image; echo mine > image.keys; wanted='1 refused J1
J1: image.keys has the keys of another file or image, or something else'; refused 'no journal' image; is 'as it was' "$(cat image.keys)" mine; clean
    printf 'one\ntwo\n' > file; ready image file; type_text x; await shows 'rev 1'; keys C-c; ended; echo three >> file; wanted='1 refused J1
J1: image.keys has the keys of another file or image, or something else
cordedit: not saved; the keys are kept: over the file that they belong to the same command goes on from there, and cordedit --discard '"'image'"' drops them'; refused 'another text' image file
    printf 'one\ntwo\n' > file; start image file; await shows 'rev 1'; keys C-x; ended; printf 'xone\ntwo\n' > want; "$CORDKIT" show image 1 file | cmp - want && is 'the same text again' '' ''
    start image file; await shows 'rev 1'; type_text y; await shows 'rev 2'; keys C-c; ended; wanted='1 refused J1
J1: image.keys has the keys of another file or image, or something else
cordedit: not saved; the keys are kept: over the image and the file that they belong to the same command goes on from there, and cordedit --discard '"'image'"' drops them'; refused 'no file' image
    start image file; await shows 'rev 2'; keys C-x; ended; is 'and its file' "$(cat status) $(text file | head -n 1)" '0 restored yxone'
    clean; ready image; type_text a; await shows 'rev 1'; mkdir -p other; "$CORDKIT" edit --keep=image.keys image < /dev/null > /dev/null 2> err; is 'in use' "$? $(cat err)" '1 refused J2'; keys C-x; ended; is 'not disturbed' "$(text)" a
    clean; mkdir image; wanted='3 write
write: image could not be written: it is a folder'; refused 'a folder' -f image; clean
    head -c 30 /dev/zero > zero; "$CORDKIT" edit --keep=image.keys image < /dev/null > /dev/null; is 'nothing typed' "$(echo image*)" 'image*'
    printf 'abc\003' | "$CORDKIT" edit --keep=image.keys image > /dev/null; for n in 0 1 17 55; do head -c $n image.keys > torn.keys; printf 'Q\030' | "$CORDKIT" edit --keep=torn.keys image > /dev/null; is "torn at $n" "$? $(text) $(echo torn*)" '0 Q torn*'; rm -f image; done
    clean
}

sequences() {
    clean; ready image; type_text ab; keys Left; type_text c; keys Home; type_text d; keys End; type_text e; await shows 'rev 5'; is 'sequences' "$(body | od -An -c | tr -d ' \n')" 'ab002c001d005e'
    kill -9 "$(program_id)"; ended; start image; await shows 'rev 5'; keys C-x; ended; is 'sequences' "$(text)" dacbe
    # an escape and [, and no more, at a crash
    clean; ready image; type_text ab; await shows 'rev 2'; printf '\033[' > half; paste half; sleep 0.1; kill -9 "$(program_id)"; ended; is 'half a sequence is not kept' "$(body)" ab
    start image; await shows 'rev 2'; type_text Ac; await shows 'rev 4'; keys C-x; ended; is 'what follows is typed' "$(text)" abAc; clean
    # answers of a terminal, Alt and a key, and a string without an end, which Ctrl-A ends
    ready image; printf 'a\033]11;rgb:0000/0000/0000\033\\b\033]11;rgb:ffff/ffff/ffff\007c\033P>|XTerm(388)\033\\d\033(Be\033xf\033_Gi=1;OK' > answers; paste answers; await shows 'rev 6'
    is 'no answer is typed' "$(body)" abcdef; keys C-a; type_text g; await shows 'rev 7'; keys C-x; ended; is 'a string without an end' "$(text)" gabcdef; clean
}

pastes() {
    clean; ready image; printf 'a\030\003\tb\r\nc' > typed; in_tmux load-buffer -b k typed; in_tmux paste-buffer -p -r -d -b k; await shows 'rev 5'; keys C-x; ended
    printf 'a\tb\nc' > want; text > got; cmp -s got want; is 'a paste has no command' "$?" 0; clean
}

# What a terminal is shown: a first screen with a name, the bytes that were not taken, and of a paste of 9,712 bytes a few frames.
row() { in_tmux capture-pane -p | tail -n 1; }
watched() {
    clean; ready image; await shows leaves; is 'a first screen' "$(row)" 'rev 0 byte 0 of 0 image  Ctrl-X saves  Ctrl-C leaves'
    type_text a; await shows 'rev 1'; is 'until the first key' "$(row)" 'rev 1 byte 1 of 1'
    printf '\303\251\200' > bytes; paste bytes; await shows 'taken: 3'; is 'typed bytes' "$(row)" 'rev 1 byte 1 of 1 bytes not taken: 3'
    type_text b; await shows 'rev 2'; is 'and over what is typed behind them' "$(row)" 'rev 2 byte 2 of 2 bytes not taken: 3'
    keys Left; await shows 'byte 1'; is 'until another key' "$(row)" 'rev 2 byte 1 of 2'; keys Right; await shows 'byte 2'
    printf '\303\251c' > bytes; in_tmux load-buffer -b k bytes; in_tmux paste-buffer -p -r -d -b k; await shows taken; is 'pasted bytes' "$(row)" 'rev 3 byte 3 of 3 bytes not taken: 2'
    kill -s TSTP "$(cat wrapper)"; await is_stopped; kill -s CONT "$(cat wrapper)"; await shows taken; is 'and behind a stop' "$(row)" 'rev 3 byte 3 of 3 bytes not taken: 2'
    keys C-x; ended; is 'saved' "$(cat status) $(text)" '0 restored abc'
    clean; ready image; in_tmux pipe-pane 'cat > frames'; head -c 9712 /dev/zero | tr '\0' x > typed; paste typed; await shows 'rev 9712'; in_tmux pipe-pane
    n=$(grep -ao '\[2J' frames | wc -l); echo "    $n frames"; is 'a long paste has few frames' "$([ "$n" -gt 0 ] && [ "$n" -lt 500 ] && echo few)" few
    is 'and each key is kept' "$(body | wc -c)" 9712; keys C-x; ended; is 'saved' "$(cat status) $(text | wc -c)" '0 restored 9712'; rm -f bytes typed frames; clean
}

# In fewer rows than a frame has the cursor's row is shown, and the message's.
at_cursor() { in_tmux capture-pane -p | sed -n "$(($(in_tmux display-message -p '#{cursor_y}') + 1))p"; }
few_rows() {
    for n in 23 12 3; do
        clean; seq 40 > file; size="-x 80 -y $n"; ready image file; await shows leaves; is "$n rows: the first line" "$(in_tmux capture-pane -p | head -n 1) $(at_cursor)" '1 1'
        for line in 2 12 13 14 25 40; do
            while [ "$(in_tmux capture-pane -p | tail -n 1 | cut -d ' ' -f 4)" -lt "$(head -n $((line - 1)) file | wc -c)" ]; do keys Down; sleep 0.05; done
            is "$n rows: line $line" "$(at_cursor) $(row)" "$line rev 0 byte $(head -n $((line - 1)) file | wc -c) of $(wc -c < file)"
        done
        keys C-c; ended
    done
    size='-x 80 -y 23'; ready image file; in_tmux resize-window -x 80 -y 30; await shows 23; in_tmux resize-window -x 80 -y 10; sleep 0.3; await shows leaves; is 'after a change' "$(at_cursor) $(in_tmux capture-pane -p | wc -l)" '1 10'
    keys C-c; ended; size='-x 80 -y 24'; rm -f file; clean
    clean; size='-x 80 -y 24'; ready image; await shows leaves; type_text a; await shows 'rev 1'; in_tmux resize-window -x 80 -y 2; await shows fewer
    in_tmux resize-window -x 80 -y 12; await shows 'rev 1'; keys C-x; ended; is 'saved once, behind a window that was too small' "$(cat status) $(text)" '0 restored a'; clean
}

options() {
    clean; printf 'one\n' > file; ready --copy --text out image file; type_text x; await shows 'rev 1'; keys C-x; ended
    is 'a text, and a copy' "$(cat status) $(cat out) $(cat image.0) $(echo image*)" '0 restored xone one image image.0 image.sources'
    ready --continue image next file; type_text y; await shows 'rev 1'; keys C-c; ended; start --continue image next file; await shows 'rev 1'; keys C-x; ended
    is 'goes on from the last text' "$(cat status) $("$CORDKIT" show next 1 next.0) $(echo next*)" '0 restored yxone next next.0 next.sources'
    wanted='2 cordedit: file is the file itself, over which the image stands'; refused 'the file as OUT' --text file new file
    rm -f out next next.0 next.sources; ready --text out image2 file; keys C-c; ended; is 'left with no key' "$(cat status) $(echo out* image2*)" '0 restored out* image2*'; rm -f file; clean
}

folders() {
    [ "$(id -u)" != 0 ] || { echo '    as root each folder can be written'; return; }
    mkdir -p closed; printf 'abc\030' | "$CORDKIT" edit closed/image > /dev/null; chmod 555 closed
    printf 'abcd\030' | "$CORDKIT" edit closed/image > /dev/null 2> said; is 'a closed folder: what is there can have no other name' "$? $(cat said) $("$CORDKIT" show closed/image 3)" '3 write abc'
    printf 'abcd\030' | "$CORDKIT" edit --replace closed/image > /dev/null; is 'a closed folder' "$? $("$CORDKIT" show closed/image 4)" '0 abcd'
    wanted='3 write
write: closed/image.keys could not be written: the rights of the file or of its folder are against it'; refused 'a closed folder' -f closed/image; chmod 755 closed; rm -rf closed
}

signals() {
    for signal in TERM HUP QUIT INT; do
        clean; ready image; type_text abc; await shows 'rev 3'; kill -s $signal "$(cat wrapper)"; ended; await none_left
        is "$signal" "$(cut -d ' ' -f 2 status) $(body) $(echo image*)" 'restored abc image.keys'; echo "    $signal: status $(cat status)"
    done
    clean; ready image; type_text abc; await shows 'rev 3'; kill -s TSTP "$(cat wrapper)"; await is_stopped; is 'stopped: no program' "$(program_id)" ''
    kill -s CONT "$(cat wrapper)"; await shows 'rev 3'; type_text d; await shows 'rev 4'; keys C-x; ended; is 'stopped, and gone on' "$(cat status) $(text)" '0 restored abcd'
    clean; ready image; type_text abc; await shows 'rev 3'; in_tmux kill-pane; await none_left; is 'the pane is closed' "$(body) $(echo image*)" 'abc image.keys'
    clean; ready image; type_text abc; await shows 'rev 3'; in_tmux kill-server; await none_left; is 'tmux is ended' "$(body) $(echo image*)" 'abc image.keys'
    clean; ready image; type_text abc; await shows 'rev 3'; kill -9 "$(program_id)"; ended; is 'the program is killed' "$(cat status) $(body)" '137 restored abc'; sed 's/^/    /' said
    clean; ready image; type_text abc; await shows 'rev 3'; kill -9 "$(cat wrapper)"; ended; await none_left; is 'the wrapper is killed' "$(cat status) $(body)" '137 restored abc'
    type_text next; keys Enter; await test -s answer; is 'no key is eaten then' "$(cat answer) $(body)" 'next abc'; in_tmux kill-server; clean
    ready image; type_text abc; await shows 'rev 3'; in_tmux resize-window -x 79 -y 24; await shows 'the window has fewer'; in_tmux resize-window -x 90 -y 30; await shows 'rev 3 byte 3 of 3'
    type_text d; await shows 'rev 4'; in_tmux resize-window -x 80 -y 2; await shows 'the window has'; keys C-c; ended; is 'left in a small window' "$(cat status) $(body)" '130 restored abcd'; clean
    write_other theirs; ready image; type_text abc; await shows 'rev 3'; kill -s TSTP "$(cat wrapper)"; await is_stopped
    printf 'd\030' | "$CORDKIT" edit --keep=image.keys image > /dev/null; kill -s CONT "$(cat wrapper)"; ended
    is 'stopped, and another one saves' "$(cat status) $(head -n 1 said) $(text) $(files)" '1 restored refused J5 abcd image'; clean
    ready image; kill -s TSTP "$(cat wrapper)"; await is_stopped; kill -s CONT "$(cat wrapper)"; await shows 'rev 0'; type_text a; await shows 'rev 1'
    cat other.cord > image; keys C-x; ended; is 'another image meanwhile' "$(cat status) $(head -n 1 said) $(grep -c 'with -f the same command' said) $(image_of image) $(image_of image.saved-1) $(body)" '1 restored refused J4 1 theirs a a'; clean
    ready --text out image; type_text abc; await shows 'rev 3'; start_beside image; await grep -q J2 said_beside; keys C-x; ended
    is 'a second session takes nothing away' "$(cat status) $(cat out) $(files) $(grep -c discard said_beside)" '0 restored abc image 0'; rm -f out said_beside; clean
    ready --text missing/out image; type_text abc; await shows 'rev 3'; keys C-x; ended; is 'what was asked for is not written' "$(cat status) $(tail -n 1 said) $(text)" '3 restored cordedit: missing/out could not be written abc'; clean
    printf 'xy\030' | "$CORDKIT" edit image > /dev/null; start image; await shows 'rev 2'; type_text abc; await shows 'rev 5'; kill -s TSTP "$(cat wrapper)"; await is_stopped; is 'stopped over an image' "$(program_id)$(body)" abc
    kill -s CONT "$(cat wrapper)"; await shows 'rev 5 byte 3 of 5'; type_text d; await shows 'rev 6'; keys C-x; ended; is 'and gone on' "$(cat status) $(text) $(files)" '0 restored abcdxy image'
    start image; await shows 'rev 6'; type_text e; await shows 'rev 7'; cat other.cord > image; keys C-x; ended; is 'another image meanwhile, over an image' "$(cat status) $(head -n 1 said) $(tail -n 1 said) $(image_of image) $(image_of image.saved-1) $(body)" \
        "1 restored refused J4 cordedit: not saved; the keys are kept: they belong to the image that was there, and cordedit --discard 'image' drops them theirs eabcdxy e"
    start image; ended; is 'keys over what is gone' "$(cat status) $(head -n 1 said) $(tail -n 1 said)" "1 restored refused J1 cordedit: not saved; the keys are kept: over the image and the file that they belong to the same command goes on from there, and cordedit --discard 'image' drops them"; clean
    printf 'xy\030' | "$CORDKIT" edit image > /dev/null; printf abc | "$CORDKIT" edit --onto=image --keep=image.keys image > /dev/null
    printf '#!/bin/sh\nmv image.keys image.keys.saved\nkill -9 $$\n' > within_save; chmod +x within_save; program=$CORDKIT; CORDKIT=$room/within_save; start image; ended; CORDKIT=$program
    is 'killed within Save' "$(cat status) $(grep cordedit said)" '137 restored cordedit: ended within Save: the same command goes on with the image, or with its keys where it is not in its place'
    start image; await shows 'rev 5 byte 3 of 5'; keys C-x; ended; is 'and saved' "$(cat status) $(text) $(files)" '0 restored abcxy image'; rm -f within_save; clean
    wanted='2 cordedit: there is no folder missing'; refused 'no folder' missing/image
    wanted='2 cordedit: the terminal has fewer than 80 columns or 3 rows'
    size='-x 79 -y 24'; refused narrow image; size='-x 80 -y 2'; refused low image; size='-x 80 -y 24'; clean
}

# An interactive shell as the parent: where the wrapper was killed, it takes the terminal back, and the program ends, and takes no key of it.
parents() {
    for shell in 'bash --norc -i' 'dash -i'; do
        command -v "${shell%% *}" > /dev/null || continue
        clean; in_tmux kill-server 2> /dev/null; session=$((session + 1))
        # shellcheck disable=SC2086 # words
        in_tmux new-session -d $size -e "CORDKIT=$CORDKIT" "$shell"; sleep 1
        type_text "'$CORDEDIT' image"; keys Enter; await shows 'rev 0 byte'; type_text abc; await shows 'rev 3'
        kill -9 "$(ps -o ppid= -p "$(program_id)" | tr -d ' ')"; await none_left; sleep 0.3
        type_text 'echo ab | tr a-c x-z'; keys C-j; await shows xy; is "$shell takes its keys" "$(body)" abc
    done
    in_tmux kill-server; clean
}

# Keys at random, without Save and Leave, and the program killed at random moments: every revision's text is that of a run that was not.
random_keys() { head -c 20000 /dev/urandom | LC_ALL=C tr -dc 'a-z\r\002\006\001\005\020\016\000\027\031\024\025\014\177\004' | head -c 600; }
kills() {
    for i in $(seq 1 "${KILLS:-10}"); do
        clean; rm -f plain; random_keys > all; printf '\030' | cat all - > saving; "$CORDKIT" edit ${1:+--onto="$1"} plain < saving > /dev/null
        [ $# = 0 ] || cp "$1" image; start image; await shows byte; took=0 rounds=0
        while :; do
            tail -c +$((took + 1)) all > rest
            [ -s rest ] || break
            rm -f part.*; split -b 40 -a 3 -d rest part.
            (for part in part.*; do paste "$part" 2> /dev/null || break; done) & typing=$!
            sleep "0.$(od -An -tu1 -N1 /dev/urandom | awk '{ printf "%03d", $1 }')"
            kill -9 "$(program_id)" 2> /dev/null
            wait $typing; ended; rounds=$((rounds + 1))
            took=$(body | wc -c)
            head -c "$took" all > had; body | cmp -s - had; is "$i: the keys that were taken" "$?" 0
            start image; await shows byte
        done
        keys C-x; ended
        cmp -s image plain; is "$i: the image, after $rounds kills" "$?" 0
    done
    n=$(last); k=0; while [ "$k" -le "$n" ]; do "$CORDKIT" show image "$k" > a; "$CORDKIT" show plain "$k" > b; cmp -s a b || echo "revision $k differs"; k=$((k + 1)); done; echo "    $n revisions of the last session compared"
    clean
}

# The same over an image that is there.
kills_onto() { random_keys > all; printf '\030' | cat all - | "$CORDKIT" edit older > /dev/null; kills older; rm -f older; }

devices() {
    if mkdir -p small && mount -t tmpfs -o size=64k tmpfs small 2> /dev/null; then
        # The image has more than the device.
        head -c 3000 /dev/urandom | LC_ALL=C tr -dc a-z | head -c 1000 > typed; while [ "$(wc -c < typed)" -lt 1000 ]; do printf x >> typed; done
        cp typed most; printf '\030' | cat typed - > saving
        printf 'abc\030' | "$CORDKIT" edit small/image > /dev/null; before=$(cksum < small/image)
        "$CORDKIT" edit --keep=small/image.keys small/image < saving > /dev/null 2> err; is 'a full device' "$? $(cat err) $(ls small | tr '\n' ' ')$(cksum < small/image)" "3 write image image.keys $before"
        tail -c +57 small/image.keys | cmp -s - typed; is 'the keys are kept' "$?" 0
        printf '\030' | "$CORDKIT" edit --keep=small/image.keys image > /dev/null; is 'saved elsewhere' "$? $(ls small)" '0 image'; is 'whole' "$(text)" "$(cat typed)"
        # No room for a key.
        rm -f small/image image; dd if=/dev/zero of=small/filler bs=1k count=60 2> /dev/null
        cat all 2> /dev/null | head -c 0; head -c 30000 /dev/zero | tr '\0' 'y' > many; "$CORDKIT" edit --keep=small/image.keys image < many > /dev/null 2> err; is 'no room for a key' "$? $(cat err)" '3 write'; echo "    $(($(wc -c < small/image.keys) - 56)) keys were kept"
        umount small
    else
        echo "    no tmpfs can be mounted: by ulimit"
        head -c 100000 /dev/urandom | LC_ALL=C tr -dc a-z | head -c 2000 > typed; printf '\030' | cat typed - > saving
        clean; printf 'abc\030' | "$CORDKIT" edit image > /dev/null; before=$(cksum < image)
        (trap '' XFSZ; ulimit -f 8; "$CORDKIT" edit --keep=image.keys image < saving > /dev/null 2> err; echo $? > got); is 'a file that is too large' "$(cat got) $(cat err) $(echo image*) $(cksum < image)" "3 write image image.keys $before"
        body | cmp -s - typed; is 'the keys are kept' "$?" 0
        printf '\030' | "$CORDKIT" edit --keep=image.keys image > /dev/null; is 'saved then' "$? $(echo image*)" '0 image'; is 'whole' "$(text)" "$(cat typed)"
        clean; head -c 30000 /dev/zero | tr '\0' 'y' > many; (trap '' XFSZ; ulimit -f 8; "$CORDKIT" edit --keep=image.keys image < many 2> err > /dev/null; echo $? > got); is 'no room for a key' "$(cat got) $(cat err)" '3 write'; echo "    $(body | wc -c) keys were kept"
    fi
    printf 'abc\030' | "$CORDKIT" edit /dev/full > /dev/null 2> err; is '/dev/full' "$? $(cat err)" '3 write'; [ -c /dev/full ]; is 'a device stays' "$?" 0
    clean; printf 'abc\030' | "$CORDKIT" edit real > /dev/null; chmod 640 real; ln -s real image; printf 'abcd\030' | "$CORDKIT" edit image > /dev/null; is 'a link' "$(text) $(stat -c %a real) $(readlink image)" 'abcd 640 real'; rm -f real; clean
}

speed() {
    head -c 300000 /dev/urandom | LC_ALL=C tr -dc 'a-z \r' | head -c 19999 > typed; printf '\030' | cat typed - > saving
    for option in '' --keep=image.keys; do clean; from=$(date +%s%N); "$CORDKIT" edit $option image < saving > /dev/null; echo "    $(wc -c < typed) keys by a pipe, ${option:-without}: $((($(date +%s%N) - from) / 1000000)) ms"; done
    clean; "$CORDKIT" edit --keep=image.keys image < typed > /dev/null; from=$(date +%s%N); printf '\030' | "$CORDKIT" edit --keep=image.keys image > /dev/null; echo "    as many played, and saved: $((($(date +%s%N) - from) / 1000000)) ms"
    head -c 100000000 /dev/zero > big; for option in '' --keep=image.keys; do clean; from=$(date +%s%N); "$CORDKIT" edit $option image big < /dev/null > /dev/null; echo "    a file of 100 MB opened, ${option:-without}: $((($(date +%s%N) - from) / 1000000)) ms"; done; rm -f big; clean
}

# Two sessions, A and B, whose keys come by pipes: begin A WORDS.., type A KEYS, close A.
begin() {
    who=$1 && shift
    rm -f "$who.in" && mkfifo "$who.in"
    "$CORDKIT" edit --explain "$@" < "$who.in" > "$who.out" 2> "$who.said" 8>&- 9>&- &
    if [ "$who" = A ]; then a=$! && exec 8> A.in; else b=$! && exec 9> B.in; fi
}
# A session may be refused before it reads a key: the pipe is broken then, which ends no more than the process that writes.
type_keys() { if [ "$1" = A ]; then (printf "$2" >&8); else (printf "$2" >&9); fi; }
close() {
    if [ "$1" = A ]; then exec 8>&- && wait "$a" 2> /dev/null; else exec 9>&- && wait "$b" 2> /dev/null; fi
    got=$?
}
has_keys() { [ "$(tail -c +57 "$1")" = "$2" ]; }
# Digests of a file stay beside its image, and are no file of a session.
files() { echo image* | sed 's/^image\*$//; s/ image\.sources$//'; }
image_of() { "$CORDKIT" show "$1" "$(($("$CORDKIT" check "$1" | cut -d ' ' -f 2) - 1))"; }
write_other() { printf 'new\ninsert 0 0 "%s"\n' "$1" > script && "$CORDKIT" apply script > other.cord; }
refusal() { echo "$got $(head -n 1 "$1.said")"; }

# What was there when the session began, what becomes of it meanwhile, and what is in the end there. The keys of what is not in its place stay.
over_another() {
    write_other theirs
    for begun in nothing empty image; do
        for meanwhile in written replaced removed touched; do
            clean
            case $begun in
            empty) : > image ;;
            image) printf 'old\030' | "$CORDKIT" edit image > /dev/null ;;
            esac
            begin A --keep=image.keys image; type_keys A abc; await has_keys image.keys abc
            case $begun.$meanwhile in
            *.written) cat other.cord > image ;;
            *.replaced) cp other.cord moved && mv moved image ;;
            nothing.*) ln -s nowhere image ;;
            *.removed) rm image ;;
            *) sleep 0.02 && touch image ;;
            esac
            there=$(stat -c '%i %s %y' image 2> /dev/null)
            type_keys A '\030'; close A
            is "$begun, $meanwhile" "$(refusal A) $(stat -c '%i %s %y' image 2> /dev/null)" "1 refused J4 $there"
            is "$begun, $meanwhile: the image has another name" "$(image_of image.saved-1) $(grep -c 'the image of the session is .*image.saved-1$' A.said)" 'abc 1'
            is "$begun, $meanwhile: the keys stay" "$(body) $(files)" "abc $([ "$meanwhile.$begun" = removed.image ] || [ "$meanwhile.$begun" = removed.empty ] || printf 'image ')image.keys image.saved-1"
        done
    done
    clean; cp other.cord image; begin A --keep=image.keys --no-clobber image; close A; is 'no image is replaced' "$(refusal A) $(files)" '1 refused J3 image'
    cmp -s image other.cord; is 'it is as it was' "$?" 0
    clean; begin A --keep=image.keys image; type_keys A abc; await has_keys image.keys abc; type_keys A '\003'; close A; cp other.cord image
    begin A --keep=image.keys --no-clobber image; close A; is 'nor by keys that were kept' "$(refusal A) $(body)" '1 refused J3 abc'
    : > image.saved-1; begin A --keep=image.keys image; await grep -q 'rev 3' A.out; cat other.cord > image; type_keys A 'd\030'; close A
    is 'no name is used twice' "$(refusal A) $(wc -c < image.saved-1) $(image_of image.saved-2) $(body)" '1 refused J4 0 abcd abcd'
    begin A --keep=image.keys image; type_keys A 'e\030'; close A; is 'it is replaced where it is as it was' "$got $(text) $(files)" '0 abcde image image.saved-1 image.saved-2 image.saved-3'
    cmp -s image.saved-3 other.cord; is 'and is kept' "$?" 0
    clean; : > image; begin A --keep=image.keys --no-clobber image; type_keys A 'a\030'; close A; is 'an empty one is replaced' "$got $(text) $(files)" '0 a image'
    clean; begin A image; type_keys A abc; await grep -q 'rev 3' A.out; cat other.cord > image; type_keys A '\030'; close A; is 'without keys what is there is replaced' "$got $(text) $(image_of image.saved-1)" '0 abc theirs'; clean
}

# The image that was there has a name at each moment: where links, moves and syncs fail, and where the program is killed before one.
others() { for file in image.saved-*; do [ ! -s "$file" ] || printf ' %s' "$(cksum < "$file")"; done; }
kept_by_name() {
    printf 'old\030' | "$CORDKIT" edit older > /dev/null; was=$(cksum < older); printf 'abc\030' | "$CORDKIT" edit newer > /dev/null; new=$(cksum < newer)
    said="the image that was there is kept as $(pwd -P)/image.saved"
    for keys in '' --keep=image.keys; do
        clean; cp older image; printf 'abc\030' | "$CORDKIT" edit $keys image > /dev/null 2> A.said; is "$keys: kept" "$? $(cat A.said) $(cksum < image)$(others)" "0 $said-1 $new $was"
        printf 'abc\030' | "$CORDKIT" edit $keys image > /dev/null 2> A.said; is "$keys: the same bytes" "$? $(cat A.said) $(files)" '0  image image.saved-1'
        printf 'old\030' | "$CORDKIT" edit $keys image > /dev/null 2> A.said; is "$keys: the next number" "$? $(cat A.said) $(cksum < image)$(others)" "0 $said-2 $was $was $new"
        printf 'abc\030' | "$CORDKIT" edit $keys --replace image > /dev/null 2> A.said; is "$keys: it may go" "$? $(cat A.said) $(cksum < image)$(others)" "0  $new $was $new"
        ln -s image image.link; printf 'old\030' | "$CORDKIT" edit $keys image.link > /dev/null 2> A.said; is "$keys: behind a link" "$? $(cat A.said) $(cksum < image) $(readlink image.link)" "0 $said-3 $was image"
    done
    clean; cp older image; printf 'z\030' | "$CORDKIT" edit --onto image image > /dev/null 2> A.said; is 'the same history' "$? $(cat A.said) $(files)" '0  image'
    clean; : > image; printf 'abc\030' | "$CORDKIT" edit image > /dev/null 2> A.said; is 'an empty file' "$? $(cat A.said) $(files)" '0  image'
    clean; printf one > file; cp older image; echo mine > image.0; printf '\030' | "$CORDEDIT" -f --copy image file > /dev/null 2> A.said
    is 'a copy that was there' "$? $(tail -n 1 A.said) $(cat image.0 image.0.saved-1) $(cksum < image.saved-1)" "0 cordedit: what was there of image.0 is kept as image.0.saved-1 onemine $was"
    printf '\030' | "$CORDEDIT" -f --copy image file > /dev/null 2> A.said; is 'the same copy' "$? $(cat A.said) $(files)" '0  image image.0 image.0.saved-1 image.saved-1'; rm -f file
    command -v strace > /dev/null || { echo '    there is no strace here'; clean; rm -f older newer; return; }
    fails() { clean; cp older image; printf 'abc\030' | strace -f -qq -o /dev/null -e "inject=$1" "$CORDKIT" edit --keep=image.keys image > /dev/null 2> A.said; got=$?; }
    fails link:error=EPERM; is 'a device without links' "$got $(cat A.said) $(cksum < image)$(others) $(files)" "0 $said-1 $new $was image image.saved-1"
    fails rename:error=EIO; is 'no move' "$got $(cat A.said) $(cksum < image) $(body) $(files)" "3 write $was abc image image.keys"
    printf 'abc\030' > saving; runs=0 lost=0
    for links in yes ''; do for call in fsync flock rename unlink openat statx ${links:+link}; do
        k=1
        while clean; cp older image; ! strace -f -qq -o /dev/null $([ -n "$links" ] || echo -einject=link:error=EPERM) -e "inject=$call:signal=KILL:when=$k" "$CORDKIT" edit --keep=image.keys image < saving > out 2> A.said; do
            there=$(for file in image image.saved-*; do [ ! -e "$file" ] || cksum < "$file"; done)
            printf '\030' | "$CORDKIT" edit --keep=image.keys image > out 2> A.said; got=$?
            case $got$there in 0*"$was"*) [ "$(others)" = " $was" ] ;; *) false ;; esac || { lost=$((lost + 1)); echo "    ${links:-no links} $call $k: $got $(cat A.said) '$there', then $(cksum < image)$(others)"; }
            k=$((k + 1)) runs=$((runs + 1))
        done
    done; done
    echo "    killed at $runs calls"; is 'a name at each moment' "$lost" 0; clean; rm -f older newer out
}

# A file that is restored has the one text or the other, and what it held is in the image then: killed before each call, and where each fails.
restores() {
    clean; printf one > file; "$CORDKIT" commit older file > out; printf 'one two' > file; "$CORDKIT" commit older file >> out; printf three > file; cp older image
    "$CORDKIT" restore image 1 file >> out 2> /dev/null; is 'restored' "$? $(cat out | tr '\n' ' ')$(cat file) $(text)" '0 committed 1 committed 2 committed 3 one three'
    command -v strace > /dev/null || { echo '    there is no strace here'; clean; rm -f older out file; return; }
    runs=0 lost=0
    for ends in signal=KILL error=EIO; do for call in openat read write fsync flock link rename statx; do
        k=1
        while clean; cp older image; rm -f file.*; printf three > file; strace -f -qq -o trace -e "inject=$call:$ends:when=$k" "$CORDKIT" restore image 1 file > out 2> said; got=$?; [ "$got" -gt 128 ] || grep -q INJECTED trace; do
            case "$ends $got $(cat file)" in
            *' one') [ "$(text)" = three ] ;;
            'signal=KILL '*' three' | 'error=EIO '[!0]*' three') [ "$(text)" = three ] || cmp -s image older ;;
            *) false ;;
            esac && { [ "$ends" = signal=KILL ] || [ "$(echo file.*)" = 'file.*' ]; } || { lost=$((lost + 1)); echo "    $ends $call $k: $got $(cat said) '$(cat file)' '$(text)' $(echo file.*)"; }
            k=$((k + 1)) runs=$((runs + 1))
        done
    done; done
    echo "    ended at $runs calls"; is 'a file that is restored' "$lost" 0; clean; rm -f older out said trace file file.*
}

discarding() {
    clean; begin A --keep=image.keys image; type_keys A abc; await has_keys image.keys abc
    begin B --keep=image.keys image; close B; is 'two sessions over one file of keys' "$(refusal B)" '1 refused J2'
    "$CORDKIT" edit --discard image.keys 2> B.said; got=$?; is 'keys that a session has' "$(refusal B) $(body)" '1 refused J2 abc'
    type_keys A 'd\030'; close A; is 'are not disturbed' "$got $(text) $(files)" '0 abcd image'
    "$CORDKIT" edit --discard image.keys 2> B.said; got=$?; is 'no keys' "$(refusal B)" '1 refused J5'
    "$CORDKIT" edit --discard image 2> B.said; got=$?; is 'no file of keys' "$(refusal B) $(text)" '1 refused J1 abcd'
    clean; begin A --keep=image.keys image; type_keys A abc; close A; is 'kept' "$got $(body)" '0 abc'
    "$CORDKIT" edit --discard image.keys; is 'dropped' "$? $(files)" '0 '; clean
}

# A session that goes on has its file of keys and what it began over.
gone_on() {
    write_other theirs
    clean; rm -f state; begin A --keep=image.keys --session=state image; type_keys A abc; await has_keys image.keys abc; kill -9 "$a"; close A
    begin A --keep=image.keys --session=state image; await grep -q 'rev 3' A.out; type_keys A 'd\030'; close A; is 'goes on' "$got $(text) $(files) $(echo state*)" '0 abcd image state*'
    clean; rm -f state; begin A --keep=image.keys --session=state image; type_keys A abc; await has_keys image.keys abc; kill -9 "$a"; close A
    begin B --keep=image.keys image; type_keys B 'd\030'; close B; is 'another one saves' "$got $(text)" '0 abcd'
    begin A --keep=image.keys --session=state image; type_keys A '\030'; close A; is 'the keys are gone' "$(refusal A) $(text) $(files)" '1 refused J5 abcd image'
    begin B --keep=image.keys image; type_keys B e; await has_keys image.keys e
    begin A --keep=image.keys --session=state image; type_keys A '\030'; close A; is 'another one has its name' "$(refusal A)" '1 refused J5'
    type_keys B '\030'; close B; is 'and is not disturbed' "$got $(text) $(image_of image.saved-1) $(files)" '0 e abcd image image.saved-1'
    clean; rm -f state; cp other.cord image; begin A --keep=image.keys --session=state image; type_keys A abc; await has_keys image.keys abc; kill -9 "$a"; close A
    write_other more; cp other.cord image; begin A --keep=image.keys --session=state image; type_keys A '\030'; close A
    is 'what was there at its beginning' "$(refusal A) $(image_of image) $(image_of image.saved-1) $(body)" '1 refused J4 more abc abc'; rm -f state
    clean; rm -f state; begin A --keep=image.keys --session=state image; await test -s state; type_keys A '\003'; close A; is 'left' "$got $(files) $(echo state)" '0  state'
    begin A --keep=image.keys --session=state image; type_keys A 'a\030'; close A; is 'and begins again' "$got $(text) $(files) $(echo state*)" '0 a image state*'
    clean; rm -f state; begin A --keep=image.keys --session=state image; type_keys A abc; await has_keys image.keys abc; kill -9 "$a"; close A
    printf 'abc\030' | "$CORDKIT" edit image > /dev/null; begin A --keep=image.keys --session=state image; type_keys A '\030'; close A
    is 'its own image is there already' "$got $(text) $(files) $(echo state*)" '0 abc image state*'
    clean; rm -f state; printf 'old\030' | "$CORDKIT" edit image > /dev/null; begin A --onto=image --keep=image.keys --session=state image; type_keys A abc; await has_keys image.keys abc; kill -9 "$a"; close A
    mv image.keys image.keys.saved; begin A --onto=image --keep=image.keys --session=state image; await grep -q 'rev 6' A.out; type_keys A 'd\003'; close A; is 'killed within Save, before its rename' "$got $(body)" '0 abcd'
    mv image.keys image.keys.saved; printf 'abcd\030' | "$CORDKIT" edit --onto=image image > /dev/null
    begin A --onto=image --keep=image.keys --session=state image; await grep -q 'rev 7' A.out; type_keys A 'e\030'; close A; is 'and behind it: it goes on with the image' "$got $(cat A.said) $(text) $(files) $(echo state*)" '0  eabcdold image state*'
    clean; printf 'old\030' | "$CORDKIT" edit image > /dev/null; begin A --onto=image --keep=image.keys --session=state image; type_keys A abc; await has_keys image.keys abc; kill -9 "$a"; close A; rm image.keys
    begin A --onto=image --keep=image.keys --session=state image; close A; is 'keys that another one dropped' "$(refusal A) $(text)" '1 refused J5 old'; rm -f state; clean
}

two_files_of_keys() {
    for begun in nothing image; do
        clean; rm -f other.keys; [ "$begun" = nothing ] || printf 'old\030' | "$CORDKIT" edit image > /dev/null
        begin A --keep=image.keys image; type_keys A one; await has_keys image.keys one
        begin B --keep=other.keys image; type_keys B two; await has_keys other.keys two
        type_keys A '\030'; close A; is "$begun: the first that saves" "$got $(text)" '0 one'
        type_keys B '\030'; close B; others=$(for file in image.saved-*; do image_of "$file"; done)
        is "$begun: the second" "$(refusal B) $(text)" '1 refused J4 one'; is "$begun: each has a name" "$others" "$([ "$begun" = nothing ] || printf old)two"
    done
    rm -f other.keys; clean
}

# What a crash leaves behind: a second name of the image, and a part of one.
left_behind() {
    clean; printf 'old\030' | "$CORDKIT" edit image > /dev/null; ln image image.new; before=$(cksum < image)
    begin A --keep=image.keys image; type_keys A 'abc\003'; close A; is 'a second name of the image' "$got $(cksum < image) $(body)" "0 $before abc"
    ln image image.new 2> /dev/null; begin A --keep=image.keys image; type_keys A '\030'; close A; is 'and Save' "$got $(text) $(cksum < image.saved-1) $(files)" "0 abc $before image image.saved-1"; rm image.saved-1
    ln image image.new; printf 'new\030' | "$CORDKIT" edit --replace image > /dev/null; is 'without keys' "$? $(text) $(files)" '0 new image'
    clean; begin A --keep=image.keys image; type_keys A abc; close A; cp image.keys kept; begin A --keep=image.keys image; type_keys A '\030'; close A
    cp kept image.keys; ln image image.new; before=$(cksum < image); "$CORDKIT" edit --keep=image.keys --no-clobber image < /dev/null > /dev/null 2> A.said; got=$?
    is 'the keys of an image that was saved' "$got $(cat A.said) $(cksum < image) $(files)" "0 the session was saved before: its image is image $before image"
    cp kept image.keys; : > state; "$CORDKIT" edit --keep=image.keys --session=state --no-clobber image < /dev/null > /dev/null 2>&1; is 'and the file of a session' "$? $(files) $(echo state*)" '0 image state*'
    write_other theirs; cat other.cord > image; cp kept image.keys; "$CORDKIT" edit --keep=image.keys --no-clobber image < /dev/null > /dev/null 2> A.said; got=$?
    is 'the image of other keys' "$(refusal A) $(image_of image) $(body) $(files)" '1 refused J3 theirs abc image image.keys'; rm -f kept
    clean; printf 'new\030' | "$CORDKIT" edit image > /dev/null
    printf CORDSESS > image.new; printf 'abc\030' | "$CORDKIT" edit --replace --keep=image.keys image > /dev/null; is 'a part of an image' "$? $(text) $(files)" '0 abc image'
    if command -v flock > /dev/null; then
        : > image.new; printf 'd\030' | flock image.new "$CORDKIT" edit --keep=image.keys image > /dev/null 2> A.said; got=$?
        is 'a part that another session writes' "$(refusal A) $(text) $(body) $(files)" '3 write abc d image image.keys image.new'
    fi
    clean
}

no_room() {
    clean; printf 'abc\030' > saving
    "$CORDKIT" edit --keep=image.keys image < saving >&- 2> A.said; got=$?; is 'a closed output' "$got $(cat A.said) $(files)" '3 write '; clean
    "$CORDKIT" edit --keep=image.keys image < saving > image.keys 2> A.said; got=$?; is 'an output that is the file of keys' "$got $(cat A.said) $(wc -c < image.keys)" '3 write 0'; clean
    (trap '' XFSZ; ulimit -f 0; "$CORDKIT" edit image < saving 2>&1 > /dev/null) | cat > A.said; is 'no part of 0 bytes stays' "$(cat A.said) $(files)" 'write '
    (trap '' XFSZ; ulimit -f 0; "$CORDKIT" edit --keep=image.keys image < saving 2>&1 > /dev/null) | cat > A.said; is 'no room at the start' "$(cat A.said) $(files)" 'write '; clean
}

# Runs that begin at once: each commit is made, behind the others, and each session without keys is saved, where it was the last one. They wait for each other.
at_once() {
    mkdir texts; numbers=$(seq 20)
    for begun in nothing image; do
        clean; [ "$begun" = nothing ] || printf 'old\030' | "$CORDKIT" edit image > /dev/null
        for n in $numbers; do
            echo "text $n" > "texts/$n"
            { "$CORDKIT" commit image "texts/$n" > "texts/$n.said" 2> "texts/$n.told"; echo $? >> "texts/$n.said"; } &
        done
        wait
        lost=''
        for n in $numbers; do
            read -r said revision < "texts/$n.said"
            [ "$said $(tail -n 1 "texts/$n.said")" = 'committed 0' ] && "$CORDKIT" show image "$revision" | cmp -s - "texts/$n" || lost="$lost $n: $(cat "texts/$n.said")"
        done
        is "$begun: twenty commits at once" "$lost $(sort -u texts/*.said | grep -c committed) $(files)" ' 20 image image.committed'
    done
    clean
    for n in $numbers; do { printf "%s\\030" "$n" | "$CORDKIT" edit image > /dev/null 2> "texts/$n.said"; echo $? >> "texts/$n.said"; } & done
    wait
    is 'twenty sessions without keys at once' "$(tail -qn 1 texts/*.said | sort -u) $(echo image.n*) $(echo "$numbers" | grep -cx "$(text)")" '0 image.n* 1'
    rm -r texts
    if command -v flock > /dev/null; then
        clean; printf abc > saving; : > image.new; flock image.new sleep 1 & flock -w 1 image.new true; "$CORDKIT" commit image saving > A.said 2>&1
        is 'a commit waits for another run' "$? $(cat A.said) $(files)" '0 committed 1 image image.committed'; wait
        : > image.new; printf 'x\030' > typed; flock image.new "$CORDKIT" edit image < typed > /dev/null 2> A.said; is 'and an edit, as long as that' "$? $(cat A.said) $(text)" '3 write abc'
        printf abcd > saving; flock image.new "$CORDKIT" commit image saving > A.said 2>&1; is 'a commit behind a run that does not end' "$? $(cat A.said) $(text) $(files)" '1 refused J4 abc image image.committed image.new'
    fi
    clean
}

# Who may read what is made. A new image is as open as its file, and as the image that it goes on from; so is a copy, a text and the file of times. Keys
# are their owner's alone. An image that is there stays as open as it is.
modes() {
    mode() { echo $(stat -c %a "$@" 2>&1); }
    before=$(umask)
    for mask in 022 077; do
        umask "$mask"
        for bits in 600 640 644; do
            name="umask $mask, a file $bits"
            clean; printf abc > text; chmod "$bits" text; "$CORDKIT" commit image text > /dev/null; is "$name: a commit" "$(mode image)" "$bits"
            chmod 604 image; printf abcd > text; "$CORDKIT" commit image text > /dev/null; is "$name: the next one" "$(mode image)" 604
            clean; printf 'x\030' | "$CORDKIT" edit image text > /dev/null; is "$name: an edit" "$(mode image)" "$bits"
            chmod 604 image; printf 'x\030' | "$CORDKIT" edit --onto=image image text > /dev/null; is "$name: over it" "$(mode image)" 604
            chmod 646 image; printf 'y\030' | "$CORDKIT" edit image text > /dev/null 2>&1; is "$name: another history over it" "$(mode image)" "$(printf %o $((0$bits & 0646)))"
            chmod 660 image; printf 'x\030' | "$CORDKIT" edit --onto=image image.too text > /dev/null; is "$name: from one image to another" "$(mode image.too)" "$(printf %o $((0$bits & 0660)))"
            clean; begin A --keep=image.keys image text; type_keys A abc; await has_keys image.keys abc; is "$name: keys" "$(mode image.keys)" 600
            type_keys A '\030'; close A; is "$name: saved by keys" "$(mode image)" "$bits"
            clean; printf 'x\030' | "$CORDEDIT" --copy --text image.text image text > /dev/null; is "$name: by the script" "$(mode image image.0 image.text)" "$bits $bits $bits"
            mkdir image.folder; printf 'x\030' | "$CORDEDIT" --text image.folder image text > /dev/null 2> A.said; is "$name: a text for a folder" "$? $(cat A.said) $(ls image.folder)" '3 cordedit: image.folder could not be written '; rmdir image.folder
            chmod 604 image.text; printf 'x\030' | "$CORDEDIT" --text image.text image text > /dev/null; is "$name: a text that was there" "$(mode image.text)" 604
            rm image.text; chmod 666 image; printf 'x\030' | "$CORDEDIT" --text image.text image text > /dev/null; is "$name: a text over an image that is more open" "$(mode image.text)" "$bits"
            printf '' | "$CORDEDIT" --continue image image_next text > /dev/null; is "$name: the next text" "$(mode image_next.0)" "$bits"; rm -f image_next*
            clean; sh "$here/examples/keep_file" text > /dev/null; is "$name: times" "$(mode text.cord text.times)" "$bits $bits"
            chmod 604 text.times; echo more >> text; sh "$here/examples/keep_file" text > /dev/null; is "$name: the next ones" "$(mode text.times)" 604; rm -f text.*
            clean; chmod 4444 text; sh "$here/examples/keep_file" text > /dev/null; is "$name: times of a file that is only read" "$? $(mode text.times) $(wc -l < text.times)" '0 644 1'; rm -f text.*; chmod "$bits" text
            if command -v strace > /dev/null; then
                clean; printf abc > text; strace -qq -o /dev/null -e inject=write:signal=KILL:when=1 "$CORDKIT" commit image text > /dev/null 2>&1
                is "$name: before the first byte" "$(mode image.new) $(wc -c < image.new)" "$bits 0"
                strace -qq -o calls -e trace=openat "$CORDKIT" commit image text > /dev/null
                made=$(sed -n 's/.*image.new.*O_CREAT.*, 0\([0-7]*\)).*/\1/p' calls); is "$name: from its beginning" "$made" "$(printf %o $((0$bits & (0707 | 0$bits << 3))))"; rm -f calls
            fi
            rm -f text
        done
    done
    umask "$before"; clean
    as() { setpriv --reuid=65534 --regid=65534 "$@"; }
    # Another user has to be one that this one may become, and that reaches the program and this folder.
    chmod 755 .
    [ "$(id -u)" = 0 ] && as --clear-groups "$CORDKIT" --version > /dev/null 2>&1 && as --clear-groups test -x "$PWD" || { chmod 700 .; echo '    no other user can be tried here'; return; }
    rm -rf theirs; mkdir theirs; printf abc > theirs/text; chown -R 65534:1 theirs; chmod 640 theirs/text
    who() { echo $(stat -c '%u:%g %a' theirs/image); }
    as --clear-groups "$CORDKIT" commit theirs/image theirs/text > /dev/null; is 'a group that its user is not in' "$(who)" '65534:65534 600'
    chmod 4755 theirs/text; "$CORDKIT" commit theirs/own theirs/text > /dev/null; printf abcd > theirs/text; chmod 4755 theirs/text; "$CORDKIT" restore theirs/own 0 theirs/text > /dev/null
    is 'no file runs as who made it' "$(stat -c %a theirs/own theirs/text | tr '\n' ' ')" '755 755 '; printf abc > theirs/text; chown 65534:1 theirs/text; chmod 640 theirs/text
    rm -f theirs/image; as --groups=1 "$CORDKIT" commit theirs/image theirs/text > /dev/null; is 'a group that its user is in' "$(who)" '65534:1 640'
    chmod 664 theirs/image; printf abcd > theirs/text; as --clear-groups "$CORDKIT" commit theirs/image theirs/text > /dev/null; is 'and a replaced image' "$(who)" '65534:65534 644'
    rm -rf theirs; chmod 700 .
}

# How many revisions the frames in a file tell, at most.
told() { { echo 'rev 0' && grep -ao 'rev [0-9]*' "$1"; } | tail -n 1 | cut -d ' ' -f 2; }

# A is killed before each of its calls of the system, and the same command goes on: no key that a frame told is lost.
each_call() {
    command -v strace > /dev/null || { echo '    there is no strace here'; return; }
    printf 'abc\030' > saving; runs=0 lost=0
    for call in openat read write statx flock fsync fdatasync link unlink; do
        k=1
        while clean; ! strace -qq -o /dev/null -e "inject=$call:signal=KILL:when=$k" "$CORDKIT" edit --keep=image.keys image < saving > out 2> said; do
            printf '\030' | "$CORDKIT" edit --keep=image.keys --no-clobber image > /dev/null 2> A.said; got=$?; found=$(text 2> /dev/null)
            case "$got $(head -n 1 A.said) $found" in
            '0  '*) [ "${#found}" -ge "$(told out)" ] && [ "${found#"$(printf abc | head -c ${#found})"}" = '' ] ;;
            '0 the session was saved before: its image is image abc') [ "$(files)" = image ] ;;
            '1 refused J3 abc') [ "$(files)" = image ] ;;
            *) false ;;
            esac || { lost=$((lost + 1)); echo "    $call $k: $got $(cat A.said) '$found', told $(told out)"; }
            k=$((k + 1)) runs=$((runs + 1))
        done
    done
    echo "    killed at $runs calls"; is 'killed before each call' "$lost" 0; clean; rm -f out said
}

# A stops before each of its calls of the system, and B, the same command, begins and ends meanwhile. What either told as saved is there.
each_stop() {
    command -v strace > /dev/null || { echo '    there is no strace here'; return; }
    printf 'abc\030' > saving; printf 'xy\030' > other; runs=0 lost=0
    for call in openat read write statx flock fsync fdatasync link unlink; do
        k=1
        while :; do
            clean; strace -qq -o /dev/null -e "inject=$call:signal=STOP:when=$k" "$CORDKIT" edit --keep=image.keys --no-clobber image < saving > out 2> A.said & a=$!
            n=0; until child=$(pgrep -P "$a") && ps -o stat= -p "$child" | grep -q '^[tT]'; do kill -0 "$a" 2> /dev/null && [ "$n" -lt 500 ] || break; n=$((n + 1)); sleep 0.01; done
            kill -0 "$a" 2> /dev/null || break
            "$CORDKIT" edit --keep=image.keys --no-clobber image < other > out2 2> B.said; of_b=$?
            kill -CONT "$child"; wait "$a"; of_a=$?
            all=$(for file in image image.saved-*; do [ ! -e "$file" ] || image_of "$file"; echo; done; [ ! -e image.keys ] || body)
            { [ "$of_a" != 0 ] || [ "$(echo "$all" | grep -c abc)" = 1 ]; } && { [ "$of_b" != 0 ] || [ "$(echo "$all" | grep -c xy)" = 1 ]; } && [ "$of_a$of_b" != 11 ] ||
                { lost=$((lost + 1)); echo "    $call $k: $of_a $(head -n 1 A.said), $of_b $(head -n 1 B.said), $(echo $all)"; }
            k=$((k + 1)) runs=$((runs + 1))
        done
        wait "$a"
    done
    echo "    stopped at $runs calls"; is 'a second session at each call' "$lost" 0; a=''; clean; rm -f out out2 other
}

words_of_the_script() {
    clean; write_other theirs; rm -f -- -i.cord* "it's"* out
    printf 'abc\030' | "$CORDEDIT" -- -i.cord > /dev/null; is 'a name that begins with -' "$? $(image_of ./-i.cord)" '0 abc'
    printf 'abc' | "$CORDEDIT" "it's" > /dev/null; "$CORDEDIT" --discard "it's"; is 'a name with a quote' "$? $(echo it*)" '0 it*'
    printf 'one' > file; printf 'x\030' | "$CORDEDIT" --copy --text out image file > /dev/null; is 'a text and a copy, without a terminal' "$? $(cat out image.0)" '0 xoneone'
    echo mine > out.new; before=$(cksum < image); printf 'x\030' | "$CORDEDIT" --text ./image image > /dev/null 2> said; is 'the image as OUT' "$? $(cat said) $(cksum < image)" "2 cordedit: ./image is the image itself $before"
    printf 'x\030' | "$CORDEDIT" --text out image file > /dev/null; is 'a file beside OUT stays' "$? $(cat out out.new)" '0 xxonemine'; rm -f out.new
    printf 'x\030' | "$CORDEDIT" -f --text missing/out image file > /dev/null 2> said; is 'what was asked for and not written' "$? $(tail -n 1 said)" '3 cordedit: missing/out could not be written'
    printf 'x\030' | "$CORDEDIT" --text out2 image image > /dev/null 2> said; is 'nothing is asked of what was not saved' "$? $(head -n 1 said) $(echo out2*)" '1 refused C3(0) out2*'
    printf 'x\030' | "$CORDEDIT" file > /dev/null 2> said; is 'a file that is no image' "$? $(head -n 1 said) $(cat file)" '1 refused C1(I3) one'
    printf 'y\030' | "$CORDEDIT" --continue missing next > /dev/null 2> said; is 'no image to go on from' "$? $(echo next*)" '2 next*'
    printf 'y\030' | "$CORDEDIT" --continue image next file > /dev/null; is 'goes on from the last text' "$? $("$CORDKIT" show next 1 next.0)" '0 yxone'
    printf '' | "$CORDEDIT" --continue image nexts file > /dev/null; is 'left without a key' "$? $(echo nexts*)" '0 nexts.0'; printf 'z\030' | "$CORDEDIT" --continue image nexts file > /dev/null
    is 'the same command begins' "$? $("$CORDKIT" show nexts 1 nexts.0)" '0 zxone'; rm nexts; printf more >> nexts.0; "$CORDEDIT" --continue image nexts file < /dev/null 2> said
    is 'another text is there' "$? $(cat said) $(cat nexts.0)" '2 cordedit: nexts.0 is there already: -f replaces it xonemore'
    printf 'q' | "$CORDEDIT" --continue image nextk file > /dev/null; mkdir next_wc && printf '#!/bin/sh\nexit 1\n' > next_wc/wc && chmod +x next_wc/wc
    PATH=$room/next_wc:$PATH "$CORDEDIT" --continue image nextk file < /dev/null > out; is 'keys that cannot be counted stay' "$? $(tail -c 1 nextk.keys)" '0 q'; rm -r next_wc
    begin A --keep=next.keys next next.0; await test -s next.keys; printf two > file; printf '\030' | "$CORDEDIT" -f --continue image next file > /dev/null 2> said
    is 'the file of a session stays' "$? $(cat said) $(cat next.0)" '1 refused J2 xone'; type_keys A '\030'; close A; is 'and it saves' "$got" 0
    "$CORDEDIT" --help > said; is 'help' "$? $(grep -c discard said)" '0 1'
    rm -f -- -i.cord* out* next* file; clean
}

# An image that is there is gone on from, by the script without a terminal.
edits() { "$CORDEDIT" "$@" 2> said | tail -n 1 | sed "s/^.*\(rev [0-9]* byte [0-9]* of [0-9]*\).*/\1/"; }
texts() { k=0 && while [ "$k" -le "$(last "$@")" ]; do "$CORDKIT" show image "$k" "$@" && printf '.' && k=$((k + 1)); done; }
number() { od -An -tu1 -j 11 -N 1 image.keys | tr -d ' '; }
told_by() { head -n 2 said | tr '\n' ' '; }
goes_on() {
    clean; rm -f file next*; is 'no image' "$(printf 'ab' | edits image) $(number)" 'rev 2 byte 2 of 2 1'; is 'its keys' "$(printf '\030' | edits image) $(texts)" 'rev 2 byte 2 of 2 .a.ab.'
    is 'an image' "$(printf 'c\025\030' | edits image) $(texts)" 'rev 4 byte 1 of 2 .a.ab.cab.ab.'; is 'and again' "$(printf '\025\025\030' | edits image) $(texts) $(files)" 'rev 6 byte 0 of 0 .a.ab.cab.ab.a.. image'
    before=$(cksum < image); is 'only looked' "$(printf '\005' | edits image) $(files)" 'rev 6 byte 0 of 0 image'; printf 'x' | edits image > out; is 'keys over it' "$(cat out) $(number) $(body) $(cksum < image)" "rev 7 byte 1 of 1 2 x $before"
    printf 'y' | edits -f image > out; is 'they are not over the file' "$(cat said)" "cordedit: image.keys has keys over the image that is there: without -f the same command goes on from there, and cordedit --discard 'image' drops them"
    printf 'y' | edits --continue next image > out; is 'nor over another text' "$(cat said) $(echo image*)" "cordedit: image.keys has keys over image itself: cordedit 'image' goes on from there, and cordedit --discard 'image' drops them image image.keys"
    cp image older; printf 'insert 6 0 "theirs"\n' > script; "$CORDKIT" apply --onto older script > image
    printf 'y\030' | edits image > out; is 'another image' "$(told_by)$(body) $(text)" 'refused J1 J1: image.keys has the keys of another file or image, or something else x theirs'
    cp older image; is 'the image again' "$(printf 'y\030' | edits image) $(text) $(files)" 'rev 8 byte 2 of 2 xy image'; rm -f older
    printf 'z' | edits image > out; "$CORDEDIT" --discard image; is 'its keys are dropped' "$? $(files)" '0 image'; is 'and it is gone on from' "$(edits image < /dev/null)" 'rev 8 byte 0 of 2'
    # A file of keys without a key is in nobody's way: of a session over the image, or from a file, or torn
    printf 'k' | "$CORDKIT" edit --keep=image.keys none > /dev/null; mv image.keys from_file; printf 'k' | edits image > out; mv image.keys over_it; cp image older; printf 'k\030' | edits image > out
    for n in 0 1 8 11 12 30 55 56; do for kept in from_file over_it; do
        head -c $n $kept > image.keys; is "$n bytes of $kept" "$(printf 'l\003' | edits image) $(number) $(body) $(files)" 'rev 10 byte 1 of 4 2 l image image.keys'; rm image.keys
        head -c $n $kept > image.keys; is "$n bytes of $kept, and the file" "$(printf 'l\003' | edits -f image) $(number) $(body)" 'rev 1 byte 1 of 1 1 l'; rm image.keys
    done; done
    cat from_file > image.keys; printf '\030' | edits image > out; is 'keys from the file, and another image' "$(told_by)$(body)" 'refused J3 J3: image is there already: cordedit -f replaces it, and cordedit --continue image NEW begins with its last text k'
    before=$(cksum < image); is 'they may replace it' "$(printf '\030' | edits -f image) $(texts) $(files)" 'rev 1 byte 1 of 1 .k. image image.saved-1'
    is 'which is kept' "$(tail -n 1 said) $(cksum < image.saved-1)" "the image that was there is kept as $(pwd -P)/image.saved-1 $before"
    printf 'm\030' | edits --replace image > out; is 'and need not be' "$(text) $(cat said) $(files)" 'm  image image.saved-1'; rm -f from_file over_it older out
    # A file, and its copy
    clean; printf one > file; printf 'x\030' | edits --copy image file > out; is 'a copy is the file' "$(printf 'y\030' | edits --text out image) $(texts file) $(cat out)" 'rev 2 byte 1 of 5 one.xone.yxone. yxone'
    digest="$(sha256sum < file | cut -d ' ' -f 1) 3"; is 'its digest beside the image' "$(cat image.sources)" "$digest"
    told='is not the file that image was made from: its digest is not the one in image.sources. cordedit --copy keeps a copy of the file beside the image '
    printf two > other; printf '\003' | edits image other > out; is 'a file of other bytes' "$(told_by)$(files) $(cat image.sources)" "other ${told}image image.0 $digest"
    printf '\003' | edits image > out; is 'its copy is none' "$(told_by)$(files)" 'image image.0'; rm other
    rm image.0; printf 'z' | edits image > out; is 'no file' "$(told_by)$(files)" 'refused C2 C2: image was made over one source, of 3 bytes, and 0 are given image'
    printf four > four; printf 'z' | edits image four > out; is 'a longer file' "$(told_by)$(files)" 'refused C3(0) C3(0): source 0, four, has 4 bytes, and the image was made over 3 image'
    is 'its file' "$(printf 'z' | edits image file)" 'rev 3 byte 1 of 6'; printf two > four; printf '\030' | edits image four > out; is 'keys of another text' "$(tail -n 2 said | tr '\n' ' ')$(body)" 'refused J1 J1: image.keys has the keys of another file or image, or something else z'
    is 'and of this one' "$(printf '\030' | edits image file) $(text file)" 'rev 3 byte 1 of 6 zyxone'
    printf 'new\n' | "$CORDKIT" apply /dev/stdin file four > image; printf 'z' | edits image file > out; is 'two files' "$(told_by)$(files)" 'refused C2 C2: the sources of image are 2 in number, and 1 are given image'; rm -f four
    # What is no session, or one that cannot be gone on from
    printf prose > image; printf 'z' | edits image > out; is 'prose' "$(told_by)$(cat image) $(files)" 'refused C1(I3) C1(I3): image is no image: it does not begin with CORDSESS. It stays as it is: move it away and give the same command again, or name another image prose image'
    : > image; is 'an empty one is begun' "$(printf 'z\030' | edits image) $(files)" 'rev 1 byte 1 of 1 image'
    tr -d '[:space:]' < "$here/tests/vectors/bytes_row_over_a_source.hex" | tr a-f A-F | basenc --base16 -d > image; before=$(cksum < image); printf abc > file; rm image.sources
    printf 'z\030' | edits image file > out; is 'a row of bytes over a source' "$(head -n 1 said) $(cksum < image) $(files)" "refused G1(0) $before image"; rm -f file
    clean; printf 'a\030' | edits real > out; chmod 640 real; ln -s real image; is 'a link' "$(printf 'b\030' | edits image) $(text) $(stat -c %a real) $(readlink image) $(files)" 'rev 2 byte 1 of 2 ba 640 real image'; rm -f real; clean
}

# Every state between the steps of a Save over an image, laid out by hand: the same command ends with the image of the run that nothing ended.
lay_out() { clean; cp older image && cp taken "$1" && { [ $# = 1 ] || cp "$2" "$3"; }; }
resumes() { name=$1; shift; printf '\030' | "$CORDKIT" edit --onto=image --keep=image.keys "$@" image > /dev/null 2> A.said; got=$?; is "$name" "$got $(cat A.said)$(cksum < image) $(files)" "0 $(cksum < newer) image"; }
between_renames() {
    clean; printf 'xy\030' | "$CORDKIT" edit older > /dev/null; printf 'abc' | "$CORDKIT" edit --onto=older --keep=taken newer > /dev/null; printf 'abc\030' | "$CORDKIT" edit --onto=older newer > /dev/null
    printf 'k' | "$CORDKIT" edit --keep=from_file none > /dev/null; head -c 56 from_file > keyless; head -c 56 taken > fresh; : > empty
    lay_out image.keys; resumes 'the keys alone'; lay_out image.keys newer image.new; resumes 'a whole part'
    lay_out image.keys.saved newer image.new; resumes 'set aside, and a whole part'; lay_out image.keys.saved; resumes 'set aside alone'
    for begun in empty fresh keyless; do lay_out image.keys.saved $begun image.keys; resumes "set aside, and another session that began: $begun"; done
    lay_out image.keys.saved; printf '\003' | "$CORDEDIT" image > /dev/null; is 'a session that leaves' "$? $(body) $(cksum < image) $(files)" "0 abc $(cksum < older) image image.keys"; resumes 'and goes on'
    lay_out image.keys.saved; printf 'k' | "$CORDEDIT" -f image > /dev/null 2> said; is 'nothing is begun over it' "$? $(cat said) $(files)" "2 cordedit: image.keys.saved has keys of a Save that may not have ended: without -f the same command finds out, and cordedit --discard 'image' drops them image image.keys.saved"
    "$CORDEDIT" --discard image; is 'it is dropped' "$? $(files)" '0 image'; lay_out image.keys.saved taken image.keys; "$CORDEDIT" --discard image; is 'both are dropped' "$? $(files)" '0 image'
    # The image was in its place
    lay_out image.keys.saved newer image; resumes 'saved, and not taken away'; lay_out image.keys.saved newer image; printf 'd' | "$CORDEDIT" image > /dev/null
    is 'the newer image is gone on from' "$? $(body) $(cksum < image) $(files)" "0 d $(cksum < newer) image image.keys image.keys.saved"; printf '\030' | "$CORDEDIT" image > /dev/null; is 'and what was set aside goes' "$? $(text) $(files)" '0 dabcxy image'
    # Keys of a file are not taken for those of an image
    lay_out image.keys.saved; cp from_file image.keys.saved; printf '\030' | "$CORDKIT" edit --onto=image --keep=image.keys image > /dev/null; is 'keys of something else' "$? $(cksum < image) $(files)" "0 $(cksum < older) image"
    # A session that goes on has what it set aside, and only that
    for at in older newer; do
        lay_out image.keys; : > state; begin A --onto=image --keep=image.keys --session=state image; await grep -q 'rev 5' A.out; kill -9 "$a"; close A
        mv image.keys image.keys.saved; cp $at image.other && mv image.other image
        begin A --onto=image --keep=image.keys --session=state image; type_keys A '\030'; close A
        case $at in
        newer) is 'saved, and the session goes on' "$(refusal A) $(cksum < image) $(files)" "0  $(cksum < newer) image" ;;
        older) is 'a session goes on, over another file of these bytes' "$(refusal A) $(cksum < image.saved-1) $(files)" "1 refused J4 $(cksum < newer) image image.keys image.saved-1" ;;
        esac
    done
    lay_out image.keys; : > state; begin A --onto=image --keep=image.keys --session=state image; await grep -q 'rev 5' A.out; kill -9 "$a"; close A
    mv image.keys image.keys.saved; resumes 'a session goes on' --session=state; is 'and is saved' "$(echo state*)" 'state*'
    lay_out image.keys; : > state; begin A --onto=image --keep=image.keys --session=state image; await grep -q 'rev 5' A.out; kill -9 "$a"; close A
    mv image.keys other.saved; cp taken image.keys.saved; begin A --onto=image --keep=image.keys --session=state image; type_keys A '\030'; close A
    is 'another one was set aside' "$(refusal A) $(cksum < image) $(files)" "1 refused J5 $(cksum < older) image image.keys.saved"
    rm -f state other.saved older newer taken from_file keyless fresh empty; clean
}

# Two sessions over one image: neither loses what the other saved.
two_over_one() {
    clean; printf 'xy\030' | "$CORDKIT" edit image > /dev/null; rm -f other.keys
    begin A --onto=image --keep=image.keys image; type_keys A abc; await has_keys image.keys abc
    begin B --onto=image --keep=image.keys image; close B; is 'two sessions over one file of keys' "$(refusal B) $(cat B.out)" '1 refused J2 '
    type_keys A '\030'; close A; is 'the first saves' "$got $(text) $(files)" '0 abcxy image'
    begin B --onto=image --keep=image.keys image; type_keys B 'd\030'; close B; is 'the second goes on from there' "$got $(text) $(files)" '0 dabcxy image'
    begin A --onto=image --keep=image.keys image; type_keys A one; await has_keys image.keys one; begin B --onto=image --keep=other.keys image; type_keys B two; await has_keys other.keys two
    type_keys A '\030'; close A; type_keys B '\030'; close B; is 'two files of keys' "$(refusal B) $(text) $(image_of image.saved-1) $(files) $(ls other.keys)" '1 refused J4 onedabcxy twodabcxy image image.saved-1 other.keys'; rm -f other.keys image.saved-1
    begin A --onto=image --keep=image.keys image; type_keys A e; await has_keys image.keys e; printf 'new\n' > script; "$CORDKIT" apply --onto image script > further; cat further > image; before=$(cksum < image)
    type_keys A '\030'; close A; is 'a script meanwhile' "$(refusal A) $(cksum < image) $(image_of image.saved-1) $(body) $(files)" "1 refused J4 $before eonedabcxy e image image.keys image.saved-1"
    begin A --onto=image --keep=image.keys image; type_keys A '\030'; close A; is 'keys over what is gone' "$(refusal A) $(cksum < image) $(body)" "1 refused J1 $before e"; rm -f further
    clean; printf 'xy\030' | "$CORDKIT" edit other > /dev/null; cp other image; begin A --onto=other --keep=image.keys image; type_keys A 'z\030'; close A; is 'an image by another name' "$got $(text) $(image_of other) $(files)" '0 zxy xy image image.saved-1'; rm -f other; clean
}

# A goes on from an image, and is killed before each of its calls of the system: the same command ends with the image of as many keys, and of those that a frame told.
onto_each_call() {
    command -v strace > /dev/null || { echo '    there is no strace here'; return; }
    clean; printf 'xy\030' | "$CORDKIT" edit older > /dev/null; printf 'abc\030' > saving; runs=0 lost=0
    for n in 0 1 2 3; do { head -c $n saving && printf '\030'; } | "$CORDKIT" edit --onto=older with$n > /dev/null; done
    for call in openat read write statx flock fsync fdatasync link unlink rename; do
        k=1
        while clean; cp older image; ! strace -qq -o /dev/null -e "inject=$call:signal=KILL:when=$k" "$CORDKIT" edit --onto=image --keep=image.keys image < saving > out 2> said; do
            printf '\030' | "$CORDKIT" edit --onto=image --keep=image.keys image > /dev/null 2> A.said; got=$?
            n=3; while [ "$n" -ge 0 ] && ! cmp -s image with$n; do n=$((n - 1)); done
            [ "$got $(cat A.said)" = '0 ' ] && [ "$(files)" = image ] && [ $((n + 2)) -ge "$(told out)" ] ||
                { lost=$((lost + 1)); echo "    $call $k: $got $(cat A.said) '$(text)', told $(told out), $(files)"; }
            k=$((k + 1)) runs=$((runs + 1))
        done
    done
    echo "    killed at $runs calls"; is 'killed before each call, over an image' "$lost" 0; clean; rm -f out said older with*
}

# Each call of the system fails in turn: the image is the one of these keys, or as it was, and the same command ends with it.
onto_each_fault() {
    command -v strace > /dev/null || { echo '    there is no strace here'; return; }
    clean; printf 'xy\030' | "$CORDKIT" edit older > /dev/null; printf 'abc\030' > saving; runs=0 lost=0
    printf 'abc\030' | "$CORDKIT" edit --onto=older newer > /dev/null
    for call in openat read write statx flock fsync fdatasync link unlink rename; do
        k=1
        while clean; cp older image; strace -qq -o trace -e "inject=$call:error=EIO:when=$k" "$CORDKIT" edit --onto=image --keep=image.keys image < saving > out 2> said; got=$?; grep -q INJECTED trace; do
            there=$(cksum < image)
            printf '\030' | "$CORDKIT" edit --onto=image --keep=image.keys image > /dev/null 2> A.said; again=$?
            case "$got $(head -n 1 said)" in
            '0 ') cmp -s image newer ;;
            '0 the image that was there is kept as '*) cmp -s image newer && cmp -s image.saved-1 older ;;
            '3 read' | '3 write') [ "$there" = "$(cksum < newer)" ] || [ "$there" = "$(cksum < older)" ] ;;
            '1 refused J'[245] | '127 '*'error while loading shared libraries'*) [ "$there" = "$(cksum < older)" ] ;;
            *) false ;;
            esac && [ "$again $(cat A.said)" = '0 ' ] && case $(last) in
            2 | 3 | 4 | 5) [ "$(last)" -ge "$(told out)" ] || [ "$(files)" = 'image image.saved-1' ] ;;
            *) false ;;
            esac || { lost=$((lost + 1)); echo "    $call $k: $got $(cat said), then $again $(cat A.said) '$(text)', told $(told out), $(files)"; }
            k=$((k + 1)) runs=$((runs + 1))
        done
    done
    echo "    $runs calls failed"; is 'each call fails, over an image' "$lost" 0; clean; rm -f out said trace older newer
}

# A stops before each of its calls of the system, and B, the same command, begins and ends meanwhile. What either told as saved is in the image.
onto_each_stop() {
    command -v strace > /dev/null || { echo '    there is no strace here'; return; }
    clean; printf '.\030' | "$CORDKIT" edit older > /dev/null; printf 'abc\030' > saving; printf 'xy\030' > other; runs=0 lost=0
    for call in openat read write statx flock fsync fdatasync link unlink rename; do
        k=1
        while :; do
            clean; cp older image; strace -qq -o /dev/null -e "inject=$call:signal=STOP:when=$k" "$CORDKIT" edit --onto=image --keep=image.keys image < saving > out 2> A.said & a=$!
            n=0; until child=$(pgrep -P "$a") && ps -o stat= -p "$child" | grep -q '^[tT]'; do kill -0 "$a" 2> /dev/null && [ "$n" -lt 500 ] || break; n=$((n + 1)); sleep 0.01; done
            kill -0 "$a" 2> /dev/null || break
            "$CORDKIT" edit --onto=image --keep=image.keys image < other > out2 2> B.said; of_b=$?
            kill -CONT "$child"; wait "$a"; of_a=$?
            [ ! -e image.keys ] || [ "$of_a" = 0 ] || printf '\030' | "$CORDKIT" edit --onto=image --keep=image.keys image > /dev/null 2>&1
            all=$(text 2> /dev/null)
            case "$of_a$of_b $all" in
            '00 xyabc.' | '00 abcxy.' | '01 abc.' | '10 xy.') [ "$(files)" = image ] ;;
            *) false ;;
            esac || { lost=$((lost + 1)); echo "    $call $k: $of_a $(head -n 1 A.said), $of_b $(head -n 1 B.said), $all, $(files)"; }
            k=$((k + 1)) runs=$((runs + 1))
        done
        wait "$a"
    done
    echo "    stopped at $runs calls"; is 'a second session at each call, over an image' "$lost" 0; a=''; clean; rm -f out out2 other older
}

# shellcheck disable=SC2086 # words
[ "$*" != pipes ] || set -- $pipes
for test in ${*:-$pipes each_call each_stop onto_each_call onto_each_fault onto_each_stop basic sequences pastes watched few_rows options folders signals parents kills kills_onto devices speed}; do echo "$test"; "$test"; done
echo "$passed passed, $failed failed"
[ "$failed" = 0 ]
