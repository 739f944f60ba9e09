#!/bin/sh
# Installs the built program, or the one that $1 names, with what belongs to it into folders of its own, and tries what lies there: the launcher,
# on the rows of tests/program.sh that are for it, or on all of them where $2 is `all`; the editor, by the cases of tests/kept_keys.sh that need no
# terminal, or by all of them and tests/terminal.sh; the C libraries, or those of $3 and $4, and the Python module, by the
# programs of docs/C_LIBRARY.md; every example of the manual pages; the manual pages, the completions and the magic, each by its own tool; and that
# uninstall leaves nothing. What cannot be tried here is told. The last line is 'N passed, M failed'; the status is not 0 where a case failed.
set -u
top=$(cd "$(dirname "$0")/.." && pwd)
program=${1:-$top/crates/cordkit/out/cordkit}
cases=${2:-launcher}
library=${3:-$top/crates/cord_c/out/libcord_c.a}
sessions=${4:-$top/crates/cord_session/out/libcord_session.a}
case $program in
/*) ;;
*) program=$PWD/$program ;;
esac
case $library in
/*) ;;
*) library=$PWD/$library ;;
esac
case $sessions in
/*) ;;
*) sessions=$PWD/$sessions ;;
esac
if ! [ -x "$program" ]; then
    echo "there is no program $program" >&2
    echo "0 passed, 1 failed"
    exit 1
fi
room=$(mktemp -d) || exit 1
trap 'rm -rf "$room"' EXIT
trap 'exit 1' HUP INT TERM
prefix="$room/a prefix"
unset MAKEFLAGS MFLAGS MAKELEVEL CORDKIT
export LC_ALL=C TERM=xterm
passed=0
failed=0

passes() {
    passed=$((passed + 1))
}

fails() {
    failed=$((failed + 1))
    echo "FAILED: $1"
}

# A case: its name, what there is, and what there has to be.
is_same() {
    if [ "$2" = "$3" ]; then
        passes
    else
        fails "$1: it is"
        printf '%s\nand has to be\n%s\n' "$2" "$3"
    fi
}

# Whether there is this tool, without which something is not tried.
has() {
    if command -v "$1" > /dev/null; then
        return 0
    fi
    echo "LEFT OUT: $2: there is no $1 here"
    return 1
}

# Whether script gives a shell a terminal of its own.
has_terminal() {
    has script "$1" || return 1
    if [ "$(script -qec 'echo told' /dev/null 2> /dev/null < /dev/null | tr -d '\r')" = told ]; then
        return 0
    fi
    echo "LEFT OUT: $1: script makes no terminal here"
    return 1
}

make_it() {
    make -s -C "$top" LIBRARY="$library" SESSIONS="$sessions" "$@" > "$room/made" 2>&1
}

# What lies below a folder, if there is one.
below() {
    if [ -d "$1" ]; then
        (cd "$1" && find . | sort)
    fi
}

# ---- Installing and taking away

# Each file that has to be there, with its mode.
wanted_files() {
    echo '644 lib/cordkit/folders
644 share/bash-completion/completions/cordedit
644 share/bash-completion/completions/cordkit
644 share/bash-completion/completions/cordkit-lsp
644 share/bash-completion/completions/cordkit-verify
644 share/cordkit/keep_file.kak
644 share/cordkit/keep_file.vim
644 share/cordkit/keep_keys.el
644 share/cordkit/keep_keys.lua
644 share/cordkit/magic
644 share/fish/vendor_completions.d/cordkit-lsp.fish
644 share/fish/vendor_completions.d/cordkit-verify.fish
644 share/fish/vendor_completions.d/cordkit.fish
644 share/man/man1/cordedit.1
644 share/man/man1/cordkit-lsp.1
644 share/man/man1/cordkit-verify.1
644 share/man/man1/cordkit.1
644 share/man/man5/cord-image.5
644 share/man/man7/cordkit-commit.7
644 share/man/man7/cordkit-editor.7
644 share/man/man7/cordkit-editors.7
644 share/man/man7/cordkit-faq.7
644 share/man/man7/cordkit-start.7
644 share/zsh/site-functions/_cordkit
755 share/cordkit/keep_file
755 share/doc/cordkit/examples/from_git
644 share/doc/cordkit/CHANGELOG.md
644 share/doc/cordkit/CONTRIBUTING.md
644 share/doc/cordkit/LICENSE
644 share/doc/cordkit/README.md
755 bin/cordedit
755 bin/cordkit
755 bin/cordkit-lsp
755 bin/cordkit-page
755 bin/cordkit-verify
755 lib/cordkit/cordkit'
    (cd "$top" && printf '644 share/doc/cordkit/%s\n' docs/*.md && printf '644 lib/cordkit/%s\n' cordkit_lsp/*.py)
    if [ -f "$library" ]; then
        echo '644 include/cord.h
644 include/cordkit/cord.h
644 lib/libcord_c.a
644 lib/pkgconfig/cordkit.pc
644 share/doc/cordkit/examples/cord.rs'
    fi
    if [ -f "${library%.a}.so" ]; then
        echo '644 lib/cordkit/python/cordkit/__init__.py
644 lib/cordkit/python/cordkit/libcord_c.so
755 share/doc/cordkit/examples/check_many.py'
    fi
    if [ -f "$sessions" ]; then
        echo '644 include/cordkit/cord_session.h
644 include/cordkit/cord_session.hpp
644 lib/libcord_session.a
644 lib/pkgconfig/cordkit-session.pc
644 share/doc/cordkit/examples/cord_session.rs
644 share/doc/cordkit/examples/line_editor.c'
        [ -f "$library" ] || echo '644 include/cordkit/cord.h'
    fi
    if [ -f "${library%.a}.so" ] && [ -f "${sessions%.a}.so" ]; then
        echo '644 lib/cordkit/python/cordkit/libcord_session.so'
    fi
}

try_installing() {
    make_it install PREFIX="$room/none" PROGRAM="$room/missing"
    is_same 'without a program it is told how to build one' \
        "$(grep -c 'there is no program .*: make run builds it' "$room/made") $(below "$room/none")" '1 '
    make_it install PREFIX="$prefix" PROGRAM="$program" || cat "$room/made"
    is_same 'the installed program' "$(sha256sum < "$prefix/lib/cordkit/cordkit")" "$(sha256sum < "$program")"
    grep 'LEFT OUT' "$room/made"
    is_same 'the installed files' "$(cd "$prefix" && find . -type f -printf '%m %P\n' | sort)" "$(wanted_files | sort)"
    make_it install DESTDIR="$room/stage" PREFIX=/usr PROGRAM="$program" || cat "$room/made"
    is_same 'a staged installation has the same files' "$(below "$room/stage/usr")" "$(below "$prefix")"
    make_it uninstall DESTDIR="$room/stage" PREFIX=/usr
    is_same 'nothing of it is left' "$(below "$room/stage")" .
    make_it install PREFIX="$room/bare" PROGRAM="$program" LIBRARY="$room/missing.a" SESSIONS="$room/none.a"
    is_same 'without a C library it is told how to build one, and all else is installed' \
        "$(grep -c 'LEFT OUT: .*: make library builds it' "$room/made") $(cd "$room/bare" && find . -type f | sort)" \
        "3 $(cd "$prefix" && find . -type f | grep -v -e /include/ -e /libcord_ -e /pkgconfig/ -e /python/ -e /check_many.py -e /cord.rs -e /cord_session.rs \
            -e /line_editor.c | sort)"
    make_it uninstall PREFIX="$room/bare"
    is_same 'nothing of that is left' "$(below "$room/bare")" ''
}

# A prefix with folders and files of others, into which is installed twice.
try_shared_prefix() {
    mkdir -p "$room/shared/bin" "$room/shared/share/man/man1" "$room/shared/share/fish"
    : > "$room/shared/share/man/man1/other.1"
    before=$(below "$room/shared")
    make_it install PREFIX="$room/shared" PROGRAM="$program"
    make_it install PREFIX="$room/shared" PROGRAM="$program"
    is_same 'a program among others' "$("$room/shared/bin/cordkit" check "$top/crates/cordkit/stdin")" "$(cat "$top/crates/cordkit/stdout")"
    make_it uninstall PREFIX="$room/shared"
    is_same 'what was there before is left, and nothing else' "$(below "$room/shared")" "$before"
    make_it uninstall PREFIX="$room/shared"
    is_same 'a second time changes nothing' "$(below "$room/shared")" "$before"
}

# ---- The programs

try_programs() {
    if written=$(sh "$top/tests/program.sh" "$prefix/bin/cordkit" "$cases"); then
        echo "the rows of the program: $written"
        passes
    else
        echo "$written"
        fails 'the rows of the program'
    fi
    mkdir "$room/links"
    ln -s "$prefix/bin/cordkit" "$prefix/bin/cordedit" "$room/links"
    cd "$room/links" || exit 1
    is_same 'the launcher by a link' "$(./cordkit check "$top/crates/cordkit/stdin")" "$(cat "$top/crates/cordkit/stdout")"
    printf 'ab\030' | PATH=/usr/bin:/bin ./cordedit image > frames
    is_same 'cordedit by a link runs the program beside it' "$("$prefix/bin/cordkit" show image 2)" ab
    if has python3 'the second checker'; then
        is_same 'the second checker' "$("$prefix/bin/cordkit-verify" "$top/crates/cordkit/stdin")" "$(cat "$top/crates/cordkit/stdout")"
        is_same 'the second checker without words' "$("$prefix/bin/cordkit-verify" 2>&1 | tail -n 1)" \
            'cordkit-verify: error: the following arguments are required: IMAGE'
    fi
}

# ---- The C library, and the Python module

# Block number $2 of a language in docs/C_LIBRARY.md, as it stands.
block_of() {
    awk -v language="$1" -v wanted="$2" '
        /^```/ && on { on = 0; next }
        $0 == "```" language { on = ++n == wanted }
        on && !/^```/' "$top/docs/C_LIBRARY.md"
}

version_of_changes() {
    sed -n 's/^## \([0-9.]*\) (.*/\1/p' "$top/CHANGELOG.md" | head -n 1
}

try_c_library() {
    has gcc 'the installed C library' && has pkg-config 'the installed C library' || return
    export PKG_CONFIG_PATH="$prefix/lib/pkgconfig"
    is_same 'the version of the C library' "$(pkg-config --modversion cordkit)" "$(version_of_changes)"
    block_of c 1 > newest.c
    if eval "gcc -std=c11 -Wall -Wextra -pedantic -Werror -o newest newest.c $(pkg-config --cflags --libs cordkit)" > log 2>&1; then
        is_same 'the program in C' "$(./newest < fox.cord)" 'the brown fox'
        is_same 'the program in C of no image' "$(./newest < script || echo "status $?")" "refused C1
status 1"
    else
        fails "the program in C: $(cat log)"
    fi
    is_same 'the program in C, with what was built here' \
        "$(gcc -std=c11 -I "$top/crates/cord_c/include" -o newest newest.c "$library" 2>&1 && ./newest < fox.cord)" 'the brown fox'
    try_two_headers
}

# A program may include the collector's header of the same name too, before this one or behind it.
try_two_headers() {
    if ! echo '#include <gc/cord.h>' | gcc -E - > log 2>&1; then
        echo "LEFT OUT: the collector's cord.h: there is no gc/cord.h here; one with its guard stands for it"
        mkdir gc
        printf '#ifndef CORD_H\n#define CORD_H\ntypedef const char *CORD;\n#define CORD_EMPTY 0\n#endif\n' > gc/cord.h
    fi
    cat > both.c << 'BOTH'
int main(void) {
    CORD text = CORD_EMPTY;
    struct cord_image image = CORD_IMAGE_NONE;
    uint64_t len = 7;
    return text != CORD_EMPTY || cord_text_len(&image, 0, &len) || len != 7;
}
BOTH
    for headers in 'gc/cord.h cordkit/cord.h' 'cordkit/cord.h gc/cord.h' 'gc/cord.h cord.h cordkit/cord.h'; do
        # shellcheck disable=SC2086 # each header is a word
        { printf '#include <%s>\n' $headers && cat both.c; } > headers.c
        is_same "a program that includes $headers" \
            "$(eval "gcc -std=c11 -Wall -Wextra -I . -o headers headers.c $(pkg-config --cflags --libs cordkit)" 2>&1 && ./headers && echo both)" both
    done
}

try_python_module() {
    has python3 'the installed Python module' || return
    block_of python 1 > newest.py
    is_same 'the program in Python' "$(PYTHONPATH="$prefix/lib/cordkit/python" python3 newest.py fox.cord 2>&1)" "$(block_of text 1)"
    [ -f "${sessions%.a}.so" ] || return
    block_of python 2 > dogs.py
    is_same 'the second program in Python' "$(PYTHONPATH="$prefix/lib/cordkit/python" python3 dogs.py 2>&1)" "$(block_of text 5)"
    is_same 'its image' "$("$prefix/bin/cordkit" check dogs.cord)" "$("$prefix/bin/cordkit-verify" dogs.cord)"
}

# A program that links both libraries: it begins a session, saves it, and checks the image.
both_libraries() {
    cat << 'BOTH'
#include <cordkit/cord.h>
#include <cordkit/cord_session.h>
#include <stdio.h>

int main(void) {
    struct cord_session session = CORD_SESSION_NONE;
    struct cord_command fresh = {.code = CORD_COMMAND_NEW, .bytes = cord_nothing, .changes = cord_no_changes};
    struct cord_verdict verdict;
    uint8_t image[1000];
    uint64_t len;
    size_t got;
    uint32_t revision;
    if (cord_session_begin(&session) || cord_session_apply(&session, &fresh, &revision) || cord_session_save(&session, &len)) return 3;
    if (cord_session_saved(&session, 0, image, sizeof image, &got) || got != len) return 3;
    cord_session_end(&session);
    bool is_accepted = cord_check(image, got, cord_no_sources, 0, &verdict);
    printf("%s %u\n", is_accepted ? "accepted" : "refused", (unsigned)verdict.revisions);
    return 0;
}
BOTH
}

try_session_library() {
    has gcc 'the installed C library of sessions' && has pkg-config 'the installed C library of sessions' || return
    export PKG_CONFIG_PATH="$prefix/lib/pkgconfig"
    is_same 'the version of the C library of sessions' "$(pkg-config --modversion cordkit-session)" "$(version_of_changes)"
    block_of c 2 > fox.c
    cp "$prefix/share/doc/cordkit/examples/line_editor.c" .
    for name in fox line_editor; do
        eval "gcc -std=c11 -Wall -Wextra -pedantic -Werror -o $name $name.c $(pkg-config --cflags --libs cordkit-session)" > log 2>&1 ||
            fails "$name.c: $(cat log)"
    done
    is_same 'the session in C' "$(./fox)" "$(block_of text 2)"
    is_same 'its image' "$("$prefix/bin/cordkit" show fox.cord)" 'the brown fox'
    block_of sh 1 > typed
    is_same 'the line editor' "$(sh ./typed 2>&1)" "$(block_of text 6)"
    if [ -f "$library" ]; then
        both_libraries > both.c
        is_same 'a program with both libraries' \
            "$(eval "gcc -std=c11 -Wall -Wextra -pedantic -Werror -o both both.c $(pkg-config --cflags --libs cordkit-session cordkit)" 2>&1 && ./both)" 'accepted 1'
    fi
    try_wrappers
}

try_wrappers() {
    if has g++ 'the installed wrapper for C++'; then
        block_of cpp 1 > dog.cpp
        is_same 'the session in C++' \
            "$(eval "g++ -std=c++17 -Wall -Wextra -pedantic -Werror -o dog dog.cpp $(pkg-config --cflags --libs cordkit-session)" 2>&1 && ./dog)" "$(block_of text 3)"
        is_same 'its image' "$("$prefix/bin/cordkit" show dog.cord)" 'the brown dog'
    fi
    if has rustc 'the installed wrapper for Rust' && [ -f "$library" ]; then
        block_of rust 1 > notes.rs
        cp "$prefix/share/doc/cordkit/examples/cord.rs" "$prefix/share/doc/cordkit/examples/cord_session.rs" .
        printf 'one\ntwo\n' > notes.txt
        is_same 'the sessions and ropes in Rust' "$(rustc --edition 2021 -D warnings -L native="$prefix/lib" notes.rs 2>&1 && ./notes)" "$(block_of text 4)"
        is_same 'its image' "$("$prefix/bin/cordkit" show notes.cord last notes.txt)" "$(printf 'one\nand two')"
    fi
}

try_library() {
    mkdir "$room/library"
    cd "$room/library" || exit 1
    printf 'new\ninsert 0 0 "the fox"\ninsert 1 4 "brown "\n' > script
    "$prefix/bin/cordkit" apply script > fox.cord
    if [ -f "$library" ]; then try_c_library; fi
    # Its shared library stands there once archive.sh has put malloc's calls into the archive.
    if [ -f "${sessions%.a}.so" ]; then try_session_library; fi
    if [ -f "${library%.a}.so" ]; then try_python_module; fi
}

# Two sessions over one image, and keys that are kept, by the installed programs: without a terminal, and in one where all is tried.
try_keys() {
    if written=$(CORDKIT="$prefix/lib/cordkit/cordkit" CORDEDIT="$prefix/bin/cordedit" sh "$top/tests/kept_keys.sh" "$@"); then
        echo "the keys of the installed editor: $(echo "$written" | tail -n 1)"
        passes
    else
        echo "$written"
        fails 'the keys of the installed editor'
    fi
}

# The screens of the editor, by the installed programs.
try_screens() {
    has tmux 'the installed editor in a terminal' || return
    if written=$(CORDEDIT="$prefix/bin/cordedit" sh "$top/tests/terminal.sh" "$prefix/lib/cordkit/cordkit"); then
        echo "the screens of the installed editor: $(echo "$written" | tail -n 1)"
        passes
    else
        echo "$written"
        fails 'the screens of the installed editor'
    fi
}

# The history of a file that was renamed, by the installed example.
try_history() {
    has git 'the installed from_git' && has python3 'the installed from_git' || return
    mkdir "$room/history"
    cd "$room/history" || exit 1
    {
        git init -q .
        git config user.name x
        git config user.email x@localhost
        printf 'one\ntwo\n' > before
        git add before
        git commit -q -m made
        git mv before file
        git commit -q -m renamed
        "$prefix/share/doc/cordkit/examples/from_git" file > script
        "$prefix/bin/cordkit" apply script > image
    } > log 2>&1
    is_same 'the installed from_git' "$("$prefix/bin/cordkit" log image | cut -d ' ' -f 1-5 && "$prefix/bin/cordkit" show image 2)" \
        "$(printf 'new # 0: 0 bytes,\nreplace 0 0 0 "one\\ntwo\\n"\nback 1 # 2: 8\none\ntwo')"
}

# The history of a file that an editor saves, by the installed script, and by the installed line of vim.
try_saves() {
    mkdir "$room/saves"
    cd "$room/saves" || exit 1
    echo one > notes.txt
    is_same 'the installed keep_file' "$(PATH="$prefix/bin:$PATH" "$prefix/share/cordkit/keep_file" notes.txt && cut -c 1-2 notes.txt.times)" "$(printf 'committed 1\n1 ')"
    is_same 'what it refuses it names' "$(echo prose > other.txt.cord && echo two > other.txt && PATH="$prefix/bin:$PATH" "$prefix/share/cordkit/keep_file" other.txt 2>&1; echo "$?")" \
        "$(printf 'keep_file: other.txt is not committed: refused C1(I3)\nC1(I3): other.txt.cord is no image: it does not begin with CORDSESS. It stays as it is: move it away and give the same command again, or name another image\n1')"
    if has vim 'the installed line of vim'; then
        printf 'source %s/keep_file.vim\nsilent 1put =\"two\"\nsilent write\ncquit 0\n' "$(printf %s "$prefix/share/cordkit" | sed 's/ /\\ /g')" > edits.vim
        PATH="$prefix/bin:$PATH" vim -es -u NONE -i NONE -n -S edits.vim notes.txt < /dev/null > told 2>&1
        is_same 'the installed line of vim' "$("$prefix/bin/cordkit" show notes.txt.cord 2)" "$(printf 'one\ntwo')"
    fi
}

# What is typed, by the installed server and its folder, over the installed program.
try_typed_keys() {
    has python3 'the installed language server' || return
    if written=$(CORDKIT_LSP="$prefix/bin/cordkit-lsp" python3 "$top/tests/language_server.py" 20 "$prefix/lib/cordkit/cordkit"); then
        passes
    else
        echo "$written"
        fails 'the installed language server'
    fi
}

# The sections of a document, as its manual page has them.
sections_of() {
    sed -n 's/^## //p' "$top/docs/$1.md" | tr '[:lower:]' '[:upper:]' | tr -d "'"
}

try_documents() {
    for page in START COMMIT EDITOR EDITORS FAQ; do
        installed=$prefix/share/man/man7/cordkit-$(echo "$page" | tr '[:upper:]' '[:lower:]').7
        is_same "the sections of $page" "$(sed -n 's/^\.SH //p' "$installed" | sed 's/\\(aq//g; s/\\-/-/g' | grep -vxE 'NAME|DESCRIPTION|SEE ALSO')" "$(sections_of "$page")"
        is_same "no mark of the document is left in $page" "$(grep -cE '\*\*|\]\(|^\|' "$installed")" 0
    done
}

# The commands that the program's help names.
commands() {
    "$prefix/bin/cordkit" --help 2>&1 | awk '/^Commands:/ { on = 1; next } /^$/ { on = 0 } on { print $1 }' | sort
}

# The options that the help of a command names, or the program's own help.
options() {
    "$prefix/bin/cordkit" help "$@" 2>&1 | sed '1,/^Options:/d' | grep -o '^  *\(-., \)\{0,1\}--[a-z-]*' | grep -o -e '--.*' | sort
}

# ---- The manual pages

# The examples of a manual page as shell scripts, each with what it has to write beside it: 1, 1.wanted, and so on. A line that begins with
# a dollar is a command; those behind it that begin with > go on with it.
examples_of() {
    sed 's/\\e/\\/g; s/^\\&//' "$1" | awk -v folder="$2" '
        /^\.Sh / { examples = $2 == "EXAMPLES" }
        examples && /^\.Bd / { block = 1; script = ""; wanted = ""; next }
        block && /^\.Ed/ {
            block = 0
            if (script == "") next
            n++
            printf "%s", script > (folder "/" n)
            printf "%s", wanted > (folder "/" n ".wanted")
        }
        block && /^\$ / { script = script substr($0, 3) "\n"; command = 1; next }
        block && command && /^> / { script = script substr($0, 3) "\n"; next }
        block { wanted = wanted $0 "\n"; command = 0 }'
}

try_examples() {
    name=$(basename "$1")
    mkdir "$room/$name" "$room/$name.scripts"
    examples_of "$1" "$room/$name.scripts"
    cd "$room/$name" || exit 1
    count=0
    while [ -f "$room/$name.scripts/$((count + 1))" ]; do
        count=$((count + 1))
        PATH="$prefix/bin:$PATH" sh "$room/$name.scripts/$count" > ../written 2>&1
        is_same "example $count of $name" "$(cat ../written)" "$(cat "$room/$name.scripts/$count.wanted")"
    done
    all_examples=$((all_examples + count))
}

try_pages() {
    all_examples=0
    for page in "$prefix"/share/man/man*/*; do
        case $(basename "$page") in
        cordkit-verify.1 | cordkit-lsp.1) has python3 "the examples of $(basename "$page")" || continue ;;
        esac
        try_examples "$page"
    done
    if [ "$all_examples" -ge 5 ]; then passes; else fails "$all_examples examples in the manual pages"; fi
    is_same 'the commands of the manual page' \
        "$(sed -n 's/^\.It Cm \([a-z]*\).*/\1/p' "$prefix/share/man/man1/cordkit.1" | sort -u)" "$(commands)"
    is_same 'the options of the manual page' \
        "$(sed -n 's/^\.It Fl \(. , \)\{0,1\}-\([a-z-][a-z-]*\).*/--\2/p' "$prefix/share/man/man1/cordkit.1" | sort)" \
        "$({ options && for command in $(commands); do options "$command"; done; } | sort -u)"
    if has mandoc 'the faults of the manual pages'; then
        is_same 'the manual pages have no fault' \
            "$(mandoc -T lint -W style "$prefix"/share/man/man*/* 2> /dev/null | grep -v ': referenced manual not found: ')" ''
    fi
}

# ---- Completions

# What a shell makes of the keys of a table, in which a tab stands as a star: the words that the command then gets, each behind a bar. A third field
# has those that zsh makes where they are others.
try_typed() {
    name=$1
    shift
    : > got
    while IFS=';' read -r typed _; do
        printf '%s\n' "$typed"
    done < table | tr '*' '\t' > keys
    echo exit >> keys
    ZDOTDIR=$room/zsh timeout 60 script -qec "$*" /dev/null < keys > ../screen 2>&1
    n=0
    while IFS=';' read -r typed wanted in_zsh; do
        n=$((n + 1))
        [ "$name" != zsh ] || wanted=${in_zsh:-$wanted}
        is_same "$name completes '$typed'" "$(sed -n "${n}p" got)" "$wanted"
    done < table
}

# A folder with the files that are completed, and commands that tell the words that they get.
make_completions() {
    mkdir "$room/completions" "$room/zsh"
    cd "$room/completions" || exit 1
    : > session.cord
    : > text
    : > 'a file'
    : > 1st
    cat > ../words << 'WORDS'
PS1=
show_words() { printf '|%s' "$@" >> got; echo >> got; }
cordkit() { show_words "$@"; }
cordedit() { show_words "$@"; }
cordkit-verify() { show_words "$@"; }
cordkit-lsp() { show_words "$@"; }
WORDS
    cat > table << 'TABLE'
cordkit ch*ses*te*;|check|session.cord|text
cordkit check --at-most 1* ses*;|check|--at-most|1|session.cord
cordkit check --at-most=1* ses*;|check|--at-most=1|session.cord
cordkit check --he*;|check|--help
cordkit check -- ses*;|check|--|session.cord
cordkit sh*ses*1* te*te*;|show|session.cord|1|text|text
cordkit mi*ses*te*;|migrate|session.cord|text
cordkit l*--b*ses*te*;|log|--brief|session.cord|text
cordkit blame --start 1* ses*1* te*;|blame|--start|1|session.cord|1|text
cordkit cu*1* 1* te*te*;|cut|1|1|text|te
cordkit j*te*a*;|join|text|a file
cordkit f*1* te* te*;|find|1|te|text
cordkit find --al*1* te* te*;|find|--all|1|te|text
cordkit cm*te*a*te*;|cmp|text|a file|te
cordkit ed*ses*te*;|edit|session.cord|text
cordkit edit --k*te* ses*te*;|edit|--keep|text|session.cord|text;|edit|--keep=text|session.cord|text
cordkit edit --keep=te* ses*te*;|edit|--keep=text|session.cord|text
cordkit help mi*mi*;|help|migrate|mi
cordkit --h*;|--help
cordkit --v*;|--version
cordkit --ex*cm*te*te*;|--explain|cmp|text|text
cordkit te*;|te
cordedit ses*te*te*;|session.cord|text|te
cordedit --te*te* ses*te*te*;|--text|text|session.cord|text|te
cordedit --con*ses*te*a*te*;|--continue|session.cord|text|a file|te
cordkit-verify --text 1* ses*te*;|--text|1|session.cord|text
cordkit-verify --g*ses*;|--graph|session.cord
cordkit-lsp --sta*te*;|--start|text
cordkit-lsp --w*te*;|--whole|text
cordkit-lsp --sh*te*;|--show|text
TABLE
}

try_bash() {
    completions=$prefix/share/bash-completion/completions/cordkit
    is_same 'the commands that bash offers' "$(bash -c '. "$1"
        COMP_WORDS=(cordkit "") COMP_CWORD=1
        _cordkit cordkit "" cordkit
        printf "%s\n" "${COMPREPLY[@]}"' bash "$completions" | sort)" "$(commands)"
    for command in $(commands); do
        is_same "the options of $command that bash offers" \
            "$(bash -c '. "$1"; printf "%s\n" $(_cordkit_options "$2")' bash "$completions" "$command" | sort)" "$(options "$command")"
    done
    has_terminal 'completions as they are typed in bash' || return
    {
        cat ../words
        echo "bind 'set bell-style none'; bind 'set enable-bracketed-paste off'; . '$completions'"
    } > ../bashrc
    try_typed bash bash --noprofile --rcfile ../bashrc -i
}

try_zsh() {
    is_same 'the commands that zsh offers' \
        "$(sed -n "s/^        '\([a-z]*\):.*/\1/p" "$prefix/share/zsh/site-functions/_cordkit" | sort)" "$(commands)"
    has_terminal 'completions as they are typed in zsh' || return
    {
        cat ../words
        echo "fpath=('$prefix/share/zsh/site-functions' \$fpath); autoload -Uz compinit; compinit -u -D; unsetopt beep"
    } > ../zsh/.zshrc
    try_typed zsh zsh -d -i
}

try_fish() {
    cd "$room/completions" || exit 1
    offered=$(fish --no-config -c "source '$prefix/share/fish/vendor_completions.d/cordkit.fish'; complete -C 'cordkit '")
    is_same 'the commands that fish offers' "$(printf '%s\n' "$offered" | cut -f 1 | sort)" "$(commands)"
    offered=$(fish --no-config -c "source '$prefix/share/fish/vendor_completions.d/cordkit.fish'; complete -C 'cordkit check --a'; complete -C 'cordkit show ses'")
    is_same 'the option and the file that fish offers' "$(printf '%s\n' "$offered" | cut -f 1)" "--at-most
session.cord"
    offered=$(fish --no-config -c "source '$prefix/share/fish/vendor_completions.d/cordkit-verify.fish'; complete -C 'cordkit-verify --'")
    is_same 'the options of the second checker that fish offers' "$(printf '%s\n' "$offered" | cut -f 1 | sort)" "--at-most
--graph
--help
--text"
}

try_magic() {
    cd "$room" || exit 1
    magic=$prefix/share/cordkit/magic
    is_same 'the magic has no fault' "$(file -C -m "$magic" 2>&1)" ''
    rm -f magic.mgc
    is_same 'an image of version 1' "$(file -b -m "$magic" "$top/crates/cordkit/stdin")" 'cordkit session image, version 1, 2 revisions'
    printf 'ab\030' | "$prefix/bin/cordkit" edit image > frames
    is_same 'an image of version 2' "$(file -b -m "$magic" image)" 'cordkit session image, version 2, 3 revisions'
    printf '\030' | "$prefix/bin/cordkit" edit image > frames
    is_same 'an image of one revision' "$(file -b -m "$magic" image)" 'cordkit session image, version 2, 1 revision'
    is_same 'its type' "$(file -b --mime-type -m "$magic" image)" application/x-cordkit-session
    is_same 'no image' "$(file -b -m "$magic" "$top/Makefile")" 'ASCII text'
}

try_installing
try_shared_prefix
try_programs
if [ "$cases" = all ]; then
    try_keys
    try_screens
else
    try_keys pipes
fi
try_history
try_saves
try_typed_keys
try_library
try_pages
try_documents
make_completions
if has bash 'the completions of bash'; then try_bash; fi
if has zsh 'the completions of zsh'; then try_zsh; fi
if has fish 'the completions of fish'; then try_fish; fi
if has file 'the magic'; then try_magic; fi
cd "$room" || exit 1
make_it uninstall PREFIX="$prefix"
is_same 'uninstall leaves nothing' "$(below "$prefix")" ''

echo "$passed passed, $failed failed"
[ "$failed" = 0 ]
