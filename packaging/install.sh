#!/bin/sh
# install.sh install|uninstall ROOT [PROGRAM [LIBRARY [SESSIONS]]]: puts cordkit and what belongs to it below the folder ROOT, or takes it away from
# there. PROGRAM is the program, where it is not the one that `make run` built, and LIBRARY and SESSIONS the C libraries of the checker and of
# sessions, where they are not those that `make library` built; where there is none, that is told, and all else is installed. Each folder that install
# had to make is noted in lib/cordkit/folders, so that uninstall leaves none of them, and takes away none of anybody else's.
set -eu
umask 022
task=${1:-}
root=${2:-}
program=${3:-}
library=${4:-}
sessions=${5:-}

usage() {
    echo "usage: install.sh install|uninstall ROOT [PROGRAM [LIBRARY [SESSIONS]]]" >&2
    exit 2
}

[ -n "$root" ] || usage

# Paths may be relative to the folder in which this script was started.
case $root in
/*) ;;
*) root=$PWD/$root ;;
esac
case $program in
"" | /*) ;;
*) program=$PWD/$program ;;
esac
case $library in
"" | /*) ;;
*) library=$PWD/$library ;;
esac
case $sessions in
"" | /*) ;;
*) sessions=$PWD/$sessions ;;
esac
cd "$(dirname "$0")/.."
program=${program:-crates/cordkit/out/cordkit}
library=${library:-crates/cord_c/out/libcord_c.a}
shared=${library%.a}.so
sessions=${sessions:-crates/cord_session/out/libcord_session.a}
shared_sessions=${sessions%.a}.so
noted=$root/lib/cordkit/folders

# Each file: its mode, its place below the root, and where it stands here.
files="755 lib/cordkit/cordkit $program
755 bin/cordkit bin/cordkit
755 bin/cordedit bin/cordedit
755 bin/cordkit-verify bin/cordkit-verify
755 bin/cordkit-page bin/cordkit-page
755 bin/cordkit-lsp bin/cordkit-lsp
644 share/man/man1/cordkit.1 man/cordkit.1
644 share/man/man1/cordedit.1 man/cordedit.1
644 share/man/man1/cordkit-verify.1 man/cordkit-verify.1
644 share/man/man1/cordkit-lsp.1 man/cordkit-lsp.1
644 share/man/man5/cord-image.5 man/cord-image.5
644 share/bash-completion/completions/cordkit completions/cordkit.bash
644 share/bash-completion/completions/cordedit completions/cordkit.bash
644 share/bash-completion/completions/cordkit-verify completions/cordkit.bash
644 share/bash-completion/completions/cordkit-lsp completions/cordkit.bash
644 share/zsh/site-functions/_cordkit completions/_cordkit
644 share/fish/vendor_completions.d/cordkit.fish completions/cordkit.fish
644 share/fish/vendor_completions.d/cordkit-verify.fish completions/cordkit-verify.fish
644 share/fish/vendor_completions.d/cordkit-lsp.fish completions/cordkit-lsp.fish
644 share/cordkit/magic packaging/magic
755 share/cordkit/keep_file examples/keep_file
644 share/cordkit/keep_file.vim examples/keep_file.vim
644 share/cordkit/keep_file.kak examples/keep_file.kak
644 share/cordkit/keep_keys.lua examples/keep_keys.lua
644 share/cordkit/keep_keys.el examples/keep_keys.el
755 share/doc/cordkit/examples/from_git examples/from_git
644 share/doc/cordkit/README.md README.md
644 share/doc/cordkit/CONTRIBUTING.md CONTRIBUTING.md
644 share/doc/cordkit/CHANGELOG.md CHANGELOG.md
644 share/doc/cordkit/LICENSE LICENSE
$(printf '644 share/doc/cordkit/%s\n' docs/*.md | sed 's/.*cordkit\/\(.*\)/& \1/')
$(printf '644 lib/cordkit/%s\n' cordkit_lsp/*.py | sed 's/.*cordkit\/\(.*\)/& \1/')"

# Documents that become manual pages: their names there, and where they stand.
pages="cordkit-start docs/START.md
cordkit-commit docs/COMMIT.md
cordkit-editor docs/EDITOR.md
cordkit-editors docs/EDITORS.md
cordkit-faq docs/FAQ.md"

# Those of the C libraries, and those of the Python module, which loads them.
c_files="644 lib/libcord_c.a $library
644 include/cordkit/cord.h crates/cord_c/cord.h
644 include/cord.h packaging/cord.h
644 lib/pkgconfig/cordkit.pc packaging/cordkit.pc
644 share/doc/cordkit/examples/cord.rs crates/cord_c/callers/cord.rs"
python_files="644 lib/cordkit/python/cordkit/__init__.py crates/cord_c/callers/cordkit.py
644 lib/cordkit/python/cordkit/libcord_c.so $shared
755 share/doc/cordkit/examples/check_many.py examples/check_many.py"
session_files="644 lib/libcord_session.a $sessions
644 include/cordkit/cord.h crates/cord_c/cord.h
644 include/cordkit/cord_session.h crates/cord_session/cord_session.h
644 include/cordkit/cord_session.hpp crates/cord_session/cord_session.hpp
644 lib/pkgconfig/cordkit-session.pc packaging/cordkit-session.pc
644 share/doc/cordkit/examples/cord_session.rs crates/cord_session/callers/cord_session.rs
644 share/doc/cordkit/examples/line_editor.c examples/line_editor.c"
python_session_files="644 lib/cordkit/python/cordkit/libcord_session.so $shared_sessions"

page_files="644 share/cordkit/history.html crates/cord_c/out/history.html"

# Adds the files that need something else that is built, or tells that it is not there.
add() {
    if [ -f "$2" ]; then
        files="$files
$3"
    else
        echo "LEFT OUT: $1: there is no $2: make ${4:-library} builds it"
    fi
}

# Makes a folder below the root, with those above it, and tells each that was not there, the upper one first.
make_folder() {
    if ! [ -d "$root/$1" ]; then
        if [ "$1" != . ]; then
            make_folder "$(dirname "$1")"
        fi
        mkdir -p "$root/$1"
        echo "$1"
    fi
}

put_all() {
    if ! [ -f "$program" ] || ! [ -x "$program" ]; then
        echo "there is no program $program: make run builds it" >&2
        exit 1
    fi
    add 'the C library' "$library" "$c_files"
    add 'the Python module' "$shared" "$python_files"
    add 'the C library of sessions' "$sessions" "$session_files"
    if [ -f "$shared" ]; then
        add 'sessions in the Python module' "$shared_sessions" "$python_session_files"
    fi
    add 'the page' crates/cord_c/out/history.html "$page_files" wasm
    made=$(printf '%s\n' "$files" "644 share/man/man7/page" | while read -r mode place source; do make_folder "$(dirname "$place")"; done)
    if [ -n "$made" ]; then
        echo "$made" >> "$noted"
    fi
    printf '%s\n' "$files" | while read -r mode place source; do
        install -m "$mode" "$source" "$root/$place"
    done
    date=$(sed -n 's/^\.Dd //p' man/cordkit.1)
    echo "$pages" | while read -r name source; do
        awk -v name="$name" -v date="$date" -f packaging/page.awk "$source" > "$root/share/man/man7/$name.7"
    done
    version=$(sh packaging/version.sh)
    for described in cordkit cordkit-session; do
        if [ -f "$root/lib/pkgconfig/$described.pc" ]; then
            sed "s/@version@/${version%~*}/" "packaging/$described.pc" > "$root/lib/pkgconfig/$described.pc"
        fi
    done
}

# A folder that something else came to lie in stays.
take_all_away() {
    made=
    if [ -f "$noted" ]; then
        made=$(sed '1!G; h; $!d' "$noted")
    fi
    printf '%s\n' "$files" "$c_files" "$python_files" "$session_files" "$python_session_files" "$page_files" | while read -r mode place source; do
        rm -f "$root/$place"
    done
    echo "$pages" | while read -r name source; do
        rm -f "$root/share/man/man7/$name.7"
    done
    rm -rf "$root/lib/cordkit/python/cordkit/__pycache__"
    rm -f "$noted"
    echo "$made" | while read -r folder; do
        case $folder in
        "") ;;
        .) rmdir "$root" 2> /dev/null || true ;;
        *) rmdir "$root/$folder" 2> /dev/null || true ;;
        esac
    done
}

case $task in
install) put_all ;;
uninstall) take_all_away ;;
*) usage ;;
esac
