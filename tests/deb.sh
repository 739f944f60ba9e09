#!/bin/sh
# Makes the package for Debian twice, of the built program or of the one that $1 names, and of the C libraries or those of $2 and $3, and tries it: dpkg installs
# it into a folder of its own, the launcher's rows of tests/program.sh and the Python module run there, and dpkg takes it away again. What cannot be
# tried here is told. The last line is 'N passed, M failed'; the status is not 0 where a case failed.
set -u
top=$(cd "$(dirname "$0")/.." && pwd)
program=${1:-$top/crates/cordkit/out/cordkit}
library=${2:-$top/crates/cord_c/out/libcord_c.a}
sessions=${3:-$top/crates/cord_session/out/libcord_session.a}
case $program in
/*) ;;
*) program=$PWD/$program ;;
esac
case $library in
/*) ;;
*) library=$PWD/$library ;;
esac
case $sessions in
/*) ;;
*) sessions=$PWD/$sessions ;;
esac
PATH=$PATH:/usr/sbin:/sbin
for tool in dpkg dpkg-deb; do
    if ! command -v $tool > /dev/null; then
        echo "LEFT OUT: the package for Debian: there is no $tool here"
        echo "0 passed, 0 failed"
        exit 0
    fi
done
if ! [ -x "$program" ]; then
    echo "there is no program $program" >&2
    echo "0 passed, 1 failed"
    exit 1
fi
room=$(mktemp -d) || exit 1
trap 'rm -rf "$room"' EXIT
trap 'exit 1' HUP INT TERM
passed=0
failed=0

# A case: its name, what there is, and what there has to be.
is_same() {
    if [ "$2" = "$3" ]; then
        passed=$((passed + 1))
    else
        failed=$((failed + 1))
        echo "FAILED: $1: it is"
        printf '%s\nand has to be\n%s\n' "$2" "$3"
    fi
}

# dpkg over a folder that has no other packages. Only root may give files away, or whoever has fakeroot pretend so.
as_root=
[ "$(id -u)" = 0 ] || as_root=fakeroot
in_folder() {
    $as_root dpkg --root="$room/root" --force-depends --force-script-chrootless "$@" > "$room/told" 2>&1 || cat "$room/told"
}

# What lies in the folder, but what dpkg keeps there.
left() {
    (cd "$room/root" && find . -path ./var/lib/dpkg -prune -o -print | sort | tr '\n' ' ')
}

try_package() {
    mkdir -p "$room/root/var/lib/dpkg/info" "$room/root/var/lib/dpkg/updates"
    : > "$room/root/var/lib/dpkg/status"
    in_folder -i "$package"
    is_same 'it is installed' "$(dpkg-query --admindir="$room/root/var/lib/dpkg" -W -f '${Status}' cordkit)" 'install ok installed'
    is_same 'its files are those of the package' "$(dpkg --root="$room/root" --verify cordkit)" ''
    is_same 'it runs' "$("$room/root/usr/bin/cordkit" check "$top/crates/cordkit/stdin")" "$(cat "$top/crates/cordkit/stdout")"
    rows=$(sh "$top/tests/program.sh" "$room/root/usr/bin/cordkit" launcher)
    is_same 'the rows of the program' "$(echo "$rows" | sed 's/^[1-9][0-9]* passed/some passed/')" 'some passed, 0 failed'
    if [ -d "$room/root/usr/lib/python3/dist-packages/cordkit" ] && command -v python3 > /dev/null; then
        is_same 'python loads its module' "$(PYTHONPATH=$room/root/usr/lib/python3/dist-packages python3 -c \
            'import cordkit, sys; print(cordkit.check(cordkit.read(sys.argv[1])))' "$top/crates/cordkit/stdin")" "$(cat "$top/crates/cordkit/stdout")"
        [ ! -f "${sessions%.a}.so" ] || is_same 'with sessions' "$(PYTHONPATH=$room/root/usr/lib/python3/dist-packages python3 -c \
            'import cordkit; s = cordkit.Session(); print(bytes(s[s.insert(s.new(), 0, b"fox")]))')" "b'fox'"
    else
        echo "LEFT OUT: the package's Python module: it has none, or there is no python3 here"
    fi
    in_folder -r cordkit
    is_same 'nothing of it is left' "$(left)" '. ./var ./var/lib '
}

package=$(sh "$top/packaging/deb.sh" "$program" "$room" "$library" "$sessions") || exit 1
again=$(sh "$top/packaging/deb.sh" "$program" "$room/again" "$library" "$sessions" 2> /dev/null) || exit 1
is_same 'made twice, it is the same' "$(sha256sum < "$package")" "$(sha256sum < "$again")"
version=$(dpkg-deb -f "$package" Version)
is_same 'its version is that of CHANGELOG.md' "$(grep -c "^## ${version%~unreleased} (" "$top/CHANGELOG.md")" 1
is_same 'its description names the library where it has one' "$(dpkg-deb -f "$package" Description | grep -c 'as a library for C')" \
    "$(dpkg-deb -c "$package" | grep -c 'lib/libcord_c\.a$')"
is_same 'and the library of sessions too' "$(dpkg-deb -f "$package" Description | grep -c 'Ropes and sessions come as another one')" \
    "$(dpkg-deb -c "$package" | grep -c 'lib/libcord_session\.a$')"
if [ -n "$as_root" ] && ! command -v fakeroot > /dev/null; then
    echo "LEFT OUT: its installation: there is no fakeroot here"
else
    try_package
fi
echo "$passed passed, $failed failed"
[ "$failed" = 0 ]
