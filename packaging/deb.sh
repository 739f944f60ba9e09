#!/bin/sh
# deb.sh [PROGRAM [FOLDER [LIBRARY [SESSIONS]]]]: makes a package for Debian, by dpkg-deb, of the program that `make run` built or of PROGRAM, with what
# make install puts beside it, the C libraries among it where they are built. The package, cordkit_VERSION_ARCHITECTURE.deb, comes into the folder out, or
# FOLDER, and its path is printed. The version is that of CHANGELOG.md. Its times are those of the last commit, or of CHANGELOG.md where there is no
# git, so that a package made twice is the same.
set -eu
umask 022
program=${1:-}
folder=${2:-}
library=${3:-}
sessions=${4:-}
case $program in
"" | /*) ;;
*) program=$PWD/$program ;;
esac
case $folder in
"" | /*) ;;
*) folder=$PWD/$folder ;;
esac
case $library in
"" | /*) ;;
*) library=$PWD/$library ;;
esac
case $sessions in
"" | /*) ;;
*) sessions=$PWD/$sessions ;;
esac
cd "$(dirname "$0")/.."
folder=${folder:-out}
room=$(mktemp -d)
trap 'rm -rf "$room"' EXIT
trap 'exit 1' HUP INT TERM
if ! command -v dpkg-deb > /dev/null; then
    echo "there is no dpkg-deb here" >&2
    exit 1
fi
sh packaging/install.sh install "$room/package/usr" "$program" "$library" "$sessions" >&2
rm "$room/package/usr/lib/cordkit/folders"

# Debian's zsh looks for the completions of packages in a folder of its own.
mv "$room/package/usr/share/zsh/site-functions" "$room/package/usr/share/zsh/vendor-completions"

# And its python for modules. What python keeps beside one is taken away with it.
mkdir -p "$room/package/DEBIAN"
if [ -d "$room/package/usr/lib/cordkit/python" ]; then
    mkdir -p "$room/package/usr/lib/python3/dist-packages"
    mv "$room/package/usr/lib/cordkit/python/cordkit" "$room/package/usr/lib/python3/dist-packages/cordkit"
    rmdir "$room/package/usr/lib/cordkit/python"
    printf '#!/bin/sh\nset -e\nrm -rf "$DPKG_ROOT/usr/lib/python3/dist-packages/cordkit/__pycache__"\n' > "$room/package/DEBIAN/prerm"
    chmod 755 "$room/package/DEBIAN/prerm"
fi

version=$(sh packaging/version.sh)
architecture=$(dpkg --print-architecture)
: "${SOURCE_DATE_EPOCH=$(git log -1 --format=%ct 2> /dev/null || stat -c %Y CHANGELOG.md)}"
export SOURCE_DATE_EPOCH

# The libraries that the program needs, by Debian's own tool where it is there.
mkdir "$room/debian"
: > "$room/debian/control"
needed=$(cd "$room" && dpkg-shlibdeps -O package/usr/lib/cordkit/cordkit 2> /dev/null | sed -n 's/^shlibs:Depends=//p' || true)

# As which library the checker comes with it, if it does.
beside=''
[ ! -f "$room/package/usr/lib/libcord_c.a" ] || beside='for C'
[ ! -d "$room/package/usr/lib/python3/dist-packages/cordkit" ] || beside="${beside:+$beside and }for python"

documents=$room/package/usr/share/doc/cordkit
mkdir -p "$documents"
cp CHANGELOG.md "$documents/changelog"
cp LICENSE "$documents/copyright"
find "$room/package/usr/share/man" "$documents/changelog" -type f -exec gzip -9n {} +
{
    echo "Package: cordkit"
    echo "Version: $version"
    echo "Architecture: $architecture"
    echo "Section: editors"
    echo "Priority: optional"
    echo "Maintainer: $(git log -1 --format='%an <%ae>' 2> /dev/null || echo 'The cordkit authors <nobody@localhost>')"
    echo "Depends: ${needed:-libc6}"
    echo "Recommends: python3"
    echo "Suggests: bash-completion, file"
    echo "Installed-Size: $(du -sk "$room/package/usr" | cut -f 1)"
    echo "Description: text workbench whose saved sessions can be checked"
    echo " cordkit works on large texts as ropes, and keeps every old state of a text at"
    echo " little cost. A saved session carries every revision of its texts, the commands"
    echo " that made them, and rows that show that each text is what its command gives."
    echo " So it can be checked, and trusted, without the editor that wrote it. What the"
    echo " checker accepts, and what each command answers, is proved; how files are"
    echo " locked, synced and replaced is tested. An editor for the terminal and a second"
    echo " checker, in python, come with it, lines by which vim and kakoune keep every"
    echo " saved state of a file, a language server by which any editor keeps each key,"
    echo " and manual pages: begin with cordkit-start(7)."
    [ -z "$beside" ] || echo " The checker also comes as a library $beside."
    [ ! -f "$room/package/usr/lib/libcord_session.a" ] || echo " Ropes and sessions come as another one, for editors."
} > "$room/package/DEBIAN/control"
(cd "$room/package" && find usr -type f | sort | xargs md5sum) > "$room/package/DEBIAN/md5sums"
mkdir -p "$folder"
package=$folder/cordkit_${version}_$architecture.deb
dpkg-deb --root-owner-group -Zxz --build "$room/package" "$package" > /dev/null
echo "$package"
