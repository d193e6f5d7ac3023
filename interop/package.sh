#!/bin/sh
# Whether the Debian package and ./install leave another project's ots alone, and what the package says of itself is so:
#     interop/package.sh [FOLDER]
# FOLDER has the archive and the package that ./release made; where none is given, ./release makes them. A package that stands
# in for the reference client's, with the program ots, its page and its completions, is installed, upgraded and removed beside
# ours in every order, each time in an empty root. Nothing is installed on this machine: dpkg --force-script-chrootless
# runs the scripts of a package with DPKG_ROOT. ./install is tried below a folder of its own, with programs that only have the
# words by which it knows them where build/ has none. It has to be run as root, and needs dpkg, python3 and git.
#
# It prints a line for each check that fails and `N passed, M failed`, and ends with 0 where all passed, with 1 where one
# failed, with 64 for faulty words, and with 70 where it could not begin.
set -u

fail() {
    echo "$0: $*" >&2
    exit 70
}

[ $# -le 1 ] || { echo "usage: $0 [FOLDER]" >&2; exit 64; }
top=$(CDPATH='' cd -- "$(dirname -- "$0")/.." && pwd) || exit 70
[ "$(id -u)" = 0 ] || fail 'dpkg wants root'
PATH=$PATH:/usr/sbin:/sbin
command -v dpkg > /dev/null || fail 'dpkg is not there'
work=$(mktemp -d) || exit 70
trap 'rm -rf "$work"' EXIT
trap 'exit 70' HUP INT TERM
if [ $# -eq 1 ]; then
    made=$(CDPATH='' cd -- "$1" && pwd) || exit 70
else
    made=$work/made
    "$top/release" "$made" > /dev/null || fail 'no package was made'
fi
deb=$(echo "$made"/gahopiki_*_amd64.deb)
archive=$(echo "$made"/gahopiki-*-x86_64.tar.gz)
[ -f "$deb" ] && [ -f "$archive" ] || fail "$made has not one package and one archive"

passed=0
failed=0

# Checks that a command ends with 0.
check() {
    what=$1
    shift
    if "$@"; then
        passed=$((passed + 1))
    else
        failed=$((failed + 1))
        echo "$part: $what"
    fi
}

same() { [ "$1" = "$2" ] || { echo "    $1"; echo "    is not $2"; false; }; }
not() { ! "$@"; }
is_link() { [ -L "$1" ] && [ "$(readlink "$1")" = "$2" ]; }
is_absent() { [ ! -e "$1" ] && [ ! -L "$1" ]; }
has_line() { [ -f "$1" ] && [ ! -L "$1" ] && grep -q -a -x -F -e "$2" "$1"; }

# ---- packages

# Makes a package of the folder with its files: file, name, version.
pack() {
    mkdir -p "$1.files/DEBIAN" || exit 70
    printf '%s\n' "Package: $2" "Version: $3" 'Architecture: all' 'Maintainer: nobody <nobody@example.org>' \
        'Description: stands in for another package' > "$1.files/DEBIAN/control"
    dpkg-deb --root-owner-group --build "$1.files" "$1" > /dev/null || exit 70
}

names='bin/ots share/man/man1/ots.1.gz share/bash-completion/completions/ots share/fish/vendor_completions.d/ots.fish'

# The reference client's package has all names that ours links, a later version of it too, and a small one the program alone;
# an earlier package of ours owned them as files. Another one stands in for the C library, without which dpkg would not run
# our script when theirs is removed.
for name in $names; do
    for package in theirs later earlier; do
        mkdir -p "$work/$package.files/usr/${name%/*}"
        echo "$package" > "$work/$package.files/usr/$name"
    done
done
mkdir -p "$work/small.files/usr/bin"
echo small > "$work/small.files/usr/bin/ots"
pack "$work/theirs" opentimestamps-client 0.7.1-1
pack "$work/later" opentimestamps-client 0.7.2-1
pack "$work/small" opentimestamps-client 0.7.0-1
pack "$work/earlier" gahopiki 0.9
pack "$work/library" libc6 2.99
dpkg-deb -R "$deb" "$work/next.files" || exit 70
sed -i 's/^Version: .*/&+next/' "$work/next.files/DEBIAN/control"
dpkg-deb --root-owner-group --build "$work/next.files" "$work/next" > /dev/null || exit 70

# An empty root, in which dpkg knows of the C library alone.
anew() {
    part=$1
    root=$work/root
    rm -rf "$root"
    mkdir -p "$root/var/lib/dpkg/updates" "$root/var/lib/dpkg/info" "$root/usr/bin"
    : > "$root/var/lib/dpkg/status"
    tried -i "$work/library"
}

# Runs dpkg there; of a run that fails it prints what was said.
dpkg_there() {
    dpkg --root="$root" --force-script-chrootless --force-unsafe-io --log=/dev/null "$@" > "$work/said" 2>&1 && return
    sed 's/^/    /' "$work/said"
    return 1
}

tried() { check "dpkg $*" dpkg_there "$@"; }

# Each name is our link, and leads to our file.
ours_have_the_names() {
    for name in $names; do
        check "$name is our link" is_link "$root/usr/$name" "gahopiki-${name##*/}"
        check "$name leads to a file" test -f "$root/usr/$name"
    done
}

# Each name is a file of the other package.
theirs_have_the_names() {
    for name in $names; do
        check "$name is of $1" has_line "$root/usr/$name" "$1"
    done
}

nobody_has_the_names() {
    for name in $names; do
        check "nothing is called $name" is_absent "$root/usr/$name"
    done
}

dpkg-deb -x "$deb" "$work/plain" || exit 70

# Our own files are as the package has them, whatever was installed over a link.
ours_are_whole() {
    for name in $names; do
        name=${name%/*}/gahopiki-${name##*/}
        check "$name is whole" cmp -s "$root/usr/$name" "$work/plain/usr/$name"
    done
}

ours_are_gone() {
    check 'no file of ours stays' same "$(find "$root" -name '*gahopiki*' ! -path '*/dpkg/*')" ''
}

anew 'ours alone'
tried -i "$deb"
ours_have_the_names
ours_are_whole
check 'dpkg finds the owner of gahopiki-ots' dpkg_there -S /usr/bin/gahopiki-ots
check 'no package owns ots' not dpkg --root="$root" -S /usr/bin/ots > /dev/null 2>&1
tried -i "$deb"
ours_have_the_names
tried -i "$work/next"
ours_have_the_names
tried -i "$deb"
ours_have_the_names
tried -r gahopiki
nobody_has_the_names
ours_are_gone
check 'no folder of completions stays' is_absent "$root/usr/share/fish"
tried -i "$deb"
ours_have_the_names
tried -P gahopiki
nobody_has_the_names
ours_are_gone
check 'dpkg has forgotten it' not grep -q gahopiki "$root/var/lib/dpkg/status"

anew 'theirs, then ours'
tried -i "$work/theirs"
tried -i "$deb"
theirs_have_the_names theirs
ours_are_whole
tried -i "$work/next"
theirs_have_the_names theirs
tried -i "$work/later"
theirs_have_the_names later
tried -P gahopiki
theirs_have_the_names later
ours_are_gone
tried -P opentimestamps-client
nobody_has_the_names

anew 'theirs, then ours, then theirs removed'
tried -i "$work/theirs"
tried -i "$deb"
tried -r opentimestamps-client
ours_have_the_names
ours_are_whole

anew 'ours, then theirs, then ours removed'
tried -i "$deb"
tried -i "$work/theirs"
theirs_have_the_names theirs
ours_are_whole
tried -i "$deb"
theirs_have_the_names theirs
tried -r gahopiki
theirs_have_the_names theirs
tried -P gahopiki
theirs_have_the_names theirs
ours_are_gone

anew 'ours, then theirs, then theirs removed'
tried -i "$deb"
tried -i "$work/theirs"
tried -P opentimestamps-client
ours_have_the_names
tried -i "$work/theirs"
theirs_have_the_names theirs
tried -P opentimestamps-client
tried -i "$work/next"
ours_have_the_names
ours_are_whole
tried -P gahopiki
nobody_has_the_names

anew 'both in one run'
tried -i "$deb" "$work/theirs"
theirs_have_the_names theirs
ours_are_whole
tried -P opentimestamps-client gahopiki
nobody_has_the_names

anew 'theirs with the program alone, after ours'
tried -i "$deb"
tried -i "$work/small"
check 'ots is theirs' has_line "$root/usr/bin/ots" small
for name in ${names#* }; do
    check "$name says nothing of their ots" is_absent "$root/usr/$name"
done
ours_are_whole
tried -i "$work/theirs"
theirs_have_the_names theirs
tried -P opentimestamps-client
ours_have_the_names

anew 'a file, and links that are not ours'
mkdir -p "$root/usr/share/man/man1"
ln -s nowhere "$root/usr/bin/ots"
ln -s nowhere "$root/usr/share/man/man1/ots.1.gz"
tried -i "$deb"
check 'a dangling link ots stays' is_link "$root/usr/bin/ots" nowhere
check 'a dangling link of the page stays' is_link "$root/usr/share/man/man1/ots.1.gz" nowhere
tried -r gahopiki
check 'a dangling link ots stays after us' is_link "$root/usr/bin/ots" nowhere
check 'a dangling link of the page stays after us' is_link "$root/usr/share/man/man1/ots.1.gz" nowhere
rm "$root/usr/bin/ots"
tried -i "$deb"
check 'ots is our link' is_link "$root/usr/bin/ots" gahopiki-ots
check 'the link of the page stays' is_link "$root/usr/share/man/man1/ots.1.gz" nowhere
rm "$root/usr/bin/ots"
echo mine > "$root/usr/bin/ots"
tried -P gahopiki
check 'a file ots stays' has_line "$root/usr/bin/ots" mine

anew 'a link that was taken away by hand'
tried -i "$deb"
rm "$root/usr/bin/ots"
tried --unpack "$deb"
tried --configure gahopiki
ours_have_the_names

anew 'an earlier package of ours, which owned the names'
tried -i "$work/earlier"
tried -i "$deb"
ours_have_the_names
ours_are_whole

anew 'ours, upgraded and never configured'
tried -i "$deb"
tried --unpack "$work/next"
tried -r gahopiki
nobody_has_the_names

anew 'no folder of pages, as on a machine that leaves them out'
tried --path-exclude='/usr/share/man/*' -i "$deb"
check 'ots is our link' is_link "$root/usr/bin/ots" gahopiki-ots
check 'no page is linked' is_absent "$root/usr/share/man/man1/ots.1.gz"

# ---- what the package says

part='the package'
root=$work/plain
for field in Conflicts Replaces Breaks; do
    check "no $field" same "$(dpkg-deb -f "$deb" $field)" ''
done
doc=$root/usr/share/doc/gahopiki
version=$(dpkg-deb -f "$deb" Version)
check 'VERSION is that of the package' same "$(cat "$doc/VERSION")" "$version"
check 'COMMIT has the digits of a commit' grep -q -x '[0-9a-f]\{40\}' "$doc/COMMIT"
check 'SHA256SUMS hold' sh -c 'cd "$1" && sha256sum --quiet -c share/doc/gahopiki/SHA256SUMS' sh "$root/usr"
check 'SHA256SUMS has every other file' same \
    "$(cd "$root/usr" && find . -type f ! -name SHA256SUMS | sed 's|^\./||' | LC_ALL=C sort)" \
    "$(sed 's/^[^ ]*  //' "$doc/SHA256SUMS")"
nobody_has_the_names
check 'the vectors are those of the second reader' sh -c \
    'python3 "$1/interop/plain.py" vectors "$1"/vectors/*.jsonl > /dev/null' sh "$doc"

# What each program names of the C library is there in the version that the package wants, and it names no other library.
if command -v objdump > /dev/null; then
    wanted=$(for program in gahopiki-ots otsd otsmirror otsgate otsarchive; do objdump -T "$root/usr/bin/$program"; done |
        grep -o 'GLIBC_2[0-9.]*' | sed 's/GLIBC_//' | sort -V | tail -n 1)
    check 'Depends names the version of the C library' same "$(dpkg-deb -f "$deb" Depends)" "libc6 (>= $wanted)"
    libraries=$(for program in gahopiki-ots otsd otsmirror otsgate otsarchive; do objdump -p "$root/usr/bin/$program"; done |
        sed -n 's/^ *NEEDED *//p' | grep -v -x -e 'libc\.so\.6' -e 'libm\.so\.6' -e 'libpthread\.so\.0' -e 'libdl\.so\.2' \
            -e 'librt\.so\.1' -e 'ld-linux-x86-64\.so\.2')
    check 'no library of another package is needed' same "$libraries" ''
fi

# The archive is the same, with the links.
part='the archive'
mkdir "$work/unpacked"
tar -C "$work/unpacked" -xzf "$archive" || exit 70
root=$work/unpacked/root
mkdir "$root"
mv "$work/unpacked"/gahopiki-* "$root/usr"
ours_have_the_names
check 'its files are those of the package' same \
    "$(cd "$root/usr" && find . -type f ! -name SHA256SUMS -exec sha256sum {} + | sort)" \
    "$(cd "$work/plain/usr" && find . -type f ! -name SHA256SUMS ! -name copyright -exec sha256sum {} + | sort)"

# A page with a dead link makes no package. The clone has the commit's ./release, and programs that only name a version.
part='a dead link'
git clone -q "$top" "$work/clone" || exit 70
mkdir "$work/clone/build"
for program in ots otsd otsmirror otsgate otsarchive; do
    echo GLIBC_2.34 > "$work/clone/build/$program"
    chmod 755 "$work/clone/build/$program"
done
tried_with() {
    git -C "$work/clone" -c user.name=nobody -c user.email=nobody@example.org commit -q -a --allow-empty -m "$1" || exit 70
    "$work/clone/release" "$work/clone/made" > "$work/said" 2>&1
    same "$?" "$2" && { [ "$2" = 0 ] || grep -q -F -e "$1" "$work/said"; }
}
check 'the pages as they are' tried_with none 0
for link in nothing.md 'GUIDE.md#no-such-heading' '#nor-this' '../crates/ots/src/main.rt#L99999' '../crates/none.rt'; do
    sed -i "\$a [a link]($link)" "$work/clone/docs/SCALE.md"
    check "$link is refused" tried_with "docs/SCALE.md has a dead link: $link" 70
    sed -i '$d' "$work/clone/docs/SCALE.md"
done

# ---- ./install

mkdir "$work/sources" "$work/sources/build"
cp -R "$top/install" "$top/man" "$top/completions" "$work/sources/" || exit 70
while read -r program words; do
    if [ -x "$top/build/$program" ]; then
        cp "$top/build/$program" "$work/sources/build/$program"
    else
        printf '#!/bin/sh\necho %s\n' "'$words'" > "$work/sources/build/$program"
        chmod 755 "$work/sources/build/$program"
    fi
done <<'END'
ots usage: ots info, canon, merge, prune
otsd usage: otsd JOURNAL
otsmirror usage: otsmirror JOURNAL ADDRESS
otsgate usage: otsgate --calendars
otsarchive usage: otsarchive draft, ask
END
names='bin/ots share/man/man1/ots.1 share/bash-completion/completions/ots share/fish/vendor_completions.d/ots.fish'

# An empty prefix, root/usr, as the checks above have it.
prefix_anew() {
    part="./install: $1"
    root=$work/prefix
    rm -rf "$root"
    mkdir -p "$root/usr"
}

# Runs it with words, the last of which is the prefix, and compares its status.
installed() {
    wanted=$1
    shift
    "$work/sources/install" "$@" "$root/usr" > "$work/said" 2>&1
    same "$?" "$wanted"
}

installs() {
    wanted=$1
    shift
    check "./install $* ends with $wanted" installed "$wanted" "$@"
}

prefix_anew 'ours alone'
installs 0
ours_have_the_names
check 'the program is gahopiki-ots' cmp -s "$root/usr/bin/gahopiki-ots" "$work/sources/build/ots"
installs 0
ours_have_the_names
installs 0 --uninstall
check 'no file stays' same "$(find "$root" ! -type d)" ''
installs 0 --uninstall

prefix_anew 'beside theirs'
for name in $names; do
    mkdir -p "$root/usr/${name%/*}"
    echo theirs > "$root/usr/$name"
done
installs 0
theirs_have_the_names theirs
check 'the program is gahopiki-ots' cmp -s "$root/usr/bin/gahopiki-ots" "$work/sources/build/ots"
installs 0 --uninstall
theirs_have_the_names theirs
check 'no file of ours stays' same "$(find "$root" -name 'gahopiki*' -o -name 'otsd*')" ''
installs 0 --force
ours_have_the_names
installs 0 --uninstall
nobody_has_the_names

prefix_anew 'theirs with the program alone'
mkdir -p "$root/usr/bin"
echo theirs > "$root/usr/bin/ots"
installs 0
check 'ots is theirs' has_line "$root/usr/bin/ots" theirs
for name in ${names#* }; do
    check "$name says nothing of their ots" is_absent "$root/usr/$name"
done
rm "$root/usr/bin/ots"
installs 0
ours_have_the_names
rm "$root/usr/bin/ots"
ln -s nowhere "$root/usr/bin/ots"
installs 0
check 'a dangling link stays' is_link "$root/usr/bin/ots" nowhere
check 'the page goes with the program' is_absent "$root/usr/share/man/man1/ots.1"
installs 0 --uninstall
check 'a dangling link stays after us' is_link "$root/usr/bin/ots" nowhere

prefix_anew 'an earlier install, which put files'
mkdir -p "$root/usr/bin" "$root/usr/share/man/man1" "$root/usr/share/bash-completion/completions" \
    "$root/usr/share/fish/vendor_completions.d"
cp "$work/sources/build/ots" "$root/usr/bin/ots"
cp "$work/sources/man/ots.1" "$root/usr/share/man/man1/ots.1"
cp "$work/sources/completions/ots.bash" "$root/usr/share/bash-completion/completions/ots"
cp "$work/sources/completions/ots.fish" "$root/usr/share/fish/vendor_completions.d/ots.fish"
cp -R "$root/usr" "$work/before"
installs 0
ours_have_the_names
rm -rf "${root:?}/usr"
mv "$work/before" "$root/usr"
installs 0 --uninstall
nobody_has_the_names

prefix_anew 'a file of another project that has a name of ours'
mkdir -p "$root/usr/bin"
echo another > "$root/usr/bin/otsd"
installs 73
check 'nothing was done' same "$(find "$root" ! -type d)" "$root/usr/bin/otsd"
installs 73 --uninstall
check 'the file stays' has_line "$root/usr/bin/otsd" another
installs 0 --force
ours_have_the_names
check 'otsd is ours' cmp -s "$root/usr/bin/otsd" "$work/sources/build/otsd"

prefix_anew 'faulty words'
installs 64 one
installs 64 --other

prefix_anew 'one program alone'
mv "$work/sources/build/ots" "$work/ots"
installs 0
nobody_has_the_names
check 'otsd is put' test -x "$root/usr/bin/otsd"
mv "$work/ots" "$work/sources/build/ots"

# ---- completions, where the shells are there

part='completions'
prefix_anew 'completions'
installs 0
completions=$root/usr/share/bash-completion/completions
if command -v bash > /dev/null; then
    for name in ots gahopiki-ots; do
        check "bash completes $name and nothing else" same "$(bash -c '
            . "$1/$2"
            COMP_WORDS=("$2" ver) COMP_CWORD=1
            set -- $(complete -p)
            "$5"
            echo "$6 $7 ${COMPREPLY[*]}"' bash "$completions" "$name")" "$name  verify"
    done
fi
if command -v fish > /dev/null; then
    for name in ots gahopiki-ots; do
        check "fish completes $name" same "$(HOME=$work PATH=$root/usr/bin:$PATH fish --no-config -c \
            "set fish_complete_path $root/usr/share/fish/vendor_completions.d; complete -C '$name ver'" | cut -f 1)" verify
    done
fi

echo "$passed passed, $failed failed"
[ $failed -eq 0 ]
