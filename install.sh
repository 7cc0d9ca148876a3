#!/bin/sh
# install.sh: installs the commands of cargo-edit; see usage below.
set -eu
LC_ALL=C
export LC_ALL
umask 022
here=$(CDPATH='' cd -- "$(dirname -- "$0")" && pwd)
fail() { printf 'install.sh: %s\n' "$*" >&2; exit "${status:-1}"; }
usage() {
    cat << 'END'
usage: install.sh [--force] [--from-source] PREFIX
       install.sh uninstall PREFIX

The first puts cargo-edit, cargo-upgrade and cargo-set-version into PREFIX/bin, and man pages and shell completions
into PREFIX/share. PREFIX is a folder outside this one, as ~/.local; PREFIX/bin stands for PREFIX. With PREFIX/bin on
PATH, cargo finds `cargo upgrade` and `cargo set-version`.
The second removes what the first has put there, and nothing else.

  --force         replaces a cargo-upgrade or cargo-set-version of another origin
  --from-source   proves and builds the program from the sources here (needs rt, Rattle's toolchain, and Python 3;
                  about an hour) and installs that in place of the released program
END
}

task=install force='' source=''
while [ $# -gt 0 ]; do
    case $1 in
        -h | --help) usage; exit 0 ;;
        --force) force=yes ;;
        --from-source) source=yes ;;
        uninstall) task=uninstall ;;
        --) shift; break ;;
        -*) usage >&2; status=2 fail "unknown option $1" ;;
        *) break ;;
    esac
    shift
done
if [ $# -ne 1 ] || [ -z "$1" ]; then usage >&2; exit 2; fi

# The prefix as an absolute path without links, also where it does not exist yet.
prefix=$1 rest=''
while [ ! -d "$prefix" ]; do
    rest=/${prefix##*/}$rest
    case $prefix in
        /*/*) prefix=${prefix%/*} ;;
        /*) prefix=/ ;;
        */*) prefix=${prefix%/*} ;;
        *) prefix=. ;;
    esac
done
prefix=$(CDPATH='' cd -- "$prefix" 2> /dev/null && pwd -P) || fail "$prefix cannot be entered"
prefix=${prefix%/}$rest
prefix=${prefix%/}
[ "${prefix##*/}" != bin ] || prefix=${prefix%/bin}
case "$prefix/" in
    "$(cd "$here" && pwd -P)"/*) status=2 fail "$prefix lies in the folder of install.sh; name a folder outside it" ;;
    */../* | */./*) status=2 fail "$prefix does not exist and has . or .. in it" ;;
esac
# the list of what was installed: a line for each file, and for each folder that was made
list=share/cargo-edit/installed
room=$(mktemp -d 2> /dev/null) || fail "no temporary folder can be made in ${TMPDIR:-/tmp}"
part='' # a file that is written and does not have its name yet
trap 'rm -rf "$room"; [ -z "$part" ] || rm -f "$part"' EXIT
trap 'exit 130' INT
trap 'exit 143' TERM
trap 'exit 129' HUP
undo=''
try() { # WHAT FAILED, COMMAND ..
    what=$1
    shift
    said=$("$@" 2>&1) || fail "$what: ${said##*: }$undo"
}

# Removes what a list names, files before folders, and folders only where they are empty; the list itself last, and only
# where nothing of it is left.
uninstall() {
    sort -ru "$prefix/$list" > "$room/old"
    : > "$room/left"
    while IFS= read -r it; do
        if [ "$it" = "$list" ]; then
            :
        elif [ -d "$prefix/$it" ] && [ ! -L "$prefix/$it" ]; then
            rmdir "$prefix/$it" 2> /dev/null || true
        else
            said=$(rm -f "$prefix/$it" 2>&1) || printf '%s cannot be removed: %s\n' "$prefix/$it" "${said##*: }" >> "$room/left"
        fi
    done < "$room/old"
    if [ -s "$room/left" ]; then
        sed 's/^/install.sh: /' "$room/left" >&2
        fail "the list of what is left is $prefix/$list"
    fi
    try "$prefix/$list cannot be removed" rm -f "$prefix/$list"
    while IFS= read -r it; do
        rmdir "$prefix/$it" 2> /dev/null || true
    done < "$room/old"
}
if [ "$task" = uninstall ]; then
    [ -f "$prefix/$list" ] || fail "nothing to remove: there is no $prefix/$list"
    uninstall
    echo "removed cargo-edit from $prefix (its cache, \${XDG_CACHE_HOME:-~/.cache}/cargo-edit, may be removed with rm -r)" >&2
    exit 0
fi

# Compares the files of a folder with its SHA256SUMS.
compare() { # FOLDER, NAME OF THE PROGRAM IN IT
    command -v sha256sum > /dev/null || fail "there is no sha256sum on PATH to compare $1/SHA256SUMS with"
    grep -q "^[0-9a-f]\{64\}  $2\$" "$1/SHA256SUMS" 2> /dev/null || fail "$1/SHA256SUMS does not have the checksum of $2"
    (cd "$1" && sha256sum -c SHA256SUMS 2> /dev/null) > "$room/compared" \
        || fail "$1/$(sed -n 's/: FAILED.*//p' "$room/compared" | head -n 1) is not as it was released; nothing was installed"
}
if [ -f "$here/SHA256SUMS" ]; then
    # A tarball has the program in bin/.
    [ -z "$source" ] || fail "--from-source needs a clone of the repository"
    compare "$here" bin/cargo-edit
    program=$here/bin/cargo-edit
    origin="the released program"
elif [ -n "$source" ]; then
    command -v python3 > /dev/null || fail "--from-source needs python3 on PATH"
    export CARGO_EDIT_FROM_SOURCE=1
    program=$("$here/tools/program")
    origin=$("$here/tools/program" --describe)
else
    compare "$here/release" cargo-edit
    program=$("$here/tools/program")
    origin=$("$here/tools/program" --describe)
    if [ "$(head -n 1 "$here/release/SOURCES")" = "$("$here/tools/sources")" ]; then
        echo "release/cargo-edit is as it was released, and was made from the sources as they stand here" >&2
    else
        echo "note: release/cargo-edit was made from other sources than those here; --from-source builds the program from these" >&2
    fi
fi
"$program" --version > /dev/null 2>&1 \
    || fail "$program does not run here: it needs x86-64 Linux with glibc 2.34 or later"

# The scripts, and in $room/share what goes into PREFIX/share: parts of the scripts, and what is made of the program's help.
files=$here made=''
if [ -n "$source" ]; then
    "$here/tools/share_files" "$program" "$room/share" || fail "$here/tools/share_files failed, as it says above"
elif [ ! -f "$here/SHA256SUMS" ]; then
    # (a tarball has all of it in share/)
    made=$here/release/share
    # Where release/ has scripts of its own, its program is older than those beside it here and needs them.
    [ ! -d "$here/release/bin" ] || files=$here/release
fi
mkdir -p "$room/share"
for it in "$files/share" ${made:+"$made"}; do
    try "$it cannot be read" cp -R "$it/." "$room/share"
done

# A command of another origin is replaced only with --force.
for it in cargo-edit cargo-upgrade cargo-set-version; do
    if [ -e "$prefix/bin/$it" ] && [ -z "$force" ] && ! grep -q -x -F "bin/$it" "$prefix/$list" 2> /dev/null \
        && ! head -c 400 "$prefix/bin/$it" | grep -q 'cargo-edit'; then
        fail "$prefix/bin/$it stands already and is of another origin; --force replaces it"
    fi
done

# Notes each folder at or below the prefix that is made for a file. The list grows with what is put, so that `uninstall` takes
# it back where a later step fails.
make_folders() { # FOLDER, from the prefix
    [ ! -d "$prefix/$1" ] || return 0
    case $1 in */*) make_folders "${1%/*}" ;; esac
    try "the folder $prefix/$1 cannot be made" mkdir "$prefix/$1"
    note "$1"
}
note() { # FILE or FOLDER, from the prefix
    printf '%s\n' "$1" >> "$room/new"
    [ ! -f "$prefix/$list" ] || try "$prefix/$list cannot be written" append "$1"
}
append() { printf '%s\n' "$1" >> "$prefix/$list"; }
put() { # MODE FILE TO
    make_folders "${3%/*}"
    part=$prefix/$3.new.$$
    try "$prefix/$3 cannot be written" cp "$2" "$part"
    try "$prefix/$3 cannot be written" chmod "$1" "$part"
    note "$3"
    try "$prefix/$3 cannot be written" mv -f "$part" "$prefix/$3"
    part=''
}
: > "$room/old"
[ ! -f "$prefix/$list" ] || try "$prefix/$list cannot be read" cp "$prefix/$list" "$room/old"
: > "$room/new"
try "the folder $prefix cannot be made" mkdir -p "$prefix"
begin_list() {
    make_folders "${list%/*}"
    cat "$room/old" "$room/new" > "$room/list"
    put 644 "$room/list" "$list"
}
(begin_list) || {
    # (nothing but folders was made)
    rm -f "$prefix/$list.new.$$"
    sort -r "$room/new" | while IFS= read -r it; do rmdir "$prefix/$it" 2> /dev/null || true; done
    exit 1
}
undo="; what was put there so far is removed by: '$here/install.sh' uninstall '$prefix'"
put 755 "$program" bin/cargo-edit
put 755 "$files/bin/cargo-upgrade" bin/cargo-upgrade
put 755 "$files/bin/cargo-set-version" bin/cargo-set-version
(cd "$room/share" && find . -type f | sort) > "$room/files"
while IFS= read -r file; do
    put 644 "$room/share/${file#./}" "share/${file#./}"
done < "$room/files"
printf '%s\n%s\n' "$("$program" --version)" "$origin" > "$room/origin"
put 644 "$room/origin" "${list%/*}/origin"

# What an earlier version installed and this one has not is removed; folders that it made stay in the list.
while IFS= read -r it; do
    if [ -d "$prefix/$it" ]; then
        printf '%s\n' "$it" >> "$room/new"
    elif ! grep -q -x -F "$it" "$room/new"; then
        try "$prefix/$it, of an earlier version, cannot be removed" rm -f "$prefix/$it"
    fi
done < "$room/old"
sort -u "$room/new" > "$room/list"
put 644 "$room/list" "$list"
echo "installed cargo-edit, cargo-upgrade and cargo-set-version in $prefix/bin ($origin)" >&2

# Which `cargo upgrade` cargo runs: cargo searches $CARGO_HOME/bin first, unless PATH names that folder.
home=${CARGO_HOME:-${HOME:-}/.cargo}
for it in cargo-upgrade cargo-set-version; do
    found=$(command -v "$it" || true)
    case ":$PATH:" in
        *":$home/bin:"*) ;;
        *) [ ! -x "$home/bin/$it" ] || found=$home/bin/$it ;;
    esac
    if [ -z "$found" ]; then
        echo "note: $prefix/bin is not on PATH: add it, so that cargo finds \`cargo ${it#cargo-}\`" >&2
    elif [ "$found" != "$prefix/bin/$it" ]; then
        echo "warning: \`cargo ${it#cargo-}\` runs $found: put $prefix/bin before ${found%/*} on PATH" >&2
    fi
done
