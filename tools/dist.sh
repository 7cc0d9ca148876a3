#!/bin/sh
# dist.sh DIR [PROGRAM]   writes DIR/cargo-edit-VERSION-MACHINE.tar.gz and, beside it, its checksum in .sha256: the commands,
# shell completions, man pages, README, changelog, documents, licences, the checksum of each file, and install.sh. Unpacked,
# bin/ runs as it is, on x86-64 Linux with glibc 2.34 or later. PROGRAM is the built program; without one it is the released
# one. The completions, man pages and help are those of release/share, or, for a PROGRAM, are made of it by tools/share_files,
# which needs Python 3. The same files give the same bytes, whoever runs this. Needs GNU tar.
set -eu
LC_ALL=C
export LC_ALL
umask 022
here=$(CDPATH='' cd -- "$(dirname -- "$0")/.." && pwd)
if [ $# -lt 1 ] || [ $# -gt 2 ]; then
    echo "usage: dist.sh DIR [PROGRAM]" >&2
    exit 2
fi
mkdir -p -- "$1"
dir=$(CDPATH='' cd -- "$1" && pwd)
program=${2-$here/release/cargo-edit}
version=$("$program" --version | cut -d ' ' -f 2)
name=cargo-edit-$version-x86_64-linux
room=$(mktemp -d)
trap 'rm -rf "$room"' EXIT
top=$room/$name
mkdir -p "$top/bin" "$top/share"
cp "$program" "$top/bin/cargo-edit"
files=$here
if [ $# -eq 2 ]; then
    "$here/tools/share_files" "$program" "$top/share"
else
    cp -R "$here/release/share" "$top"
    # (where release/ has scripts of its own, its program is older than the others and needs them)
    [ ! -d "$here/release/bin" ] || files=$here/release
fi
cp "$files/bin/cargo-upgrade" "$files/bin/cargo-set-version" "$top/bin"
cp -R "$files/share/." "$top/share"
cp -R "$here/docs" "$top"
cp "$here/README.md" "$here/CHANGELOG.md" "$here/SECURITY.md" "$here/LICENSE-APACHE" "$here/LICENSE-MIT" "$here/install.sh" "$top"
find "$top" -type f -exec chmod 644 {} +
chmod 755 "$top/install.sh" "$top"/bin/*
(cd "$top" && find . -type f | sed 's|^\./||' | sort > "$room/files")
(cd "$top" && tr '\n' '\0' < "$room/files" | xargs -0 sha256sum > SHA256SUMS)
chmod 644 "$top/SHA256SUMS"
# (in steps, so that a failure of any of them ends the script)
tar --sort=name --owner=0 --group=0 --numeric-owner --mtime=@0 --mode='u=rwX,go=rX' --format=ustar \
    -C "$room" -cf "$room/tar" "$name"
gzip -n < "$room/tar" > "$dir/$name.tar.gz.new"
mv "$dir/$name.tar.gz.new" "$dir/$name.tar.gz"
(cd "$dir" && sha256sum "$name.tar.gz" > "$name.tar.gz.sha256")
echo "$dir/$name.tar.gz"
