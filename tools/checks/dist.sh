#!/usr/bin/env bash
# dist.sh PROGRAM   the tarball of tools/dist.sh holds what its checksums say, and the program needs nothing but the C library.
# Unpacked, it runs with an empty environment; installed under a prefix with a space in its name, it runs from there, and
# taken out it leaves nothing.
set -eu -o pipefail
here=$(cd "$(dirname "$0")/../.." && pwd)
room=$(mktemp -d)
trap 'rm -rf "$room"' EXIT
first="$here/examples/first"
patch -s -o "$room/raised.toml" "$first/Cargo.toml" "$first/raised.diff"
runs() { # the program, or the link to it
  cp "$first/Cargo.toml" "$room/Cargo.toml"
  env -i "$1" upgrade --manifest-path "$room/Cargo.toml" --index-file "$first/index.json" > "$room/out" 2>&1
  cmp "$room/raised.toml" "$room/Cargo.toml"
}
sets() { # the link for `set-version`
  mkdir -p "$room/w"
  printf '[package]\nname = "a"\nversion = "0.1.0"\n' > "$room/w/Cargo.toml"
  package="{\"name\":\"a\",\"id\":\"a\",\"version\":\"0.1.0\",\"manifest_path\":\"$room/w/Cargo.toml\"}"
  printf '{"workspace_root":"%s","workspace_members":["a"],"packages":[%s]}' "$room/w" "$package" > "$room/metadata.json"
  env -i "$1" set-version --bump minor --metadata-json "$room/metadata.json" 2> "$room/err"
  printf '[package]\nname = "a"\nversion = "0.2.0"\n' | cmp - "$room/w/Cargo.toml"
  printf '   Upgrading a from 0.1.0 to 0.2.0\n' | cmp - "$room/err"
}
needs=$(ldd "$1" | grep -v -E '^\s*(linux-vdso|libc|libm|libdl|libpthread|/lib64/ld-linux-[a-z0-9-]*|/lib/ld-linux-[a-z0-9-]*)\.so' || true)
[ -z "$needs" ] || { echo "the program needs more than the C library: $needs"; exit 1; }
"$here/tools/dist.sh" "$room/a tarball" "$1"
"$here/tools/dist.sh" "$room/again" "$1"
cmp "$room/a tarball"/*.tar.gz "$room/again"/*.tar.gz
cd "$room/a tarball"
sha256sum --quiet -c ./*.sha256
tar -xzf ./*.tar.gz
cd cargo-edit-*/
sha256sum --quiet -c SHA256SUMS
[ "$(find . -type f | wc -l)" = "$(($(wc -l < SHA256SUMS) + 1))" ] || { echo "a file has no checksum"; exit 1; }
runs "$PWD/bin/cargo-edit"
runs "$PWD/bin/cargo-upgrade"
sets "$PWD/bin/cargo-set-version"
./install.sh "$room/a prefix"
runs "$room/a prefix/bin/cargo-edit"
sets "$room/a prefix/bin/cargo-set-version"
(cd share && find . -type f) | while IFS= read -r file; do cmp "share/$file" "$room/a prefix/share/$file"; done
./install.sh uninstall "$room/a prefix/bin"
[ -z "$(find "$room/a prefix" -type f -o -type l)" ] || { echo "a file is left"; find "$room/a prefix"; exit 1; }
# a program that is not the released one is not installed
printf '#!/bin/sh\necho pwned\n' > bin/cargo-edit
if ./install.sh "$room/changed" > "$room/out" 2>&1 || [ -e "$room/changed" ]; then echo "a changed program is installed"; exit 1; fi
grep -q '/bin/cargo-edit is not as it was released; nothing was installed$' "$room/out" || { cat "$room/out"; exit 1; }
