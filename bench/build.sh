#!/bin/sh
# build.sh DIR   builds what bench/run measures beside the program into DIR, outside the repository: DIR/peer,
# DIR/edits_peer and DIR/limit. Offline, from the crates of Debian's librust-*-dev packages, which it installs
# where they are missing.
set -eu
[ $# = 1 ] || { echo "usage: build.sh DIR" >&2; exit 2; }
here=$(CDPATH='' cd -- "$(dirname -- "$0")" && pwd)
mkdir -p "$1"
dir=$(CDPATH='' cd -- "$1" && pwd)
packages='librust-semver-dev librust-serde-dev librust-serde-derive-dev librust-serde-json-dev'
packages="$packages librust-toml-edit-dev"

# rustup's cargo, where the environment's PATH has none
command -v cargo > /dev/null || PATH=$PATH:${CARGO_HOME:-${HOME:-}/.cargo}/bin
# shellcheck disable=SC2086 # the variable holds several packages
if ! dpkg-query -W $packages > /dev/null 2>&1; then
  echo "build.sh: installing $packages"
  sudo=''
  [ "$(id -u)" = 0 ] || sudo='sudo -n'
  $sudo apt-get update -qq > /dev/null
  DEBIAN_FRONTEND=noninteractive $sudo apt-get install -y -qq --no-install-recommends $packages > /dev/null
fi
sources=$(dpkg-query -L librust-toml-edit-dev | grep -m 1 '/toml_edit-[0-9.]*$')
mkdir -p "$dir/sources/.cargo"
cat > "$dir/sources/.cargo/config.toml" << END
[source.crates-io]
replace-with = "debian"
[source.debian]
directory = "${sources%/*}"
END
rm -f "$dir/peer" "$dir/edits_peer" "$dir/limit"
for crate in peer limit; do
  rm -rf "$dir/sources/$crate"
  cp -Rp "$here/$crate" "$dir/sources/"
  (cd "$dir/sources/$crate" && CARGO_TARGET_DIR="$dir/target" cargo build --release --offline --quiet)
done
for program in peer edits_peer limit; do cp "$dir/target/release/$program" "$dir/$program"; done
