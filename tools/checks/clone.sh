#!/usr/bin/env bash
# clone.sh PROGRAM   what a newcomer does with a clone, with no toolchain on PATH: raises the README's example, upgrades a
# workspace and sets versions with real cargo over a registry on the loopback interface, installs, and uninstalls.
# The released program is used; where the sources are newer than it, PROGRAM is, as the next release will have it.
set -eu -o pipefail
export LC_ALL=C
here=$(cd "$(dirname "$0")/../.." && pwd)
program=$(readlink -f -- "$1")
room=$(mktemp -d)
server=
trap 'touch "$room/stop"; [ -z "$server" ] || wait "$server"; rm -rf "$room"' EXIT
step='git clone'
fails() { echo "clone.sh: $step: $1"; [ ! -f "$room/out" ] || sed 's/^/  /' "$room/out"; exit 1; }
for tool in cargo rustc curl git python3; do
  command -v "$tool" > /dev/null || fails "$tool is not on PATH"
done
# (the repository may be another user's)
printf '[safe]\n\tdirectory = *\n' > "$room/gitconfig"
GIT_CONFIG_GLOBAL=$room/gitconfig git clone -q "$here" "$room/clone"
cd "$room/clone"
if [ ! -f release/SOURCES ] || [ "$(head -n 1 release/SOURCES)" != "$(tools/sources)" ]; then
  mkdir -p release
  rm -rf release/bin release/share
  cp "$program" release/cargo-edit
  tools/sources > release/SOURCES
  tools/release --share
fi

# The tools of the system and the cargo of PATH (where it is rustup's, the one that rustup runs), and nothing else.
cargo_bin=$(rustc --print sysroot)/bin
[ -x "$cargo_bin/cargo" ] || cargo_bin=$(dirname "$(command -v cargo)")
mkdir "$room/home" "$room/tmp"
clean() {
  env -i "PATH=${extra:+$extra:}$cargo_bin:/usr/bin:/bin" "HOME=$room/home" "CARGO_HOME=$room/home/.cargo" "TMPDIR=$room/tmp" \
    NO_PROXY=127.0.0.1 no_proxy=127.0.0.1 CARGO_NET_GIT_FETCH_WITH_CLI=true "$@"
}
runs() { # status, command..
  local wanted=$1 status=0
  shift
  step=$*
  clean "$@" > "$room/out" 2>&1 || status=$?
  [ "$status" = "$wanted" ] || fails "status $status in place of $wanted"
}
says() { grep -q -F -- "$1" "$room/out" || fails "does not say: $1"; }
has() { grep -q -F -- "$2" "$1" || fails "no \`$2\` in $1"; }
extra=

! clean sh -c 'command -v rt' > /dev/null || fails 'rt is on the PATH of this check'
runs 0 ./cargo-edit --version
says 'cargo-edit 0.1.0 (behaves as cargo-edit 0.13.14)'
says 'the released program'

# the README's first command, which has a second
step="the README's first command"
first=$(sed -n '/^d=\$(mktemp -d).*examples\/first/p' README.md | head -n 1)
[ -n "$first" ] || fails 'it is not there'
start=$(date +%s%N)
clean sh -c "$first" > "$room/out" 2>&1 || true # (its status is that of diff: 1)
took=$((($(date +%s%N) - start) / 1000000))
has "$room/out" '> serde_json = "1.0.128"'
[ "$took" -lt 1000 ] || fails "it took $took milliseconds"

# a workspace, by the scripts of bin/ in the clone and as they are installed
python3 "$here/tools/cargo_checks/registry.py" "$room" &
server=$!
for _ in $(seq 100); do [ -f "$room/port" ] || sleep 0.1; done
mkdir -p "$room/home/.cargo" "$room/ws/a/src" "$room/ws/b/src"
cat > "$room/home/.cargo/config.toml" << END
[source.crates-io]
replace-with = "one"
[source.one]
registry = "sparse+http://127.0.0.1:$(cat "$room/port")/one/"
END
cd "$room/ws"
printf '[workspace]\nmembers = ["a", "b"]\nresolver = "2"\n' > Cargo.toml
printf '[package]\nname = "a"\nversion = "0.1.0"\nedition = "2021"\n\n[dependencies]\nthird = "1.0" # a comment\n' > a/Cargo.toml
printf '[package]\nname = "b"\nversion = "0.1.0"\nedition = "2021"\n\n[dependencies]\na = { path = "../a", version = "0.1" }\n' > b/Cargo.toml
touch a/src/lib.rs b/src/lib.rs
runs 0 cargo generate-lockfile
cp -R "$room/ws" "$room/ws.old"
again() { cd "$room" && rm -rf ws && cp -R ws.old ws && cd ws; }
both() { # what the two commands do in a project
  runs 0 cargo upgrade
  has a/Cargo.toml 'third = "1.1" # a comment'
  runs 0 cargo set-version --bump minor -p a
  has a/Cargo.toml 'version = "0.2.0"'
  has b/Cargo.toml 'a = { path = "../a", version = "0.2" }'
  has Cargo.lock 'version = "0.2.0"'
  again
}
helps() { # the help of the commands is the one that was released
  local command
  for command in upgrade set-version; do
    runs 0 "cargo-$command" --help
    cmp "$room/out" "$room/clone/release/share/cargo-edit/$command.help"
  done
}
extra=$room/clone/bin
both
helps

extra=
runs 0 "$room/clone/install.sh" --help
says 'usage: install.sh'
CDPATH=/tmp runs 2 "$room/clone/install.sh" "$room/clone/out/prefix"
says 'lies in the folder of install.sh'
[ ! -e "$room/clone/out" ] || fails 'a folder was made'
mkdir -p "$room/a prefix/share/man"
cd "$room"
export CDPATH=/usr
(umask 077 && runs 0 env CDPATH=/usr "$room/clone/install.sh" "a prefix/bin")
unset CDPATH
says 'is not on PATH'
says 'release/cargo-edit is as it was released, and was made from the sources as they stand here'
[ "$(stat -c %a "a prefix/bin/cargo-upgrade" "a prefix/share/man/man1" "a prefix/bin/cargo-edit" | sort -u)" = 755 ] || fails 'modes'
cmp "a prefix/bin/cargo-edit" clone/release/cargo-edit
as_released() { # PREFIX SCRIPTS: PREFIX/share has the parts of the scripts in SCRIPTS/share, and what was released
  (cd "$room/clone" && find release/share "$2/share" -type f | sed "s|^release/share/||;s|^$2/share/||" | sort -u) > "$room/wanted"
  (cd "$1/share" && find . -type f ! -name installed ! -name origin | sed 's|^\./||' | sort) | diff "$room/wanted" - || fails 'other files'
  while IFS= read -r file; do
    case $file in
      *.sh) cmp "$room/clone/$2/share/$file" "$1/share/$file" ;;
      *) cmp "$room/clone/release/share/$file" "$1/share/$file" ;;
    esac
  done < "$room/wanted"
  for file in cargo-upgrade cargo-set-version; do cmp "$room/clone/$2/bin/$file" "$1/bin/$file"; done
}
as_released "$room/a prefix" .
cd ws
extra="$room/a prefix/bin"
both
helps

# a program that is not the released one is neither run nor installed, and it is said where the sources are others
extra=
cp -R "$room/clone/release" "$room/released"
printf '#!/bin/sh\necho pwned\n' > "$room/clone/release/cargo-edit"
runs 1 "$room/clone/install.sh" "$room/changed"
says 'clone/release/cargo-edit is not as it was released; nothing was installed'
! grep -q pwned "$room/out" || fails 'it was run'
[ ! -e "$room/changed" ] || fails 'something was installed'
(cd "$room/clone/release" && sha256sum SOURCES TOOLCHAIN > SHA256SUMS)
runs 1 "$room/clone/install.sh" "$room/changed"
says 'release/SHA256SUMS does not have the checksum of cargo-edit'
[ ! -e "$room/changed" ] || fails 'something was installed'
again_released() { rm -rf "$room/clone/release" && cp -R "$room/released" "$room/clone/release"; }
again_released
echo changed >> "$room/clone/release/share/man/man1/cargo-upgrade.1"
runs 1 "$room/clone/install.sh" "$room/changed"
says 'clone/release/share/man/man1/cargo-upgrade.1 is not as it was released; nothing was installed'
[ ! -e "$room/changed" ] || fails 'something was installed'
again_released
cp "$room/clone/crates.txt" "$room/crates.txt"
echo '# a line' >> "$room/clone/crates.txt"
runs 0 "$room/clone/install.sh" "$room/newer"
says 'note: release/cargo-edit was made from other sources than those here'
cp "$room/crates.txt" "$room/clone/crates.txt"

# scripts that were kept for the released program are run, installed and packed in place of newer ones
cd "$room/clone"
runs 0 tools/release --keep-scripts
runs 1 tools/release --keep-scripts
says 'release/bin is there'
mkdir "$room/first-scripts"
cp -R bin share "$room/first-scripts"
sed -i '/exec "$old"/aecho newer; exit 1' bin/cargo-upgrade bin/cargo-set-version
for file in share/cargo-edit/*.sh; do printf 'echo newer\nexit 1\n' > "$file"; done
! cmp -s bin/cargo-upgrade "$room/first-scripts/bin/cargo-upgrade" || fails 'the script is not changed'
cd "$room/ws"
extra=$room/clone/bin
both
helps
extra=
runs 0 "$room/clone/install.sh" "$room/kept"
as_released "$room/kept" release
runs 0 "$room/clone/tools/dist.sh" "$room/packed"
mkdir "$room/unpacked"
tar -xzf "$room/packed"/*.tar.gz -C "$room/unpacked" --strip-components=1
as_released "$room/unpacked" release
cd "$room/clone"
cp -R "$room/first-scripts/." .
again_released
runs 0 tools/dist.sh "$room/packed"
rm -r "$room/unpacked/share"
tar -xzf "$room/packed"/*.tar.gz -C "$room/unpacked" --strip-components=1
as_released "$room/unpacked" .

# with --from-source the scripts are those that are here, and the rest is made of the built program
step='install.sh --from-source'
mkdir -p build "$room/kit"
printf '#!/bin/sh\necho a kit\n' > "$room/kit/rt"
chmod +x "$room/kit/rt"
cp release/cargo-edit build/cargo-edit
echo "$(tools/sources) a kit" > build/made-from
rm -r release
extra="$room/kit:$(dirname "$(command -v python3)")"
runs 0 ./install.sh --from-source "$room/built"
says 'proved and built from the sources of this clone'
again_released
as_released "$room/built" .
# (a built program that has an option less)
printf '#!/bin/sh\n"%s" "$@" | grep -v -e --min-age\n' "$program" > build/cargo-edit
runs 0 ./install.sh --from-source "$room/less"
for file in share/man/man1/cargo-upgrade.1 share/cargo-edit/upgrade.help; do
  has "$room/built/$file" never
  has "$room/less/$file" never
  ! cmp -s "$room/built/$file" "$room/less/$file" || fails "$file is not made of the built program"
done
runs 0 env CARGO_EDIT_FROM_SOURCE=1 bin/cargo-upgrade --help
cmp "$room/out" "$room/less/share/cargo-edit/upgrade.help"
rm -r build

# what failed in the middle is taken back by `uninstall`, and what failed before it leaves nothing
mkdir -p "$room/half/share" "$room/none"
touch "$room/half/share/man" "$room/none/share"
runs 1 "$room/clone/install.sh" "$room/half"
says "the folder $room/half/share/man cannot be made: File exists; what was put there so far is removed by: "
[ "$(grep -c . "$room/out")" = 2 ] || fails 'more than two lines'
cmp "$room/half/bin/cargo-edit" "$room/clone/release/cargo-edit"
runs 0 "$room/clone/install.sh" uninstall "$room/half"
[ "$(cd "$room/half" && find . | sort | tr '\n' ' ')" = '. ./share ./share/man ' ] || fails "left: $(find "$room/half")"
runs 1 "$room/clone/install.sh" "$room/none"
says "the folder $room/none/share cannot be made: File exists"
[ "$(cd "$room/none" && find . | sort | tr '\n' ' ')" = '. ./share ' ] || fails "left: $(find "$room/none")"

# a command of another origin, and one that cargo takes first
printf '#!/bin/sh\n' > "$room/other"
chmod +x "$room/other"
mkdir -p "$room/home/.cargo/bin" "$room/foreign/bin"
cp "$room/other" "$room/foreign/bin/cargo-upgrade"
extra=
runs 1 "$room/clone/install.sh" "$room/foreign"
says 'is of another origin'
cmp "$room/other" "$room/foreign/bin/cargo-upgrade"
runs 0 "$room/clone/install.sh" --force "$room/foreign"
cp "$room/other" "$room/home/.cargo/bin/cargo-upgrade"
extra="$room/a prefix/bin"
runs 0 "$room/clone/install.sh" "$room/a prefix"
says "\`cargo upgrade\` runs $room/home/.cargo/bin/cargo-upgrade"

runs 0 "$room/clone/install.sh" uninstall "$room/a prefix"
[ "$(cd "$room/a prefix" && find . | sort | tr '\n' ' ')" = '. ./share ./share/man ' ] || fails "left: $(find "$room/a prefix")"
runs 1 "$room/clone/install.sh" uninstall "$room/a prefix"
