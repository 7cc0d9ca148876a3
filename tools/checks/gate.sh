#!/usr/bin/env bash
# gate.sh PROGRAM   what .ci/run does around its checks, in a tree of stand-ins: it installs nothing that it was not asked to,
# tries the mutants that it says, counts all, and fails where anything does. tools/gate_needs names what is missing in one
# line, and tests/cases/run skips cases whose program is not built only where that is allowed. (PROGRAM runs those cases.)
set -eu -o pipefail
here=$(cd "$(dirname "$0")/../.." && pwd)
program=$(readlink -f -- "$1")
room=$(mktemp -d)
trap 'rm -rf "$room"' EXIT
fails() { echo "gate.sh: $1"; sed 's/^/  /' "$room/out"; exit 1; }
says() { grep -q -x -- "$1" "$room/out" || fails "no line: $1"; }
runs() { # status, command ..
  local wanted=$1 status=0
  shift
  "$@" > "$room/out" 2>&1 < /dev/null || status=$?
  [ "$status" = "$wanted" ] || fails "status $status in place of $wanted: $*"
}

# A tree with the gate, and stand-ins for what it runs; commands are links, and strace is none of them.
mkdir -p "$room/tree/.ci" "$room/tree/tools/checks" "$room/tree/crates/a" "$room/bin"
cp "$here/.ci/run" "$room/tree/.ci"
cp "$here/tools/sources" "$here/tools/gate_needs" "$room/tree/tools"
cd "$room/tree"
touch crates.txt HANDLES
for tool in awk bash cat cc cp curl cut dash date dirname env find git grep gzip head id ldd mkdir mktemp nice nproc openssl patch rm sed \
  setpriv sh sha256sum shellcheck sort tail tar tee timeout unshare valgrind xargs; do
  ln -s "$(command -v "$tool")" "$room/bin/$tool"
done
ln -s "$(python3 -c 'import sys; print(sys.executable)')" "$room/bin/python3"
stand_in() { # FILE, TEXT
  printf '#!/bin/sh\n%s\n' "$2" > "$1"
  chmod +x "$1"
}
stand_in "$room/bin/cargo" ':'
stand_in "$room/bin/apt-get" "echo \"\$*\" >> '$room/installed'"
# shellcheck disable=SC2016
stand_in "$room/bin/sudo" 'shift; exec "$@"'
stand_in "$room/bin/rt" "echo run >> '$room/rt'; echo '3 passed, 0 failed'"
stand_in tools/mutants "echo \"\$*\" > '$room/words'; echo '2 refused, 0 let through'"
stand_in tools/checks/one.sh ':'
gate() { env -u CI "PATH=$room/bin" "$@"; }

# Where something is missing, one line says so, and nothing is installed or run; --install and CI install.
runs 1 gate .ci/run
says 'gate_needs: missing: strace.*; to install them: tools/gate_needs --install)'
says '0 passed, 1 failed'
[ "$(grep -c . "$room/out")" = 2 ] || fails 'more than two lines'
[ ! -e "$room/installed" ] && [ ! -e "$room/rt" ] || fails 'something was installed or run'
runs 1 gate env CI= .ci/run
[ ! -e "$room/installed" ] || fails 'something was installed'
for words in '.ci/run --install' 'env CI=true .ci/run'; do
  # shellcheck disable=SC2086
  runs 1 gate $words
  grep -q '^install .*strace' "$room/installed" || fails "$words does not install"
  [ ! -e "$room/rt" ] || fails 'something was run'
  rm "$room/installed"
done
runs 2 gate .ci/run --what
says 'run \[--all | --landed COMMIT\] \[--install\] .*'
runs 2 gate .ci/run --landed
runs 2 gate tools/gate_needs --what

# All that it runs is counted, and the mutants that are tried are those that were asked for.
stand_in tools/gate_needs ':'
runs 0 gate .ci/run
[ "$(tail -n 1 "$room/out")" = '6 passed, 0 failed' ] || fails 'another last line'
[ -e "$room/rt" ] || fails 'rt was not run'
grep -q -x -- '--third --after .*' "$room/words" || fails "other mutants: $(cat "$room/words")"
runs 0 gate .ci/run --all
grep -q -x -- '--after .*' "$room/words" || fails "other mutants: $(cat "$room/words")"
# Of sources over which CI tried them none is.
# shellcheck disable=SC2016
stand_in tools/tried_by_ci '[ "$1" = abc ]'
rm "$room/words"
runs 0 gate .ci/run --landed abc
[ "$(tail -n 1 "$room/out")" = '4 passed, 0 failed' ] || fails 'another last line'
[ ! -e "$room/words" ] || fails 'mutants were tried'
[ "$(sed -n 2p build/gate)" = 'landed abc' ] || fails 'the commit is not noted'
runs 1 gate .ci/run --landed other
[ "$(tail -n 1 "$room/out")" = '0 passed, 1 failed' ] || fails 'another last line'
stand_in tools/mutants "echo '1 refused, 1 let through'; exit 1"
runs 1 gate .ci/run
[ "$(tail -n 1 "$room/out")" = '5 passed, 1 failed' ] || fails 'another last line'
stand_in tools/mutants 'exit 1'
runs 1 gate .ci/run
[ "$(tail -n 1 "$room/out")" = '4 passed, 1 failed' ] || fails 'another last line'
stand_in tools/mutants "echo '2 refused, 0 let through'"
stand_in tools/checks/two.sh 'exit 1'
runs 1 gate .ci/run
[ "$(tail -n 1 "$room/out")" = '6 passed, 1 failed' ] || fails 'another last line'

# The cases of a program that is not built are skipped, with a line that says how many, but not in the gate.
mkdir -p "$room/tests/cases/edit_calls" "$room/tests/cases/upgrade"
cp "$here/tests/cases/run" "$room/tests/cases"
printf 'name = "a"\nprogram = "edit_calls"\nargs = []\n' > "$room/tests/cases/edit_calls/one.toml"
printf 'name = "a"\nargs = ["--version"]\n' > "$room/tests/cases/upgrade/one.toml"
runs 0 "$room/tests/cases/run" "$program"
says '1 cases are skipped: they need crates/edit_calls/out/edit_calls, which `rt ci` builds'
says '1 cases passed, 0 failed'
runs 1 "$room/tests/cases/run" --no-skips "$program"
says '1 cases need crates/edit_calls/out/edit_calls, which `rt ci` builds'
grep -q -e '/cases/run" --no-skips ' "$here/tools/checks/rows.sh" || fails 'the gate allows skips'
