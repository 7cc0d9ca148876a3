#!/usr/bin/env bash
# shares.sh PROGRAM   the completions, man pages and help of release/share are what tools/share_files makes of the released
# program, and share/ has scripts alone. What it makes of PROGRAM is well-formed: each shell that is on PATH reads its
# completions, and `man` the pages without a warning. It has nothing about an option that PROGRAM lacks.
set -eu -o pipefail
program=$(readlink -f -- "$1")
cd "$(dirname "$0")/../.."
fails() { echo "shares.sh: $1"; exit 1; }
tools/share_files --check release/cargo-edit release/share || fails 'run tools/release --share'
others=$(find share -type f ! -name '*.sh')
[ -z "$others" ] || fails "share/ has more than scripts: $others"

room=$(mktemp -d)
trap 'rm -rf "$room"' EXIT
tools/share_files "$program" "$room/share"
tools/share_files --check "$program" "$room/share"
# a file that differs, one that is missing, and one more are found
cp -R "$room/share" "$room/other"
echo more >> "$room/other/man/man1/cargo-edit.1"
rm "$room/other/cargo-edit/upgrade.help"
touch "$room/other/cargo-edit/add.help" "$room/other/cargo-edit/part.sh"
! tools/share_files --check "$program" "$room/other" > "$room/out" || fails 'no difference is found'
printf '%s\n' "$room/other/cargo-edit/add.help is not made of the program's help" "$room/other/cargo-edit/upgrade.help is missing" \
  "$room/other/man/man1/cargo-edit.1 differs" | diff - "$room/out"

# an option that the program does not have yet
printf '#!/bin/sh\n"%s" "$@" | grep -v -e --min-age\n' "$program" > "$room/older"
chmod +x "$room/older"
tools/share_files "$room/older" "$room/without"
grep -q -r 'min.*-age' "$room/share" || fails 'there is nothing about --min-age'
! grep -r 'min.*-age' "$room/without" || fails 'an option is shown that the program does not have'

cd "$room/share"
reads() { # COMMAND .. FILE: its status is 0, and it prints no error
  local status=0
  "$@" > "$room/out" 2> "$room/err" || status=$?
  [ "$status" = 0 ] && [ ! -s "$room/err" ] || { tail -n 20 "$room/out" "$room/err"; fails "status $status: $*"; }
}
each() { # the paths of files, COMMAND ..: the command over each of them
  local file count=0
  for file in $1; do
    reads "${@:2}" "$file"
    count=$((count + 1))
  done
  [ "$count" -ge 3 ] || fails "$1: $count files in place of 3 or more"
}
each 'bash-completion/completions/*' bash -n
each 'bash-completion/completions/*' shellcheck -s bash -S warning
if command -v zsh > /dev/null; then each 'zsh/site-functions/*' zsh -n; fi
if command -v fish > /dev/null; then each 'fish/*/*' fish -n; fi
if command -v man > /dev/null; then each 'man/man1/*' env LC_ALL=C.UTF-8 MANWIDTH=120 man --warnings=mac,all -l; fi
if command -v mandoc > /dev/null; then each 'man/man1/*' mandoc -T lint -W error; fi
