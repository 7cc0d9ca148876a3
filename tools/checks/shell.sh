#!/usr/bin/env bash
# shell.sh PROGRAM   each shell script of the repository passes shellcheck and has no error of syntax; `cargo upgrade` and
# `cargo set-version` do their work by dash and by bash. Where shellcheck or dash is missing, this fails.
# shellcheck source-path=SCRIPTDIR source=../cargo_checks/lib.sh
. "$(dirname "$0")/../cargo_checks/lib.sh"
for tool in shellcheck dash; do
  command -v "$tool" > /dev/null || { echo "$self: failed, there is no $tool on PATH"; exit 1; }
done
begin "$1"

# Each file of the repository whose first line names a shell, or that another one sources.
scripts() {
  (cd "$here" && find . \( -name .git -o -name out -o -path ./build \) -prune -o -type f -print) | while IFS= read -r file; do
    case $file in *.sh) echo "$file" ;; *.rt | *.antt | *.md | *.edit) ;; *)
      IFS= read -r first 2> /dev/null < "$here/$file"
      case $first in '#!'*sh) echo "$file" ;; esac ;;
    esac
  done
}

row_shellcheck() {
  local wrong=
  cd "$here" || exit 1
  scripts > "$room/scripts"
  [ "$(wc -l < "$room/scripts")" -ge 20 ] || fail 'scripts are not found'
  while IFS= read -r script; do
    shellcheck -x -S warning -f gcc "$script" || wrong=yes
    bash -n "$script" || wrong=yes
    if head -n 1 "$script" | grep -q '^#!/bin/sh'; then dash -n "$script" || wrong=yes; fi
  done < "$room/scripts"
  [ -z "$wrong" ] || fail 'see above'
}
works_by() { # SHELL
  local script="$room/prefix/bin/cargo"
  CARGO="$cargo" "$@" "$script-upgrade" upgrade > "$room/out" 2> "$room/err" || fail "status $?"
  raised
  locks dep 1.2.3
  CARGO="$cargo" "$@" "$script-upgrade" upgrade --offline --check > "$room/out" 2> "$room/err" || fail "status $?"
  CARGO="$cargo" "$@" "$script-set-version" set-version --bump minor > "$room/out" 2> "$room/err" || fail "status $?"
  locks a 0.2.0
  mode down
  rm -rf "$cache"
  ! CARGO="$cargo" "$@" "$script-upgrade" upgrade -n > "$room/out" 2> "$room/err" || fail 'status 0'
  says 'status 503'
}
row_dash() { works_by dash; }
row_bash() { works_by bash; }
row_bash_as_sh() { works_by bash --posix; }

all_rows
