#!/usr/bin/env bash
# cargo_interactive.sh PROGRAM   `cargo upgrade --interactive` with real cargo over loopback registries: the numbered
# rows, the answers from a pipe, and what then is written, in the manifest and in Cargo.lock.
# shellcheck source-path=SCRIPTDIR source=../cargo_checks/lib.sh
. "$(dirname "$0")/../cargo_checks/lib.sh"
begin "$1"

# A run with this answer on standard input, with the cargo of the folder fake/.
answered() { # STATUS ANSWER ARGUMENTS
  local wanted=$1 answer=$2 status=0
  shift 2
  printf '%s' "$answer" | CARGO="$room/fake/cargo" cargo-upgrade upgrade --interactive "$@" > "$room/out" 2> "$room/err" ||
    status=$?
  [ "$status" = "$wanted" ] || fail "--interactive $*: status $status in place of $wanted"
}
listed() { # the numbered rows stand first on standard output
  head -n 2 "$room/out" | diff - <(printf '%s\n' '1  Cargo.toml  dep: 1.0 -> 1.2 (compatible), latest 2.0.0 (incompatible)' \
    '2  Cargo.toml  other: 0.2.0 -> 0.2.5 (compatible), latest 0.3.0 (incompatible)') > "$room/log" || fail "$(cat "$room/log")"
  says 'Rows to change (as 1,3-5, names, all, none): '
}

row_one_number() {
  answered 0 '2
'
  listed
  has Cargo.toml 'dep = "1.0"'
  has Cargo.toml 'other = "0.2.5"'
  locks dep 1.0.0
  locks other 0.2.5
}
row_a_name_without_a_line_end() {
  answered 0 'dep'
  listed
  has Cargo.toml 'dep = "1.2"'
  has Cargo.toml 'other = "0.2.0"'
}
row_all() {
  answered 0 'all
'
  listed
  raised
}
row_none() {
  answered 0 'none
'
  listed
  unwritten
  [ -z "$(updates)" ] || fail 'a call of cargo update'
}
row_no_answer() {
  answered 0 ''
  listed
  unwritten
  [ -z "$(updates)" ] || fail 'a call of cargo update'
}
row_an_empty_line() {
  answered 0 '
2
'
  listed
  unwritten
}
row_a_row_that_is_not_there() {
  answered 1 '3
'
  listed
  says "Error: row 3 doesn't exist"
  unwritten
}
row_no_choice() {
  answered 2 '1-
'
  listed
  says "invalid value '1-' for '--rows <ROWS>'"
  unwritten
}
row_an_option_as_answer() {
  answered 2 '--locked
'
  unwritten
}
row_nothing_to_change() {
  answered 0 'all
' --exclude dep --exclude other
  says 'note: no requirement would change'
  unwritten
}
row_a_dry_run() {
  answered 0 'all
' --dry-run
  listed
  unwritten
}
row_with_check() {
  answered 2 'all
' --check
  says "the argument '--interactive' cannot be used with '--check'"
  unwritten
}
row_an_error_of_the_plan() {
  answered 1 'all
' -p 'de p'
  says 'Error: '
  unwritten
}
row_rows_that_change_meanwhile() {
  mkfifo "$room/tmp/answer"
  CARGO="$room/fake/cargo" cargo-upgrade upgrade --interactive < "$room/tmp/answer" > "$room/out" 2> "$room/err" &
  exec 3> "$room/tmp/answer"
  for _ in $(seq 200); do ! grep -q 'Rows to change' "$room/err" || break; sleep 0.1; done
  sed -i 's/^dep = .*/dep = "1.2"/' Cargo.toml
  cp Cargo.toml "$room/tmp/edited"
  echo 1 >&3
  exec 3>&-
  wait $! && fail 'status 0'
  says 'Error: the rows changed before they were chosen; nothing is written'
  same "$room/tmp/edited" Cargo.toml
}
row_rows_that_are_given() {
  answered 0 '' --rows 1
  silent 'Rows to change'
  has Cargo.toml 'dep = "1.2"'
  has Cargo.toml 'other = "0.2.0"'
}
all_rows
