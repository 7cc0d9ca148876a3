#!/usr/bin/env bash
# cargo_messages.sh PROGRAM   errors of `cargo upgrade` and `cargo set-version` as people and as programs read them: usage
# errors name cargo's command, a missing or old cargo or curl is named with the least version, and with
# `--message-format json` each error is the last message on standard output, which has JSON lines alone.
# shellcheck source-path=SCRIPTDIR source=../cargo_checks/lib.sh
. "$(dirname "$0")/../cargo_checks/lib.sh"
begin "$1"

json_lines() { # NUMBER: standard output has so many lines, each an object of the schema
  [ "$(wc -l < "$room/out")" = "$1" ] || fail "$(wc -l < "$room/out") lines on standard output in place of $1"
  python3 - "$here" "$room/out" > "$room/log" 2>&1 << 'PYTHON' || fail "$(cat "$room/log")"
import json, sys
here, out = sys.argv[1:]
sys.path.insert(0, here + "/tools/checks")
import json_schema
schema = json_schema.Schema(json.load(open(here + "/docs/messages.schema.json")))
for line in open(out):
    for fault in schema.faults(json.loads(line)):
        sys.exit("%s: %s" % (fault, line))
PYTHON
}
last_error() { # TEXT: the last message is an error, and says this after `"message":"`
  tail -n 1 "$room/out" | grep -q -F '"reason":"error"' || fail 'the last message is no error'
  tail -n 1 "$room/out" | grep -q -F -- "\"message\":\"$1" || fail "the last message is not \`$1\`"
  says "Error: $1"
}
# A folder for PATH that has what the scripts call, and neither cargo nor curl.
bare() {
  local it
  mkdir "$room/tmp/bin"
  for it in sh bash cat chmod cp cut date find grep mkdir mktemp mv readlink rm sed tr; do
    ln -s "$(command -v "$it")" "$room/tmp/bin/$it"
  done
}

row_usage_errors_name_the_command() {
  run 2 upgrade --bogus
  says 'Usage: cargo upgrade [OPTIONS]'
  run 2 set-version --bogus
  says 'Usage: cargo set-version'
  silent 'cargo-edit|metadata-json'
}
row_options_that_the_script_gives() {
  run 2 upgrade --config x
  says "the argument '--config <FILE>' needs '--metadata-json <FILE>'"
  silent 'multiple times'
  unwritten
}
row_groups_of_letters() {
  run 0 upgrade -nvi
  grep -q -E '^dep +1\.0 +1\.2\.3 +2\.0\.0 +2\.0' "$room/out" || fail 'dep is not taken to 2.0'
  unwritten
}
row_no_cargo() {
  local status=0
  bare
  PATH="$room/prefix/bin:$room/tmp/bin" CARGO='' cargo-upgrade upgrade > "$room/out" 2> "$room/err" || status=$?
  [ "$status" = 1 ] || fail "status $status"
  says 'Error: there is no cargo: cargo 1.68 or later is needed'
  PATH="$room/prefix/bin:$room/tmp/bin" CARGO='' cargo-set-version set-version 1.0.0 --message-format json > "$room/out" 2> "$room/err" &&
    fail 'status 0'
  json_lines 1
  last_error 'there is no cargo: cargo 1.68 or later is needed'
  unwritten
}
row_an_old_cargo() { # one that reads no sparse registry
  cat > "$room/tmp/cargo" << OLD
#!/bin/sh
[ "\$1" != --version ] || { echo 'cargo 1.65.0'; exit; }
[ "\$1" != metadata ] || { "$cargo" "\$@" | sed 's/"workspace_default_members":[^]]*],//'; exit; }
exec "$cargo" "\$@"
OLD
  chmod 755 "$room/tmp/cargo"
  CARGO="$room/tmp/cargo" cargo-upgrade upgrade > "$room/out" 2> "$room/err" && fail 'status 0'
  says 'Error: cargo 1.68 or later is needed for sparse registries, and this is cargo 1.65.0'
  unwritten
}
row_no_curl() {
  bare
  PATH="$room/prefix/bin:$room/tmp/bin" CARGO="$cargo" cargo-upgrade upgrade --message-format json > "$room/out" 2> "$room/err" &&
    fail 'status 0'
  json_lines 1
  last_error 'curl 7.75 or later is needed'
  unwritten
}
row_an_error_of_the_plan() {
  run 1 upgrade --message-format json -p absent
  last_error "dependency absent doesn't exist"
}
row_an_error_of_a_registry() {
  mode down
  run 1 upgrade --message-format json
  json_lines 1
  last_error ''
  has "$room/out" 'status 503'
  unwritten
}
row_an_error_of_cargo() {
  echo '[dependencies' >> Cargo.toml
  run 1 upgrade --message-format json
  json_lines 1
  last_error '`cargo metadata` failed'
  run 1 set-version 1.0.0 --message-format json
  json_lines 1
  last_error '`cargo metadata` failed'
}
# A cargo that spoils Cargo.lock once it has done its work.
spoils() { # SUBCOMMAND
  cat > "$room/tmp/cargo" << SPOILS
#!/bin/sh
"$cargo" "\$@" || exit
case "\$*" in $1*) echo '[' >> Cargo.lock ;; esac
SPOILS
  chmod 755 "$room/tmp/cargo"
}
ends_with_one_error() { # COMMAND ARGUMENTS
  CARGO="$room/tmp/cargo" "cargo-$1" "$@" --message-format json > "$room/out" 2> "$room/err" && fail 'status 0'
  says_once '^Error: '
}
# An error of the step that finds the calls of `cargo update`, and of the one that finds the next one.
row_errors_of_the_lock_file() {
  spoils 'metadata*--all-features'
  ends_with_one_error upgrade
  last_error 'the manifests are written, Cargo.lock is not: '
  silent 'cargo failed'
  tail -n 1 "$room/out" | grep -q -F "\"place\":\"$room/ws/" || fail 'the message has no place'
  tail -n 1 "$room/out" | grep -q -F '"help":"change what cargo names' || fail 'the message has no help'
  cp "$room/first/Cargo.toml" "$room/first/Cargo.lock" .
  spoils 'update*--precise'
  ends_with_one_error upgrade -p dep@1.2.3 -p other@0.2.5
  last_error 'the manifests are written, Cargo.lock is not: '
  silent 'cargo failed'
}
row_an_error_of_a_bound() {
  spoils 'update*'
  ends_with_one_error upgrade --level patch -p other
  last_error 'the manifests are written, Cargo.lock is not: '
}
row_an_error_of_credentials() {
  printf '[registry\n' > "$CARGO_HOME/credentials.toml"
  run 1 upgrade -n --message-format json
  rm "$CARGO_HOME/credentials.toml"
  json_lines 1
  last_error ''
  has "$room/out" 'credentials.toml'
  unwritten
}
# Commands that the output shows or advises are quoted, so that a shell takes them as they stand.
row_shown_commands() {
  mkdir "$room/tmp/it's here"
  cp -R . "$room/tmp/it's here/a b"
  cd "$room/tmp/it's here/a b" || exit 1
  run 0 upgrade --manifest-path "$PWD/Cargo.toml" -p dep@1.2.3
  sed -n 's/^ *Run //p' "$room/err" > "$room/commands"
  [ -s "$room/commands" ] || fail 'no call is shown'
  has "$room/commands" "'$room/tmp/it'\\''s here/a b/Cargo.toml'"
  (cd / && CARGO_NET_OFFLINE=true sh -e "$room/commands") > "$room/log" 2>&1 || fail "$(cat "$room/log")"
  echo 'absent = "9"' >> Cargo.toml
  run 1 upgrade --manifest-path "$PWD/Cargo.toml" -p dep@1.0.0
  says "run \`cargo update --workspace --manifest-path '$room/tmp/it'\\''s here/a b/Cargo.toml'\`"
}
row_an_error_of_new_versions() {
  run 1 set-version 0.0.1 --message-format json
  json_lines 1
  last_error 'Cannot downgrade from 0.1.0 to 0.0.1'
  has "$room/out" '"number":'
  unwritten
}
row_new_versions() {
  run 0 set-version 0.2.0 --message-format json
  json_lines 2
  has "$room/out" "{\"inherited\":false,\"name\":\"a\",\"new\":\"0.2.0\",\"old\":\"0.1.0\",\"path\":\"$room/ws/Cargo.toml\",\"reason\":\"set-version-version\",\"version\":1}"
}
row_rows_to_choose() {
  printf '1\n' | cargo upgrade --interactive --message-format json > "$room/out" 2> "$room/err" || fail "status $?"
  says '1  Cargo.toml  dep: 1.0 -> 1.2'
  ! grep -v '^{"' "$room/out" > "$room/log" || fail "standard output has $(cat "$room/log")"
  grep -q '"reason":"upgrade-summary"' "$room/out" || fail 'no summary'
  has Cargo.toml 'dep = "1.2"'
  printf '7\n' | cargo upgrade --interactive --message-format json > "$room/out" 2> "$room/err" && fail 'status 0'
  last_error "row 7 doesn't exist"
}
row_plans_of_people() { # without the option nothing of it is on standard output
  run 1 set-version 0.0.1
  [ ! -s "$room/out" ] || fail 'standard output is not empty'
}
all_rows
