#!/usr/bin/env bash
# paths.sh PROGRAM   an empty path, as of an unset variable, is an error of the command line and no manifest changes. An
# error names the path at which it arose, and the line; a pipe as manifest is an error at its path, and is not waited for.
set -eu -o pipefail
room=$(mktemp -d)
trap 'rm -rf "$room"' EXIT
PROGRAM=$(realpath "$1")
cd "$room"
manifest='[dependencies]\nserde = "1.0"\n'
printf "$manifest" > Cargo.toml
printf '{"name":"serde","vers":"1.2.3"}\n' > index.json
refused() { # what, status wanted, the lines of standard error that are wanted first, manifest, index file
  status=0
  timeout 10 "$PROGRAM" upgrade --manifest-path "$4" --index-file "$5" 2> err || status=$?
  [ "$status" = "$2" ] || { echo "$1: status $status in place of $2"; cat err; exit 1; }
  printf "$3" > wanted
  head -n "$(wc -l < wanted)" err | cmp - wanted || { echo "$1:"; cat err; exit 1; }
  printf "$manifest" | cmp - Cargo.toml || { echo "$1: the manifest changed"; exit 1; }
}
value() { printf "error: a value is required for '%s' but none was supplied" "$1"; }
refused 'an empty manifest path' 2 "$(value '--manifest-path <PATH>')\n" '' index.json
refused 'an empty index file' 2 "$(value '--index-file <FILE>')\n" Cargo.toml ''
refused 'both empty' 2 "$(value '--manifest-path <PATH>')\n" '' ''
status=0
"$PROGRAM" upgrade --manifest-path= --index-file=index.json 2> err || status=$?
[ "$status" = 2 ] || { echo "an empty path behind an equals sign: status $status"; exit 1; }
printf "$manifest" | cmp - Cargo.toml
no_path='Error: Failed to get cargo file metadata'
refused 'no manifest' 1 "$no_path\n  at $room/none\n" none index.json
refused 'no index file' 1 "$no_path\n  at $room/none.json\n" Cargo.toml none.json
mkfifo pipe
refused 'a pipe' 1 "$no_path\n  at $room/pipe\n" pipe index.json
printf 'a = "\xc3\xa9"\nb = "\xc3\xa9" 1\n' > bad.toml
refused 'a line that is no TOML' 1 "Error: Unable to parse Cargo.toml\n  at $room/bad.toml:2:9\n" bad.toml index.json
printf '{"name":"serde","vers":"1.2.3"}\n\n{"name":"serde"\n' > bad.json
refused 'a malformed index line' 1 "Error: Invalid index line 3\n  at $room/bad.json:3\n" Cargo.toml bad.json
