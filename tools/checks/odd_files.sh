#!/usr/bin/env bash
# odd_files.sh PROGRAM   a pipe or a device as manifest is an error, one that a search meets is skipped, and
# nothing hangs. An index file may be a pipe, which is read to its end, and blank lines of it take no memory.
set -eu -o pipefail
here=$(cd "$(dirname "$0")/../.." && pwd)
room=$(mktemp -d)
trap 'rm -rf "$room"' EXIT
first="$here/examples/first"
patch -s -o "$room/raised.toml" "$first/Cargo.toml" "$first/raised.diff"
upgrade() { # the manifest's path, the index file
  timeout 10 "$PROGRAM" upgrade --manifest-path "$1" --index-file "$2" 2> "$room/err"
}
PROGRAM=$1
mkfifo "$room/pipe"
for odd in "$room/pipe" /dev/null /dev/zero; do
  status=0
  upgrade "$odd" "$first/index.json" || status=$?
  [ "$status" = 1 ] || { echo "$odd: status $status"; exit 1; }
  [ "$(head -n 1 "$room/err")" = 'Error: Failed to get cargo file metadata' ] || { echo "$odd:"; cat "$room/err"; exit 1; }
done
mkdir -p "$room/above/in/the/way"
mkfifo "$room/above/in/Cargo.toml"
cp "$first/Cargo.toml" "$room/above"
upgrade "$room/above/in/the/way" <(cat "$first/index.json")
cmp "$room/raised.toml" "$room/above/Cargo.toml"
# 10 MB of blank lines, with memory for some ten times the text
cp "$first/Cargo.toml" "$room/above"
{ head -c 10000000 /dev/zero | tr '\0' '\n'; cat "$first/index.json"; } > "$room/blank.json"
(ulimit -v 131072; upgrade "$room/above/Cargo.toml" "$room/blank.json")
cmp "$room/raised.toml" "$room/above/Cargo.toml"
