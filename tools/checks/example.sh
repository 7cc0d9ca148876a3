#!/usr/bin/env bash
# example.sh PROGRAM   the README's example: a copy of examples/first is raised, and the lines that differ are those of
# examples/first/raised.diff, which were worked out by hand.
set -eu -o pipefail
here=$(cd "$(dirname "$0")/../.." && pwd)
room=$(mktemp -d)
trap 'rm -rf "$room"' EXIT
cp "$here"/examples/first/Cargo.toml "$here"/examples/first/index.json "$room"
"$1" upgrade --manifest-path "$room/Cargo.toml" --index-file "$room/index.json"
diff "$here/examples/first/Cargo.toml" "$room/Cargo.toml" > "$room/seen.diff" || true
diff "$here/examples/first/raised.diff" "$room/seen.diff"
# planned again, nothing changes
cp "$room/Cargo.toml" "$room/before.toml"
"$1" upgrade --manifest-path "$room/Cargo.toml" --index-file "$room/index.json"
cmp "$room/before.toml" "$room/Cargo.toml"
