#!/usr/bin/env bash
# bounds.sh PROGRAM   a manifest that was made to take much memory is read in 128 MB: 1 MB of headers of 80 parts, each of
# which makes 80 new places. (`bench/run --only hostile` says how many times its length such a text takes.)
set -eu -o pipefail
program=$1
room=$(mktemp -d)
trap 'rm -rf "$room"' EXIT
printf '{"name":"a","vers":"1.0.0"}\n' > "$room/index.json"

# runs an upgrade within so many seconds and kilobytes of memory
within() { # what it is, seconds, kilobytes
  if ! (ulimit -v "$3"; timeout "$2" "$program" upgrade --manifest-path "$room/Cargo.toml" --index-file "$room/index.json") \
    2> "$room/err"; then
    echo "$1: not done within $2 seconds and $3 kB"
    cat "$room/err"
    exit 1
  fi
}

awk 'BEGIN { rest = ""; for (i = 0; i < 79; i++) rest = rest ".a"; for (i = 0; i < 6060; i++) printf "[%04d%s]\n", i, rest }' \
  > "$room/Cargo.toml"
within '6,060 headers of 80 parts' 10 131072
