#!/usr/bin/env bash
# index_lines.sh PROGRAM   of 2,000 index lines made with a fresh seed, the program accepts those that the crate serde_json
# accepts, and has their members (tools/outside/index_lines.py, which prints the seed). Planted faults are found.
set -eu -o pipefail
here=$(cd "$(dirname "$0")/../.." && pwd)
program=$(readlink -f -- "$1")
room=$(mktemp -d)
trap 'rm -rf "$room"' EXIT
compare() { python3 "$here/tools/outside/index_lines.py" "$@"; }
compare "$program" --count 2000

# A program with faults: control characters are skipped, no version is yanked, and \u0061 is no escape.
cat > "$room/faulty" << END
#!/bin/sh
for word; do
  case \$word in
    */index.json) LC_ALL=C sed -i -e 's/[[:cntrl:]]//g' -e 's/"yanked":true/"yanked":false/' -e 's/\\\\u0061/\\\\u006z/' "\$word" ;;
  esac
done
exec '$program' "\$@"
END
chmod +x "$room/faulty"
status=0
compare "$room/faulty" --count 800 --seed 1 > "$room/out" || status=$?
fails() { echo "index_lines.sh: $1"; cat "$room/out"; exit 1; }
[ "$status" = 1 ] || fails "status $status of a program with faults"
for kind in 'accepted, where serde_json has: control character' 'other members' 'refused, where serde_json accepts it'; do
  grep -q "^[0-9]* lines: $kind" "$room/out" || fails "a fault is not found: $kind"
done
