#!/usr/bin/env bash
# in_place.sh PROGRAM   manifests that are overwritten in place, beside an attacker and beside an editor, and what a kill leaves
# in the folder for temporary files (in_place.py).
set -eu -o pipefail
room=$(mktemp -d)
trap 'rm -rf "$room"' EXIT
cc -O1 -o "$room/swap" "$(dirname "$0")/swap.c"
chmod 755 "$room"
exec python3 "$(dirname "$0")/in_place.py" "$room/swap" "$1"
