#!/usr/bin/env bash
# memory.sh PROGRAM   each request for memory of a run over each of the examples is refused in turn (memory.py): the program
# then ends with status 1, reports that it is out of memory and leaves manifests whole, or raises them as ever without it.
set -eu -o pipefail
here=$(cd "$(dirname "$0")/../.." && pwd)
room=$(mktemp -d)
trap 'rm -rf "$room"' EXIT
cc -shared -fPIC -O1 -o "$room/refuse.so" "$here/tools/refuse.c" -ldl
python3 "$here/tools/checks/memory.py" "$room/refuse.so" "$1"
