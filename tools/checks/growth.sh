#!/usr/bin/env bash
# growth.sh PROGRAM   each request for memory of each call is refused in turn (growth.py). The calls are made by the
# program edit_calls, which is built beside PROGRAM (memory.sh has the program itself).
set -eu -o pipefail
here=$(cd "$(dirname "$0")/../.." && pwd)
room=$(mktemp -d)
trap 'rm -rf "$room"' EXIT
cc -shared -fPIC -O1 -o "$room/refuse.so" "$here/tools/refuse.c" -ldl
python3 "$here/tools/checks/growth.py" "$room/refuse.so" "$here/crates/edit_calls/out/edit_calls"
