#!/bin/sh
# rows.sh PROGRAM   the cases of tests/cases, inputs that are too long for a case, and files of this machine.
set -eu
here=$(cd "$(dirname "$0")" && pwd)
"$here/../../tests/cases/run" --no-skips "$1"
python3 "$here/generated.py" "$1" "$here/../../crates/edit_calls/out/edit_calls"
exec python3 "$here/real_files.py" "$1"
