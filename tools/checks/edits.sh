#!/bin/sh
# Edits at random places of two manifests, made by the program edit_calls and by Python on its own tree: each must leave
# a text that reads as the old tree except at that place. edits.sh PROGRAM (which is not used: edit_calls is built beside it)
set -eu
here=$(cd "$(dirname "$0")" && pwd)
exec python3 "$here/edits.py" "$here/../../crates/edit_calls/out/edit_calls"
