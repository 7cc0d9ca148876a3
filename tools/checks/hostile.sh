#!/usr/bin/env bash
# hostile.sh PROGRAM   texts as a hostile author would write them end quickly on a small stack and in bounded memory, each
# with its error or its answer (hostile.py; with --table it prints a line for each). Those of one reader alone are read by
# the program edit_calls, which is built beside PROGRAM.
set -eu -o pipefail
here=$(cd "$(dirname "$0")" && pwd)
exec python3 "$here/hostile.py" "$1" "$here/../../crates/edit_calls/out/edit_calls"
