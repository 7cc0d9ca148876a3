#!/bin/sh
# edges.sh PROGRAM   the edge cases of the program: arguments and folders that are not UTF-8, paths that are read and written
# at once, folders that are not there, what a terminal gets, how many writes a message takes, the limits of docs/LIMITS.md.
set -eu
exec python3 "$(dirname "$0")/edges.py" "$(realpath "$1")"
