#!/bin/sh
# diffs.sh PROGRAM   what `--diff` prints is taken by `git apply` and by `patch -p1` at the root of the workspace, whatever the
# current folder is, and whatever characters its folders' names have (diffs.py). Where git or patch is missing, this fails.
set -eu
exec python3 "$(dirname "$0")/diffs.py" "$(realpath "$1")"
