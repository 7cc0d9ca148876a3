#!/bin/sh
# errors.sh PROGRAM   each error that a run over a workspace of three members can end with, one member or file wrong: its
# message, its place, and its help on standard error (errors.py).
set -eu
exec python3 "$(dirname "$0")/errors.py" "$1"
