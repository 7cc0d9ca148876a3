#!/bin/sh
# plan.sh PROGRAM   `cargo-edit plan`: the example in Python, and each case of tests/cases that a request can express: it
# must give the same status and the same new texts as a run over files, and its edits must lead to these texts.
set -eu
exec python3 "$(dirname "$0")/plan.py" "$1"
