#!/bin/sh
# mutants.sh   tools/mutants reads mutants, chooses those that are tried, takes over verdicts of earlier runs and judges the
# output of checks as its docstring describes: tested on a small crate and recorded lines of checks, without the prover
# (mutants.py, kept_verdicts.py). Each mutant is named by the function that it changes and its fault (mutant_names.py).
set -eu
here=$(dirname "$0")
python3 "$here/mutants.py"
python3 "$here/kept_verdicts.py"
exec python3 "$here/mutant_names.py"
