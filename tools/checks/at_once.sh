#!/usr/bin/env bash
# at_once.sh PROGRAM   runs at once over a workspace, an editor beside a run, and an attacker who swaps a run's temporary file
# (at_once.py).
set -eu -o pipefail
exec python3 "$(dirname "$0")/at_once.py" "$1"
