#!/usr/bin/env bash
# lost_edits.sh PROGRAM   editors that replace manifests beside runs, runs of a member beside runs of its workspace, and runs
# that are held or killed where a manifest is moved (lost_edits.py).
set -eu -o pipefail
exec python3 "$(dirname "$0")/lost_edits.py" "$1"
