#!/usr/bin/env bash
# killed.sh PROGRAM   the program is killed 100 times at varying moments while it writes the manifests of a workspace (killed.py).
set -eu -o pipefail
exec python3 "$(dirname "$0")/killed.py" "$1"
