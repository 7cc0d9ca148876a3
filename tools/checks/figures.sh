#!/usr/bin/env bash
# figures.sh   the figures on the upper crates, printed beside the wanted ones; none is worse than before (tools/figures).
set -eu -o pipefail
exec "$(dirname "$0")/../figures"
