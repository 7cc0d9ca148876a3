#!/usr/bin/env bash
# linear.sh PROGRAM   instructions and peak memory grow no faster than the input: families of inputs, each at five sizes that
# double, with exponents of at most 1.2 (tests/linear/run).
set -eu -o pipefail
here=$(cd "$(dirname "$0")/../.." && pwd)
exec python3 "$here/tests/linear/run" "$1"
