#!/usr/bin/env bash
# fuzz.sh PROGRAM   a minute of the fuzzer (tests/fuzz/run) with a fresh seed, which it prints first, and each of its saved cases.
# `tests/fuzz/run PROGRAM --seed S` tries the cases of a seed again.
set -eu -o pipefail
here=$(cd "$(dirname "$0")/../.." && pwd)
exec "$here/tests/fuzz/run" "$1" --seconds 60 --jobs 2
