#!/usr/bin/env bash
# system_calls.sh PROGRAM   each system call of a run fails in turn, and each is the moment of a kill (system_calls.py). Where
# the machine lets no process be traced, a message says so and nothing is checked.
set -eu -o pipefail
if ! strace -o /dev/null true 2> /dev/null; then
  echo 'no process can be traced here: no system call was failed'
  exit
fi
exec python3 "$(dirname "$0")/system_calls.py" "$1"
