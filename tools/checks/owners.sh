#!/usr/bin/env bash
# owners.sh PROGRAM   who owns, reads and writes what after a run, and what may be in place of a file (owners.py), in a
# space of its own for mounts where the machine allows one.
set -eu -o pipefail
here=$(cd "$(dirname "$0")" && pwd)
space=
! unshare --mount true 2> /dev/null || space='unshare --mount'
$space python3 "$here/owners.py" "$1"
