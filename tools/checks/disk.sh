#!/usr/bin/env bash
# disk.sh PROGRAM   calls for files that fail in turn (disk_calls.py); disks that are full, files and folders that may not be
# written, and runs at once (disk.py), in a space of its own for mounts where the machine allows one.
set -eu -o pipefail
here=$(cd "$(dirname "$0")/../.." && pwd)
room=$(mktemp -d)
trap 'rm -rf "$room"' EXIT
cc -shared -fPIC -O1 -o "$room/refuse.so" "$here/tools/refuse.c" -ldl
python3 "$here/tools/checks/disk_calls.py" "$room/refuse.so" "$1"
for space in 'unshare --mount' 'unshare --map-root-user --mount' ''; do
  if [ -z "$space" ] || $space sh -c 'mount -t tmpfs -o size=64k tmpfs /mnt' 2> /dev/null; then
    $space python3 "$here/tools/checks/disk.py" "$1"
    exit
  fi
done
