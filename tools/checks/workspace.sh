#!/usr/bin/env bash
# workspace.sh PROGRAM   the README's example workspaces: each is laid out in a folder, its command run, and the lines that differ
# then, and what both streams hold, are those of examples/, which were worked out by hand.
set -eu -o pipefail
here=$(cd "$(dirname "$0")/../.." && pwd)
room=$(mktemp -d)
trap 'rm -rf "$room"' EXIT

# The lines of the manifests that differ between two folders, file by file.
changes() { # old folder, new folder
  local file
  for file in Cargo.toml $(cd "$1" && ls -d ./*/Cargo.toml | sed 's|^\./||' | LC_ALL=C sort); do
    cmp -s "$1/$file" "$2/$file" || { echo "in $file"; diff "$1/$file" "$2/$file" || true; }
  done
}

"$here/examples/lay_out" workspace "$room/upgraded"
cp -R "$room/upgraded" "$room/old"
upgrade() { "$1" upgrade --metadata-json "$room/upgraded/metadata.json" > "$room/printed" 2> "$room/err"; }
upgrade "$1"
changes "$room/old" "$room/upgraded" | diff "$here/examples/workspace/raised.diff" -
diff "$here/examples/workspace/printed" "$room/printed"
sed "s|@HERE@|$room/upgraded|g" "$here/examples/workspace/told" | diff - "$room/err"
# planned again, nothing changes
cp -R "$room/upgraded" "$room/once"
upgrade "$1"
changes "$room/once" "$room/upgraded" | diff /dev/null -

"$here/examples/lay_out" versions "$room/bumped"
cp -R "$room/bumped" "$room/old_versions"
bump() { "$1" set-version --bump minor --workspace --metadata-json "$room/bumped/metadata.json" "${@:2}" > "$room/printed" 2> "$room/err"; }
# a dry run prints the same and writes nothing
bump "$1" --dry-run
changes "$room/old_versions" "$room/bumped" | diff /dev/null -
{ cat "$here/examples/versions/told"; echo 'warning: aborting set-version due to dry run'; } | diff - "$room/err"
bump "$1"
changes "$room/old_versions" "$room/bumped" | diff "$here/examples/versions/bumped.diff" -
diff /dev/null "$room/printed"
diff "$here/examples/versions/told" "$room/err"
