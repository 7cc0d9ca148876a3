#!/usr/bin/env bash
# counts.sh   each count that a document names is the one that is found in the repository (tools/counts). In a copy of the documents
# another number is found, and words without the number.
set -eu -o pipefail
here=$(cd "$(dirname "$0")/../.." && pwd)
"$here/tools/counts"
room=$(mktemp -d)
trap 'rm -rf "$room"' EXIT
for name in bin crates crates.txt examples tests README.md; do
  ln -s "$here/$name" "$room/$name"
done
cp -R "$here/tools" "$here/docs" "$room"
finds() { # sed's command for the page, the line
  sed "$1" "$here/docs/PROOFS.md" > "$room/docs/PROOFS.md"
  ! "$room/tools/counts" > "$room/said" || { echo "counts.sh: not found: $2"; exit 1; }
  grep -q -x -F -- "  $2" "$room/said" || { echo "counts.sh: no line: $2"; cat "$room/said"; exit 1; }
}
finds 's/^## Twelve promises/## Thirteen promises/' 'docs/PROOFS.md names another number: ## Thirteen promises'
finds 's/cite about [0-9]* definitions/cite definitions/' 'docs/PROOFS.md does not name it: Its clauses cite NUMBER definitions'
