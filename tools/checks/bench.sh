#!/usr/bin/env bash
# bench.sh PROGRAM   each row of bench/run can be measured, at a tiny size: runs leave the manifests that the
# generators expect, and a program that changes nothing fails. Peers are measured too where bench/build.sh has
# built them.
set -eu -o pipefail
here=$(cd "$(dirname "$0")/../.." && pwd)
room=$(mktemp -d)
trap 'rm -rf "$room"' EXIT
fails() { echo "bench.sh: $1"; cat "$room/table"; exit 1; }

"$here/bench/run" --quick "$1" > "$room/table" || fails 'a row fails'
"$here/bench/run" --list > "$room/rows"
[ "$(wc -l < "$room/rows")" -ge 15 ] || fails 'rows are not found'
while IFS= read -r row; do
  grep -q -E "^\| \`$row\` \|.*\| [0-9.]+ s \|.*\| [0-9.]+ MB \|" "$room/table" || fails "no figures for $row"
done < "$room/rows"

status=0
"$here/bench/run" --quick /bin/true > "$room/table" || status=$?
[ "$status" = 1 ] || fails "status $status where nothing is done"
for row in lines-1000 workspace-30 short-10000 inline-10000 writing-disk; do
  said="^| \`$row\` | failed: program has left another text"
  grep -q "$said" "$room/table" || fails "$row passes where nothing is done"
done

PYTHONPATH=$here/bench python3 -B << 'END'
from jobs import Result
from rows import Row
from table import verdict
row = Row("row", "work", None, None, None, 0.8, original=0.3)
given = [verdict(row, Result("", figure=figure), True) for figure in (0.79, 0.8, 0.81, None)]
assert given == ["yes", "yes", "no", "not measured"], given
given = [verdict(row, Result("", figure=figure, unit="original"), True) for figure in (0.3, 0.31)]
assert given == ["yes", "no"], given
END
