#!/bin/sh
# Proves and builds the program from the sources here: build/cargo-edit. Does nothing where that was made from the same
# sources by the same toolchain.
#
# It runs the toolchain's `rt ci` over a copy of the crates that the program stands on, so crates are proved side by side,
# and what was proved on this machine before, by this script or by .ci/run, is taken over. The copy is made below $TMPDIR,
# else /var/tmp, and takes up to 5 GB.
# Progress goes to standard error, a line for each crate; what the toolchain prints goes to build/build.log.
set -eu
LC_ALL=C
export LC_ALL
here=$(CDPATH='' cd -- "$(dirname -- "$0")/.." && pwd)
fail() { printf 'cargo-edit: %s\n' "$*" >&2; exit 1; }
command -v rt > /dev/null || fail "to prove and build the program, rt (Rattle's toolchain) has to be on PATH"
mkdir -p "$here/build"
# one build at a time
if command -v flock > /dev/null; then
    exec 9> "$here/build/lock"
    flock -n 9 || { echo "cargo-edit: waiting for another build of this clone" >&2; flock 9; }
fi
made="$("$here/tools/sources") $(rt version)"
if [ -x "$here/build/cargo-edit" ] && [ "$(cat "$here/build/made-from" 2> /dev/null)" = "$made" ]; then
    exit 0
fi

# The crates below the program and the program, lowest first, as lines of crates.txt.
lines=$(awk '
    function visit(name,    parts, count, i) {
        if (name in done || !(name in line)) return
        done[name] = 1
        count = split(needs[name], parts, " ")
        for (i = 1; i <= count; i++) visit(parts[i])
        print line[name]
    }
    { sub(/#.*/, "") }
    /:/ { name = $1; sub(/:$/, "", name); line[name] = $0; sub(/^[^:]*:/, ""); needs[name] = $0 }
    END { visit("edit_cli") }' "$here/crates.txt")
copy=$(mktemp -d "${TMPDIR:-/var/tmp}/cargo-edit.XXXXXX")
trap 'rm -rf "$copy"' EXIT
trap 'exit 130' INT
trap 'exit 143' TERM
trap 'exit 129' HUP
mkdir "$copy/crates"
cp "$here/HANDLES" "$copy"
printf '%s\n' "$lines" > "$copy/crates.txt"
printf '%s\n' "$lines" | while IFS=' :' read -r name _; do
    (cd "$here/crates" && tar --exclude=out --exclude=mutants --exclude=more-mutants -cf - "$name") \
        | tar -xf - -C "$copy/crates"
done

total=$(printf '%s\n' "$lines" | wc -l)
log=$here/build/build.log
cat >&2 << END
cargo-edit: proving and building the program: $total crates, about an hour of two processors the first time
cargo-edit: the toolchain's output goes to $log
END
start=$(date +%s)
status=0
(cd "$copy" && PYTHONUNBUFFERED=1 rt ci 2>&1; echo "status $?") | tee "$log" | awk -v start="$start" -v total="$total" '
    /^rt: [a-z_]+ (proved|is kept: )/ {
        name = $2; how = $3 == "proved" ? "proved" : "proved before on this machine"; count++
        "date +%s" | getline now; close("date +%s")
        printf "cargo-edit: %2d of %d: %s, %s (%d:%02d)\n", count, total, name, how, (now - start) / 60, (now - start) % 60
    }
    /^rt: [a-z_]+ NOT PROVED/ { print "cargo-edit: " $2 " is NOT PROVED" }' >&2
[ "$(tail -n 1 "$log")" = "status 0" ] || status=1
if [ "$status" != 0 ]; then
    echo "cargo-edit: the program was not built; the last lines of $log:" >&2
    tail -n 20 "$log" >&2
    exit 1
fi
cp "$copy/crates/edit_cli/out/edit_cli" "$here/build/cargo-edit.new"
mv "$here/build/cargo-edit.new" "$here/build/cargo-edit"
printf '%s\n' "$made" > "$here/build/made-from"
