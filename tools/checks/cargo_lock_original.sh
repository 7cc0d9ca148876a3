#!/usr/bin/env bash
# cargo_lock_original.sh PROGRAM   Cargo.lock after `cargo upgrade` is what the rules of docs/UPGRADE.md leave, for
# random workspaces over crates whose dependencies change between versions; the rules are carried out with real cargo
# by tools/cargo_checks/original_lock.py.
# shellcheck source-path=SCRIPTDIR source=../cargo_checks/lib.sh
. "$(dirname "$0")/../cargo_checks/lib.sh"
python3 "$here/tools/cargo_checks/original_lock.py" crates > "$room/crates.json" || exit 1
begin "$1"

row_rules() {
  CARGO=$cargo timeout 900 python3 "$here/tools/cargo_checks/original_lock.py" compare "$room" "${COUNT:-60}" > "$room/said" ||
    fail "$(head -c 20000 "$room/said")"
  tail -n 1 "$room/said"
}

all_rows
