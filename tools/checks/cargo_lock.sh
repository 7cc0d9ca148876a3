#!/usr/bin/env bash
# cargo_lock.sh PROGRAM   what `cargo upgrade` and `cargo set-version` do to Cargo.lock, which calls of cargo they
# make, and their status, with real cargo over loopback registries.
# shellcheck source-path=SCRIPTDIR source=../cargo_checks/lib.sh
. "$(dirname "$0")/../cargo_checks/lib.sh"
begin "$1"
repository "$room/repo"
git_dependency="local = { git = \"file://$room/repo\""

# The project of a row: dependencies, then packages that are locked at these versions.
begins() { # DEPENDENCIES [NAME@VERSION ..]
  rm -rf ./*
  project . "$1"
  shift
  for package; do cargo update -q --precise "${package#*@}" "${package%@*}" 2> /dev/null || fail "no $package"; done
  cargo fetch -q
  cp Cargo.toml "$room/begun.toml"
  cp Cargo.lock "$room/begun.lock"
}
# Each call of `cargo update` names a package.
scoped() {
  ! updates | grep -v -e ' --package ' -e ' --workspace --locked ' > "$room/log" || fail "a call without a package: $(cat "$room/log")"
}
# Each call that is printed as `Run ..` is made as printed, and no other is made. (If an earlier call changed the
# versions of its packages, a call is printed once more, with the new versions.)
printed_is_run() {
  sed -n "s/^ *Run //p" "$room/err" | awk '{ key = $0; gsub(/@[^ ]*/, "", key); if (!(key in last)) order[++n] = key; last[key] = $0 }
    END { for (k = 1; k <= n; k++) print last[order[k]] }' > "$room/printed"
  updates > "$room/log"
  cmp -s "$room/printed" "$room/log" || fail "printed: $(cat "$room/printed"); made: $(cat "$room/log")"
}
# Keeps a full `cargo metadata` from resolving, or an update from being made.
broken_cargo() { # CONDITION
  cat > "$room/broken" << BROKEN
#!/bin/sh
printf 'cargo %s\n' "\$*" >> "$room/calls"
case "\$*" in $1) echo 'error: out of luck' >&2; exit 101 ;; esac
exec "$cargo" "\$@"
BROKEN
  chmod 755 "$room/broken"
}
broken() { # STATUS COMMAND ARGUMENTS
  local wanted=$1 status=0
  shift
  CARGO="$room/broken" "cargo-$1" "$@" > "$room/out" 2> "$room/err" || status=$?
  [ "$status" = "$wanted" ] || fail "cargo $*: status $status in place of $wanted"
}

# An optional git dependency: no call without a package, and excluded crates stay locked.
row_optional_git() {
  begins "third = \"1.0\"
other = \"0.2.0\"
$git_dependency, optional = true }" other@0.2.0 third@1.0.0 dep@1.0.0
  noted 0 upgrade --exclude other
  scoped
  locks other 0.2.0
  locks third 1.1.0
}
# The version that `-p` names for an optional dependency is locked.
row_optional_precise() {
  begins 'other = { version = "0.2", optional = true }'
  locks other 0.2.5
  noted 0 upgrade -p other@0.2.0
  locks other 0.2.0
}
# What an optional dependency needs is updated with it.
row_optional_recursive() {
  begins 'third = { version = "1.0", optional = true }' third@1.0.0 dep@1.0.0
  noted 0 upgrade
  locks third 1.1.0
  locks dep 1.2.3
}
# A call before it moved the package in the lock file: it is updated at the version that is there then.
row_moved_by_a_call() {
  begins "third = \"1.0\"
$git_dependency }" third@1.0.0 dep@1.0.0
  noted 0 upgrade
  scoped
  locks third 1.1.0
  locks dep 1.2.3
}
row_not_recursive() {
  begins 'third = "1.0"' third@1.0.0 dep@1.0.0
  noted 0 upgrade --recursive false
  locks dep 1.0.0
}
# Cargo.lock is not what the manifests need: status 1, and an error that says what was written and what cargo says.
unfit() { # REASON
  says_once '^Error: the manifests are written, Cargo\.lock is not: '
  says_like "^Error: the manifests are written, Cargo\\.lock is not: .*$1"
  says_once '^  help: '
}
# Where cargo cannot resolve the workspace, no call is made, and the status is 1.
row_unresolved() {
  begins "dep = \"1.0\"
$git_dependency }" dep@1.0.0
  broken_cargo '*metadata*--no-deps*) ;; *metadata*'
  broken 1 upgrade
  scoped
  same "$room/begun.lock" Cargo.lock
  has Cargo.toml 'dep = "1.2"'
  unfit 'out of luck'
}
# A call of `cargo update` that fails: status 1, with its message, and the manifests are written.
row_update_fails() {
  broken_cargo '*update*'
  broken 1 upgrade
  raised
  unfit 'out of luck'
}
# The version of `-p NAME@VERSION` is locked, whatever was locked before.
row_precise_in_the_range() {
  begins 'leaf = "0.1"' leaf@0.1.0
  noted 0 upgrade -p leaf@0.1.3
  locks leaf 0.1.3
  printed_is_run
}
row_precise_beyond_the_range() {
  begins 'leaf = "0.1"'
  locks leaf 0.1.8
  noted 0 upgrade -p leaf@0.3.0
  locks leaf 0.3.0
  lacks Cargo.lock 'version = "0.1.8"'
}
# So is the lower end of a requirement with `>=`, with what that version depends on.
row_precise_lower_end() {
  begins 'middle = "0.5"' middle@0.5.0
  noted 0 upgrade -p 'middle@>=0.5.4'
  locks middle 0.5.4
  locks dep 1.2.3
}
# A version that is not published: cargo refuses it, though the requirement admits another one.
row_precise_unpublished() {
  begins 'leaf = "0.1"' leaf@0.1.0
  noted 1 upgrade -p leaf@0.1.4
  has Cargo.toml 'leaf = "0.1.4"'
  unfit .
}
# What only the new version depends on is updated with it.
row_new_dependencies() {
  begins 'gains = "1.0"
keeps = "=1.0.0"' gains@1.0.0 leaf@0.1.0
  noted 0 upgrade
  locks gains 1.2.0
  locks leaf 0.1.8
  printed_is_run
}
# What only the old version depended on stays.
row_old_dependencies() {
  begins 'loses = "1"
keeps = "=1.0.0"' leaf@0.1.0
  noted 0 upgrade -i
  locks loses 2.0.0
  locks leaf 0.1.0
}
# An upgrade that mends a workspace that cargo does not resolve: its lock file is made, or brought up to date.
row_mended() {
  rm -rf ./*
  project . 'leaf = "0.1"'
  sed -i 's/"0.1"/"0.9"/' Cargo.toml
  cp Cargo.toml "$room/begun.toml"
  noted 0 upgrade -i
  has Cargo.toml 'leaf = "0.3"'
  locks leaf 0.3.1
  cp "$room/begun.toml" Cargo.toml
  rm Cargo.lock
  noted 0 upgrade -i
  locks leaf 0.3.1
}
# Manifests that cargo does not resolve, whatever was before.
row_broken_by_it() {
  begins 'leaf = "0.1"'
  noted 1 upgrade -p leaf@7
  has Cargo.toml 'leaf = "7"'
  same "$room/begun.lock" Cargo.lock
  unfit 'leaf = "\^7"'
}
row_broken_before() {
  begins "dep = \"1.0\"
$git_dependency }" dep@1.0.0
  echo 'absent = "1"' >> Cargo.toml
  noted 1 upgrade
  has Cargo.toml 'dep = "1.2"'
  same "$room/begun.lock" Cargo.lock
  unfit 'absent'
  rm Cargo.lock
  cp "$room/begun.toml" Cargo.toml
  echo 'absent = "1"' >> Cargo.toml
  noted 1 upgrade
  [ ! -e Cargo.lock ] || fail 'Cargo.lock is made'
  unfit 'absent'
}
# A requirement of `-p` that no published version has: a warning before anything is written, with the nearest ones.
row_nothing_published() {
  begins 'leaf = "0.1"'
  run 0 upgrade -n -p leaf@0.2
  says_once '^warning: no version of leaf is published that 0.2 admits; the nearest are 0.1.8 and 0.3.0$'
  run 0 upgrade -n -p leaf@7
  says_once '^warning: no version of leaf is published that 7 admits; the nearest is 0.3.1$'
  run 0 upgrade -n -p leaf@0.3 --published-before 2000-01-01T00:00:00Z
  silent 'is published that'
  run 1 upgrade -p leaf@0.2
  says_once '^warning: no version of leaf is published that 0.2 admits'
}
# upgrade --locked: a lock file that is missing or does not fit is an error before anything is written.
row_upgrade_locked() {
  begins 'dep = "1.2"'
  run 0 upgrade --locked
  rm Cargo.lock
  cp Cargo.toml "$room/begun.toml"
  run 1 upgrade --locked
  says --locked
  [ ! -e Cargo.lock ] || fail 'Cargo.lock is made'
  same "$room/begun.toml" Cargo.toml
  begins 'dep = "1.2"'
  sed -i 's/"1.2"/"2"/' Cargo.toml
  run 1 upgrade --locked
  same "$room/begun.lock" Cargo.lock
  begins 'dep = "1.0"'
  run 1 upgrade --locked
  same "$room/begun.toml" Cargo.toml
  same "$room/begun.lock" Cargo.lock
}
# cargo is started four times, and resolves the workspace once; where nothing changes, twice.
row_starts() {
  noted 0 upgrade
  sed -E 's/^(cargo [a-z-]+).*(--no-deps|--all-features|--aggressive|--workspace).*/\1 \2/' "$room/calls" > "$room/log"
  printf '%s\n' 'cargo metadata --no-deps' 'cargo locate-project --workspace' 'cargo metadata --all-features' \
    'cargo update --aggressive' | cmp -s - "$room/log" || fail "$(cat "$room/calls")"
  : > "$room/calls"
  noted 0 upgrade
  [ "$(wc -l < "$room/calls")" = 2 ] || fail "$(cat "$room/calls")"
}
# The calls can be written to a file of the user's.
row_update_calls() {
  noted 0 upgrade --update-calls calls.txt
  awk '{ printf "%s%s", sep, $0; sep = " " } /^$/ { print ""; sep = "" }' calls.txt | sed 's/ *$//' > "$room/printed"
  updates | cmp -s - "$room/printed" || fail "$(cat "$room/printed" "$room/calls")"
  cp "$room/first/Cargo.toml" "$room/first/Cargo.lock" .
  : > "$room/calls"
  noted 0 upgrade --update-calls=calls.txt
  [ -s calls.txt ] || fail 'no calls'
}
# A dry run neither makes nor changes the lock file, whichever option selects it.
row_dry_runs() {
  local option status
  for option in -n --dry-run --check -qn -nv; do
    [ "$option" = --check ] && status=1 || status=0
    rm -f Cargo.lock
    run $status upgrade $option
    shown
    [ ! -e Cargo.lock ] || fail "upgrade $option: Cargo.lock is made"
    run $status set-version $option 0.2.0
    [ ! -e Cargo.lock ] || fail "set-version $option: Cargo.lock is made"
    sed 's/name = "a"/name = "b"/' "$room/first/Cargo.lock" > Cargo.lock
    cp Cargo.lock "$room/begun.lock"
    run $status upgrade $option
    run $status set-version $option 0.2.0
    same "$room/begun.lock" Cargo.lock
  done
  same "$room/first/Cargo.toml" Cargo.toml
}
# Arguments after `--`.
row_dashes() {
  run 0 upgrade -n --
  shown
  run 0 set-version -- 1.0.0
  has Cargo.toml 'version = "1.0.0"'
  run 0 set-version --bump minor --
  has Cargo.toml 'version = "1.1.0"'
}
# 2,000 packages in a lock file of 5,000: the packages of the calls are looked up in one pass.
row_many_packages() {
  python3 "$here/tools/cargo_checks/many.py" "$room/many" 5000 2000 || exit 1
  export CARGO="$room/many/cargo" CARGO_HOME="$room/many"
  cd "$room/many/ws" || exit 1
  local status=0 TIMEFORMAT='%U %S'
  { time cargo-upgrade upgrade > "$room/out" 2> "$room/err" || status=$?; } 2> "$room/took"
  unset CARGO
  [ "$status" = 0 ] || fail "status $status"
  grep -c -e '^--package$' "$room/many/update" | grep -q '^2000$' || fail "$(grep -c -e --package "$room/many/update") packages"
  # (time of processors, since other checks run beside this one)
  awk '{ exit !($1 + $2 < 8) }' "$room/took" || fail "user and system: $(cat "$room/took")"
}

# set-version --locked: checked before anything is written.
row_locked_stale() {
  sed -i 's/^dep = .*/dep = "1.2"/' Cargo.toml
  cp Cargo.toml "$room/begun.toml"
  run 1 set-version --locked 0.2.0
  same "$room/begun.toml" Cargo.toml
  same "$room/first/Cargo.lock" Cargo.lock
  rm Cargo.lock
  run 1 set-version --locked --bump minor
  same "$room/begun.toml" Cargo.toml
  [ ! -e Cargo.lock ] || fail 'Cargo.lock is made'
  run 1 set-version --locked -n 0.2.0
}
row_locked_fits() {
  run 1 set-version --locked 0.2.0
  has Cargo.toml 'version = "0.2.0"'
  same "$room/first/Cargo.lock" Cargo.lock
  unfit "--locked"
  cp "$room/first/Cargo.toml" Cargo.toml
  run 0 set-version --locked 0.1.0
}
row_set_version_locks() {
  noted 0 set-version 0.2.0
  locks a 0.2.0
  locks dep 1.0.0
}
# cargo updates the lock file only if a version changed.
row_set_version_unchanged() {
  noted 0 set-version 0.1.0
  [ "$(wc -l < "$room/calls")" = 1 ] || fail "$(cat "$room/calls")"
}
# If cargo fails, the status is 1, and the message says that the manifests are written.
row_set_version_unresolved() {
  broken_cargo '*metadata*--no-deps*) ;; *metadata*'
  broken 1 set-version 0.2.0
  has Cargo.toml 'version = "0.2.0"'
  unfit 'out of luck'
}
# A workspace that cargo resolves, and then refuses to describe: its lock file is up to date.
row_set_version_two_names() {
  begins 'dep = "1.0"
again = { package = "dep", version = "1.0" }'
  ! cargo metadata --format-version 1 --all-features > "$room/log" 2>&1 || fail 'cargo takes two names for a package'
  run 0 set-version 0.2.0
  has Cargo.toml 'version = "0.2.0"'
  locks a 0.2.0
  says 'note: Cargo.lock fits the manifests all the same'
  sed -i 's/"1.0"/"1.9"/' Cargo.toml
  run 1 set-version 0.3.0
  unfit 'dep = "\^1.9"'
}
# A member without `package.version` is an error that names its file and the option that leaves it out; nothing is
# written.
row_member_without_version() {
  mkdir -p b/src
  touch b/src/lib.rs
  printf '[package]\nname = "b"\nedition = "2021"\n' > b/Cargo.toml
  printf '\n[workspace]\nmembers = ["b"]\n' >> Cargo.toml
  cargo update -q --workspace --offline || fail 'cargo does not take the workspace'
  cp -R . "$room/user/begun"
  run 1 set-version --workspace 0.2.0
  says_once '^Error: '
  says "$room/ws/b/Cargo.toml"
  says '--exclude b'
  diff -r "$room/user/begun" . > "$room/log" || fail "$(cat "$room/log")"
  run 0 set-version --workspace --exclude b 0.2.0
  has Cargo.toml 'version = "0.2.0"'
  same "$room/user/begun/b/Cargo.toml" b/Cargo.toml
  locks a 0.2.0
}
row_no_manifest() {
  cd "$room/user" || exit 1
  run 1 set-version 0.2.0
  run 1 upgrade
}
# Statuses of a check: 1 for changes, 0 for none, 2 for usage.
row_statuses() {
  run 1 upgrade --check
  run 0 upgrade
  run 0 upgrade --check
  run 2 upgrade --wrong
  run 1 set-version --check 0.2.0
  run 0 set-version --check 0.1.0
  run 2 set-version --wrong
  run 2 upgrade --pinned maybe
}
# With --to-lockfile requirements are raised to the versions of Cargo.lock, and no call changes it.
row_to_lockfile() {
  begins 'dep = "1.0"
other = "0.2.0"' other@0.2.0
  noted 0 upgrade --to-lockfile
  has Cargo.toml 'dep = "1.2"'
  has Cargo.toml 'other = "0.2.0"'
  same "$room/begun.lock" Cargo.lock
  run 0 upgrade --to-lockfile --check
}
# A missing Cargo.lock is an error of a dry run; else cargo makes it first.
row_to_lockfile_without_one() {
  rm Cargo.lock
  run 1 upgrade -n --to-lockfile
  says Cargo.lock
  same "$room/first/Cargo.toml" Cargo.toml
  [ ! -e Cargo.lock ] || fail 'Cargo.lock is made'
  run 0 upgrade --to-lockfile
  raised
}
# Calls have --offline only if the user gave it.
row_printed_is_run() {
  noted 0 upgrade
  updates | grep -q -e --package || fail 'no call'
  ! updates | grep -q -e --offline || fail 'a call has --offline'
  printed_is_run
}
row_printed_is_run_git() {
  begins "third = \"1.0\"
$git_dependency }" third@1.0.0 dep@1.0.0
  noted 0 upgrade
  printed_is_run
}
row_printed_is_run_offline() {
  noted 0 upgrade -n
  cargo fetch -q
  sed -i 's/"1.0"/"1.0.0"/' Cargo.toml
  : > "$room/calls"
  noted 0 upgrade --offline -p dep@1.0.0 -p other@0.2.0
  printed_is_run
}

all_rows
