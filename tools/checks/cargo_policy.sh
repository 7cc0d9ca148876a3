#!/usr/bin/env bash
# cargo_policy.sh PROGRAM   the policy in the root manifest's metadata and `--unify`, with real cargo over loopback
# registries: what is written in the manifests and in Cargo.lock.
# shellcheck source-path=SCRIPTDIR source=../cargo_checks/lib.sh
. "$(dirname "$0")/../cargo_checks/lib.sh"
begin "$1"

# Adds a policy to the manifest of the package, which the row then compares with.
policy() { # LINES
  printf '\n%s\n' "$1" >> Cargo.toml
  cp Cargo.toml "$room/tmp/policy.toml"
}
unchanged() {
  same "$room/tmp/policy.toml" Cargo.toml
  same "$room/first/Cargo.lock" Cargo.lock
}
# Makes a workspace of the members `a` and `b` with these dependencies.
workspace() { # DEPENDENCIES_OF_A DEPENDENCIES_OF_B MORE
  local member
  rm -rf src Cargo.toml Cargo.lock
  for member in a b; do
    mkdir -p "$member/src"
    touch "$member/src/lib.rs"
  done
  printf '[package]\nname = "a"\nversion = "0.1.0"\nedition = "2021"\n\n[dependencies]\n%s\n' "$1" > a/Cargo.toml
  printf '[package]\nname = "b"\nversion = "0.1.0"\nedition = "2021"\n\n[dependencies]\n%s\n' "$2" > b/Cargo.toml
  printf '[workspace]\nmembers = ["a", "b"]\nresolver = "2"\n%s\n' "$3" > Cargo.toml
  cargo generate-lockfile -q
}

row_a_hold() {
  policy '[package.metadata.cargo-edit.crates.dep]
hold = "1"
reason = "2.0 breaks our derive"'
  run 0 upgrade --incompatible
  has Cargo.toml 'dep = "1.2"'
  has Cargo.toml 'other = "0.3.0"'
  says 'note: dep is held at 1: 2.0 breaks our derive'
  locks dep 1.2.3
  locks other 0.3.0
}
row_no_policy() {
  policy '[package.metadata.cargo-edit.crates.dep]
hold = "1"'
  run 0 upgrade --incompatible --no-policy
  has Cargo.toml 'dep = "2.0"'
  silent 'is held at'
}
row_excluded_crates() {
  policy '[package.metadata.cargo-edit]
exclude = ["dep"]'
  run 0 upgrade
  has Cargo.toml 'dep = "1.0"'
  has Cargo.toml 'other = "0.2.5"'
}
row_incompatible_upgrades() {
  policy '[package.metadata.cargo-edit]
incompatible = "allow"'
  run 0 upgrade
  has Cargo.toml 'dep = "2.0"'
  has Cargo.toml 'other = "0.3.0"'
  locks dep 2.0.0
}
row_an_option_before_the_policy() {
  policy '[package.metadata.cargo-edit]
incompatible = "allow"'
  run 0 upgrade --incompatible ignore
  raised
}
row_a_level() {
  policy '[package.metadata.cargo-edit]
level = "patch"'
  run 0 upgrade
  has Cargo.toml 'dep = "1.0"'
  has Cargo.toml 'other = "0.2.5"'
}
row_a_level_of_a_crate() {
  policy '[package.metadata.cargo-edit]
incompatible = "allow"
crates.dep.level = "minor"'
  run 0 upgrade
  has Cargo.toml 'dep = "1.2"'
  has Cargo.toml 'other = "0.3.0"'
}
# The age counts back from the time of this run.
row_an_age() {
  sed -i '/"1.2.3"/s/}$/, "pubtime": "2020-01-01T00:00:00Z"}/' "$room/served/one/3/d/dep"
  sed -i '/"0.2.5"/s/}$/, "pubtime": "2999-01-01T00:00:00Z"}/' "$room/served/one/ot/he/other"
  policy '[package.metadata.cargo-edit]
min-age = 14'
  run 0 upgrade
  has Cargo.toml 'dep = "1.2"'
  has Cargo.toml 'other = "0.2.0"'
  says 'note: younger versions were held back for 1 crate: other'
}
row_an_unknown_key() {
  policy '[package.metadata.cargo-edit]
exlude = ["dep"]'
  run 1 upgrade
  says 'Error: Invalid policy'
  says 'Cargo.toml:12:1'
  unchanged
}
row_the_root_of_a_workspace() {
  workspace 'dep = "1.0"' 'other = "0.2.0"' '
[workspace.metadata.cargo-edit]
exclude = ["other"]'
  run 0 upgrade
  has a/Cargo.toml 'dep = "1.2"'
  has b/Cargo.toml 'other = "0.2.0"'
  cd b || exit 1
  run 0 upgrade
  has Cargo.toml 'other = "0.2.0"'
}
# The tables of members are not read: this one has an unknown key.
row_the_policy_of_a_member() {
  workspace 'dep = "1.0"

[package.metadata.cargo-edit]
unknown = 1' 'other = "0.2.0"' ''
  run 0 upgrade
  has a/Cargo.toml 'dep = "1.2"'
  has b/Cargo.toml 'other = "0.2.5"'
}
row_one_requirement() {
  workspace 'dep = "1"' 'dep = "1.2.3"' ''
  run 0 upgrade
  has a/Cargo.toml 'dep = "1"'
  run 0 upgrade --unify
  has a/Cargo.toml 'dep = "1.2.3"'
  has b/Cargo.toml 'dep = "1.2.3"'
  locks dep 1.2.3
}
row_two_ranges() {
  workspace 'dep = "1"' 'dep = "2"' ''
  run 0 upgrade --unify
  has a/Cargo.toml 'dep = "1"'
  has b/Cargo.toml 'dep = "2"'
  says 'note: incompatible ranges are required for 1 crate: dep'
}
all_rows
