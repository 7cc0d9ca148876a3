#!/usr/bin/env bash
# cargo_bounds.sh PROGRAM   what `cargo upgrade` leaves in Cargo.lock where an age, a hold or a level bounds the versions: no
# package that it changed is beyond the bound, and what cargo does not set back is an error. With real cargo over loopback
# registries.
# shellcheck source-path=SCRIPTDIR source=../cargo_checks/lib.sh
. "$(dirname "$0")/../cargo_checks/lib.sh"
begin "$1"
repository "$room/repo"
bound=2025-01-01T00:00:00Z

# The project of a row: dependencies, then packages that are locked at these versions.
begins() { # DEPENDENCIES [NAME@VERSION ..]
  rm -rf ./*
  project . "$1"
  shift
  for package; do cargo update -q --precise "${package#*@}" "${package%@*}" 2> /dev/null || fail "no $package"; done
  cargo fetch -q
  cp Cargo.toml "$room/begun.toml"
  cp Cargo.lock "$room/begun.lock"
}

# A raised requirement is locked at the version that was chosen for it, and not at a younger one.
row_age_of_a_raised_crate() {
  begins 'aged = "1.0.0"' aged@1.0.0
  run 0 upgrade --published-before $bound
  has Cargo.toml 'aged = "1.1.0"'
  locks aged 1.1.0
}
# The same for an age in days, and for that of a policy.
row_age_in_days() {
  begins 'aged = "1.0.0"' aged@1.0.0
  run 0 upgrade --min-age $(( ($(date +%s) - $(date -d $bound +%s)) / 86400 ))
  locks aged 1.1.0
}
row_age_of_a_policy() {
  begins 'aged = "1.0.0"' aged@1.0.0
  printf '[package.metadata.cargo-edit]\nmin-age = %s\n' $(( ($(date +%s) - $(date -d $bound +%s)) / 86400 )) >> Cargo.toml
  run 0 upgrade
  locks aged 1.1.0
}
# A crate that only another one needs is not locked younger either.
row_age_of_a_needed_crate() {
  begins 'needs = "1.0.0"' needs@1.0.0
  run 0 upgrade --level patch --published-before $bound
  locks needs 1.0.0
  begins 'needs = "=1.1.0"' needs@1.1.0 aged@1.0.0
  sed -i 's/=1.1.0/1.0.9/' Cargo.toml
  run 0 upgrade -p needs --exclude young --published-before 2024-06-15T00:00:00Z
  has Cargo.toml 'needs = "1.1.0"'
  locks needs 1.1.0
  locks aged 1.1.0
}
# What was locked before the run stays as it is.
row_untouched() {
  begins 'aged = "1.0.0"
other = "0.2.0"' aged@1.2.0 other@0.2.0
  run 0 upgrade --published-before $bound
  locks aged 1.2.0
}
# A hold of the policy holds in the lock file too.
row_hold() {
  begins 'aged = "1.0.0"' aged@1.0.0
  printf '[package.metadata.cargo-edit.crates.aged]\nhold = "<=1.0.9"\n' >> Cargo.toml
  run 0 upgrade
  has Cargo.toml 'aged = "1.0.9"'
  locks aged 1.0.9
}
row_hold_of_a_needed_crate() {
  begins 'needs = "=1.0.0"'
  sed -i 's/=1.0.0/1.0.0/' Cargo.toml
  printf '[package.metadata.cargo-edit.crates.aged]\nhold = "<1.1"\n[package.metadata.cargo-edit.crates.needs]\nhold = "<1.2"\n' >> Cargo.toml
  run 0 upgrade
  locks needs 1.1.0
  locks aged 1.0.9
}
# A level bounds raised requirements, and so what is locked for them.
row_level() {
  begins 'aged = "1.0.0"' aged@1.0.0
  run 0 upgrade --level patch
  has Cargo.toml 'aged = "1.0.9"'
  locks aged 1.0.9
}
# Without a bound the newest version is locked, and cargo is called no oftener.
row_no_bound() {
  begins 'aged = "1.0.0"' aged@1.0.0
  noted 0 upgrade
  locks aged 1.2.0
  [ "$(grep -c -E '^cargo (update|metadata)' "$room/calls")" -le 4 ] || fail "$(cat "$room/calls")"
}
# A commit has no time of publication, so git packages stay under a bound of age.
row_git() {
  begins "aged = \"1.0.0\"
local = { git = \"file://$room/repo\" }" aged@1.0.0
  git -C "$room/repo" -c user.name=a -c user.email=a@b.invalid commit -q --allow-empty -m later
  cp Cargo.lock "$room/log"
  run 0 upgrade --published-before $bound
  locks aged 1.1.0
  [ "$(grep -c 'git+' Cargo.lock)" = "$(grep -c 'git+' "$room/begun.lock")" ] || fail 'the git package is gone'
  [ "$(grep 'git+' Cargo.lock)" = "$(grep 'git+' "$room/begun.lock")" ] || fail 'the git package is updated'
}
# A package of another registry.
row_other_registry() {
  begins 'apart = { version = "1.0.0", registry = "two" }' apart@1.0.0
  sed -i 's/"1.0.0"/"0.9.0"/' Cargo.toml
  sed -i 's/0.9.0/1/' Cargo.toml
  rm Cargo.lock
  printf 'aged = "1.0.0"\n' >> Cargo.toml
  run 0 upgrade --published-before $bound
  locks apart 1.0.0
  locks aged 1.1.0
}
# Where nothing is old enough, the run ends with an error that names the package, its version, when that was published, and
# what requires it.
row_nothing_is_old_enough() {
  begins 'needs = "=1.0.0"'
  sed -i 's/=1.0.0/1.0.0/' Cargo.toml
  run 1 upgrade --published-before $bound
  has Cargo.toml 'needs = "1.2.0"'
  says_once '^Error: the manifests are written'
  says_like '^  young 1\.0\.0, published at 2026-02-01T00:00:00Z, required by needs 1\.2\.0$'
}
# Where cargo refuses to set a package back, the same.
row_cargo_refuses() {
  begins 'aged = "1.0.0"' aged@1.0.0
  cat > "$room/broken" << BROKEN
#!/bin/sh
case "\$*" in *--precise*) echo 'error: out of luck' >&2; exit 101 ;; esac
exec "$cargo" "\$@"
BROKEN
  chmod 755 "$room/broken"
  local status=0
  CARGO="$room/broken" cargo-upgrade upgrade --published-before $bound > "$room/out" 2> "$room/err" || status=$?
  [ "$status" = 1 ] || fail "status $status"
  says 'out of luck'
  says_once '^Error: the manifests are written'
  says_like '^  aged 1\.2\.0, published at 2026-01-01T00:00:00Z, required by a 0\.1\.0$'
}
# A cargo whose option for a time of publication is stable gets it.
row_publish_time() {
  begins 'aged = "1.0.0"' aged@1.0.0
  cat > "$room/newer" << NEWER
#!/bin/sh
case "\$*" in
  'update --help') echo '      --publish-time <TIME>  Latest publish time allowed for registry packages' ;;
  *--publish-time*)
    printf '%s\n' "\$*" >> "$room/calls"
    for it; do
      shift
      case \$it in --publish-time) skip=yes ;; *) [ -n "\${skip-}" ] || set -- "\$@" "\$it"; skip='' ;; esac
    done
    exec "$cargo" "\$@" ;;
  *) exec "$cargo" "\$@" ;;
esac
NEWER
  chmod 755 "$room/newer"
  CARGO="$room/newer" cargo-upgrade upgrade --published-before $bound > "$room/out" 2> "$room/err" || fail "status $?"
  has "$room/calls" "--publish-time $bound"
  locks aged 1.1.0
}
# A requirement that the user gave is not bounded, and what is locked for it neither.
row_explicit() {
  begins 'aged = "1.0.0"' aged@1.0.0
  run 0 upgrade -p aged@1.2.0 --published-before $bound
  has Cargo.toml 'aged = "1.2.0"'
  locks aged 1.2.0
}
# Offline, a package whose entry is not cached is named in a warning.
row_offline() {
  begins 'needs = "1.0.0"' needs@1.1.0 aged@1.0.0
  run 0 upgrade -n
  cp Cargo.toml "$room/tmp/now"
  begins 'needs = "=1.0.0"'
  sed -i 's/=1.0.0/1.0.0/' Cargo.toml
  run 0 upgrade --offline --published-before 2024-06-15T00:00:00Z
  locks needs 1.1.0
  says_like '^warning: .*aged'
}
# Nothing of it in a dry run.
row_dry_run() {
  begins 'aged = "1.0.0"' aged@1.0.0
  noted 0 upgrade -n --published-before $bound
  same "$room/begun.lock" Cargo.lock
  same "$room/begun.toml" Cargo.toml
}

all_rows
