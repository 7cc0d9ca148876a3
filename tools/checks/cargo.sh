#!/usr/bin/env bash
# cargo.sh PROGRAM [FILE]   `cargo upgrade` and `cargo set-version` by the scripts of bin/, with real cargo, over
# registries on the loopback interface (tools/cargo_checks/registry.py): two sparse ones with a crate of one name, one
# as a folder, and a workspace of five members with inherited, renamed, target, git and path entries. FILE gets what
# the runs print.
# shellcheck source-path=SCRIPTDIR source=../cargo_checks/lib.sh
. "$(dirname "$0")/../cargo_checks/lib.sh"
begin "$1"
set -e
mkdir "$room/ws" "$room/five"

package() { # folder, name, the rest of its manifest
  mkdir -p "$1/src"
  touch "$1/src/lib.rs"
  printf '[package]\nname = "%s"\nversion.workspace = true\nedition = "2021"\n\n%s\n' "$2" "$3" > "$1/Cargo.toml"
}
repository "$room/repo"
cd "$room/ws"
printf '[workspace]\nmembers = ["a", "b", "c", "d", "e"]\nresolver = "2"\n\n[workspace.package]\nversion = "0.1.0"\n\n%s\n' \
  '[workspace.dependencies]
dep = "1.0"' > Cargo.toml
package a a '[dependencies]
dep.workspace = true'
package b b '[dependencies]
d2 = { package = "other", version = "0.2.0" } # renamed'
package c c "[target.'cfg(unix)'.dependencies]
third = \"1.0\""
package d d "[dependencies]
a = { path = \"../a\", version = \"0.1.0\" }
local = { git = \"file://$room/repo\" }"
package e e '[dependencies]
dep = { version = "2.0", registry = "two" }
filed = { version = "1.0", registry = "files" }'
cargo generate-lockfile 2> /dev/null
cargo update --precise 1.0.0 dep@1.2.3 2> /dev/null
cp -R . "$room/five"

# Replaces what differs between runs, such as paths and ports, with fixed names.
named() { sed -e "s|$room/ws|/ws|g" -e "s|$base|http://registry|g" -e "s|$room|/room|g"; }

step=
fails() { echo "cargo.sh: $step: $1"; sed 's/^/  /' "$room/out" "$room/err"; exit 1; }
runs() { # the wanted status, the arguments of cargo
  local wanted=$1 status=0
  shift
  step="cargo $*"
  : > "$room/requests"
  cargo "$@" > "$room/out.raw" 2> "$room/err.raw" || status=$?
  named < "$room/out.raw" > "$room/out"
  # (the messages of cargo itself on a registry or a lock file are left out)
  named < "$room/err.raw" | grep -v -E '^note: pass |^ +(Updating (crates|git|`|http|file)|Locking|Adding|Downgrading|Removing|Downloading|Downloaded|Updating [a-z0-9]+ v|Unchanged|Blocking)' \
    > "$room/err" || true
  printf '$ cargo %s\n' "$*" | cat - "$room/err" "$room/out" >> "$room/transcript"
  [ "$status" = 0 ] || echo "(status $status)" >> "$room/transcript"
  echo >> "$room/transcript"
  [ "$status" = "$wanted" ] || fails "status $status in place of $wanted"
}
prints() { diff - "$room/out" > "$room/diff" || fails "$(cat "$room/diff")"; }
warns() { # standard error is the given text, but for the warnings on registries, which `not_fetched` checks
  sed '/^warning: .*sparse+http:/d' "$room/err" > "$room/warned"
  diff - "$room/warned" > "$room/diff" || fails "$(cat "$room/diff")"
}
not_fetched() { # one warning for each of the two registries names the crates without an entry, with the text $1
  local registry crates
  while read -r registry crates; do
    grep -E "^warning: .*sparse\+http://registry/$registry/.*[ (]$crates(\)| \(.*)?\$" "$room/err" | grep -q -E -- "$1" ||
      fails "no warning that names the registry $registry, \`$1\` and $crates"
  done << END
one dep, other, third
two dep
END
  [ "$(grep -c '^warning: .*sparse+http:' "$room/err")" -eq 2 ] || fails 'not one warning for each registry'
}
checking() { # the line on standard error for each manifest whose dependencies are checked
  for it in 'virtual workspace' a b c d e; do printf '    Checking %s'"'"'s dependencies\n' "$it"; done
}
calls() { printf "         Run cargo update --manifest-path /ws/Cargo.toml %s${offline:+ --offline}\n" "$@"; }
offline=
others() { printf 'note: Re-run with `--%s\n' "$@"; }
pinned='pinned` to upgrade pinned version requirements'
incompatible='incompatible` to upgrade incompatible version requirements'
verbose='verbose` to show more dependencies'
git='--package local@0.1.0'
# (the resolution before these calls takes dep to 1.2.3)
raised='--aggressive --package dep@1.2.3 --package dep@2.4.0 --package filed@1.3.0 --package other@0.2.5 --package third@1.1.0'
raises() { # the tables of a whole upgrade
  prints << END
name old req compatible latest new req note        
==== ======= ========== ====== ======= ====        
dep  1.0     1.2.3      2.0.0  1.2     incompatible
name       old req compatible latest new req note  
====       ======= ========== ====== ======= ====  
other (d2) 0.2.0   0.2.5      0.3.0  0.2.5   pinned
name  old req compatible latest new req
====  ======= ========== ====== =======
third 1.0     1.1.0      1.1.0  1.1    
name  old req compatible latest new req note        
====  ======= ========== ====== ======= ====        
dep   2.0     2.4.0      3.0.0  2.4     incompatible
filed 1.0     1.3.0      1.3.0  1.3                 
END
}
has() { grep -q -F -- "$2" "$1" || fails "no $2 in $1"; }
locks() { # the versions of dep, parted by blanks; third 1.1.0, which needs dep 1, is locked all along, and so is the rest
  printf 'dep %s\n' $1 > "$room/wanted"
  printf '%s\n' 'filed 1.3.0' 'other 0.2.5' 'third 1.1.0' >> "$room/wanted"
  awk '{ gsub(/"/, "") } $1 == "name" { name = $3 } $1 == "version" && name ~ /^(dep|filed|other|third)$/ { print name, $3 }' \
    Cargo.lock | sort | diff "$room/wanted" - > "$room/diff" || fails "$(cat "$room/diff")"
}
unchanged() { diff -r "$room/${1:-five}" . > "$room/out" || fails 'a file changed'; }
again() { rm -rf ./*; cp -R "$room/five/." .; }
requires() { # the requirements of dep, other, third, the second dep, filed
  has Cargo.toml "dep = \"$1\""
  has b/Cargo.toml "d2 = { package = \"other\", version = \"$2\" } # renamed"
  has c/Cargo.toml "third = \"$3\""
  has e/Cargo.toml "dep = { version = \"$4\", registry = \"two\" }"
  has e/Cargo.toml "filed = { version = \"$5\", registry = \"files\" }"
}

held() { printf '  git: local\n  latest: %s\n' "${1:-a}"; }
whole() { checking; others "$pinned" "$incompatible" "$verbose"; held; calls "$git" "$raised"; }
runs 0 upgrade --dry-run
raises
{ checking; others "$pinned" "$incompatible" "$verbose"; held; echo 'warning: aborting upgrade due to dry run'; } | warns
unchanged
runs 1 upgrade --locked
raises
{
  checking
  printf '%s\n' 'Error: cannot upgrade due to `--locked`' '  at /ws/Cargo.toml' '  cause: manifests that would change: 4' \
    '  help: leave out `--locked` to write them'
} | warns
unchanged
runs 0 upgrade
raises
whole | warns
requires 1.2 0.2.5 1.1 2.4 1.3
has a/Cargo.toml 'dep.workspace = true'
has d/Cargo.toml 'a = { path = "../a", version = "0.1.0" }'
locks '1.2.3 2.4.0'
has "$room/requests" '/two/3/d/dep unchanged'
[ "$(wc -l < "$room/requests")" -eq 4 ] || fails 'each entry is requested once'
mkdir "$room/second"
cp -R . "$room/second"
cargo fetch -q
runs 0 upgrade --offline
prints < /dev/null
{
  checking
  others "$pinned" "$incompatible" "$verbose"
  printf '  git: local\n  incompatible: dep\n  latest: a, filed, third\n  pinned: other (d2)\n'
} | warns
unchanged second
[ ! -s "$room/requests" ] || fails 'a request'
while IFS=: read -r mode answer; do
  echo "$mode" > "$room/mode"
  again
  if [ "$mode" = partial ]; then find "$cache" -type f -exec sed -i '1s/^ETag: .*/ETag: /' {} +; fi
  CARGO_HTTP_TIMEOUT=1 runs 0 upgrade < /dev/null
  raises
  whole | warns
  not_fetched "$answer"
  requires 1.2 0.2.5 1.1 2.4 1.3
  locks '1.2.3 2.4.0'
done << END
down:status 503
slow 3:curl.? 28
partial:curl.? 18
END
rm "$room/mode"
rm -rf "$cache"
again
runs 0 upgrade --offline
prints << END
name  old req compatible latest new req
====  ======= ========== ====== =======
filed 1.0     1.3.0      1.3.0  1.3    
END
offline=yes
{ checking; others "$verbose"; held '4 packages'; calls "$git" '--aggressive --package filed@1.3.0'; } | warns
offline=
not_fetched cached
requires 1.0 0.2.0 1.0 2.0 1.3
locks '1.0.0 2.4.0'
again
runs 0 upgrade -i
prints << END
name old req compatible latest new req
==== ======= ========== ====== =======
dep  1.0     1.2.3      2.0.0  2.0    
name       old req compatible latest new req note  
====       ======= ========== ====== ======= ====  
other (d2) 0.2.0   0.2.5      0.3.0  0.2.5   pinned
name  old req compatible latest new req
====  ======= ========== ====== =======
third 1.0     1.1.0      1.1.0  1.1    
name  old req compatible latest new req
====  ======= ========== ====== =======
dep   2.0     2.4.0      3.0.0  3.0    
filed 1.0     1.3.0      1.3.0  1.3    
END
{
  checking
  others "$pinned" "$verbose"
  held
  calls "$git" '--aggressive --package dep@1.0.0 --package dep@2.0.0 --package dep@3.0.0 --package filed@1.3.0 --package other@0.2.5 --package third@1.1.0'
} | warns
requires 2.0 0.2.5 1.1 3.0 1.3
locks '1.2.3 2.0.0 3.0.0'
again
runs 0 upgrade -p third@1.1.0
prints << END
name  old req compatible latest new req
====  ======= ========== ====== =======
third 1.0     1.1.0      1.1.0  1.1.0  
END
{ checking; others "$verbose"; echo '  excluded: 5 packages'; calls '--precise 1.1.0 --package third@1.1.0'; } | warns
requires 1.0 0.2.0 1.1.0 2.0 1.0
locks '1.0.0 2.4.0'
again
runs 0 upgrade --exclude dep
prints << END
name       old req compatible latest new req note  
====       ======= ========== ====== ======= ====  
other (d2) 0.2.0   0.2.5      0.3.0  0.2.5   pinned
name  old req compatible latest new req
====  ======= ========== ====== =======
third 1.0     1.1.0      1.1.0  1.1    
name  old req compatible latest new req
====  ======= ========== ====== =======
filed 1.0     1.3.0      1.3.0  1.3    
END
{
  checking
  others "$pinned" "$verbose"
  echo '  excluded: dep'
  held
  calls "$git" '--aggressive --package filed@1.3.0 --package other@0.2.5 --package third@1.1.0'
} | warns
requires 1.0 0.2.5 1.1 2.0 1.3
locks '1.2.3 2.4.0' # the dependency of third, which is brought along
again
runs 0 set-version --bump minor --workspace
prints < /dev/null
warns << END
   Upgrading workspace version from 0.1.0 to 0.2.0
   Upgrading a from 0.1.0 to 0.2.0 (inherited from workspace)
    Updating d's dependency from 0.1.0 to 0.2.0
   Upgrading b from 0.1.0 to 0.2.0 (inherited from workspace)
   Upgrading c from 0.1.0 to 0.2.0 (inherited from workspace)
   Upgrading d from 0.1.0 to 0.2.0 (inherited from workspace)
   Upgrading e from 0.1.0 to 0.2.0 (inherited from workspace)
END
has Cargo.toml 'version = "0.2.0"'
has d/Cargo.toml 'a = { path = "../a", version = "0.2.0" }'
grep -A 1 '^name = "a"' Cargo.lock | grep -q '^version = "0.2.0"' || fails 'a is not locked'
[ $# -lt 2 ] || cp "$room/transcript" "$2"
