# shellcheck shell=bash disable=SC2034
# Sourced by tools/checks/cargo_*.sh: the commands, installed from the tarball of tools/dist.sh, real cargo, and the
# loopback registries of registry.py. A check is a function `row_NAME`; `all_rows` runs each by itself, prints which
# failed, and has status 1 if one did. CARGO_CHECK_SCRIPTS=DIR replaces the installed scripts by those of DIR (and of
# DIR/../share/cargo-edit), to see which rows other scripts fail; ROWS='NAME ..' runs these rows only.
set -u -o pipefail
export LC_ALL=C
self=$(basename "$0")
here=$(cd "$(dirname "$0")/../.." && pwd)
for tool in cargo curl git openssl python3; do
  command -v "$tool" > /dev/null || { echo "$self: failed, there is no $tool on PATH"; exit 1; }
done
room=$(mktemp -d)
server=
leave() {
  touch "$room/stop"
  [ -z "$server" ] || wait "$server"
  rm -rf "$room"
}
trap leave EXIT

# Installs the commands around the program, starts the registries, and makes the projects that rows begin with.
begin() { # PROGRAM
  mkdir "$room/home" "$room/alone" "$room/fake" "$room/tmp" "$room/user"
  "$here/tools/dist.sh" "$room" "$1" > "$room/log" 2>&1 || { cat "$room/log"; exit 1; }
  tar -xzf "$room"/cargo-edit-*.tar.gz -C "$room/alone"
  (cd "$room"/alone/* && ./install.sh "$room/prefix") > "$room/log" 2>&1 || { cat "$room/log"; exit 1; }
  if [ -n "${CARGO_CHECK_SCRIPTS-}" ]; then
    cp "$CARGO_CHECK_SCRIPTS"/cargo-* "$room/prefix/bin"
    cp "$CARGO_CHECK_SCRIPTS"/../share/cargo-edit/*.sh "$room/prefix/share/cargo-edit" 2> /dev/null || true
  fi
  python3 "$here/tools/cargo_checks/registry.py" "$room" &
  server=$!
  for _ in $(seq 100); do [ -f "$room/port" ] || sleep 0.1; done
  base=http://127.0.0.1:$(cat "$room/port")
  safe=https://127.0.0.1:$(cat "$room/tls-port")
  other=http://127.0.0.1:$(cat "$room/other-port")
  [ -z "${HOME-}" ] || [ ! -d "$HOME/.rustup" ] || export RUSTUP_HOME="${RUSTUP_HOME:-$HOME/.rustup}"
  cargo=$(command -v cargo)
  unset http_proxy https_proxy HTTPS_PROXY ALL_PROXY all_proxy CARGO_TERM_COLOR
  export HOME="$room/user" CARGO_HOME="$room/home" CARGO_NET_GIT_FETCH_WITH_CLI=true CARGO_NET_RETRY=0 TMPDIR="$room/tmp"
  export PATH="$room/prefix/bin:$PATH" NO_PROXY=127.0.0.1 no_proxy=127.0.0.1
  unset XDG_CACHE_HOME
  cache=$HOME/.cache/cargo-edit/index
  curl -q -sf -o "$room/log" "$base/one/config.json" || { echo "$self: failed, the loopback interface does not answer"; exit 1; }
  cargo --version > "$room/log" 2>&1 || { echo "$self: failed, cargo does not run"; cat "$room/log"; exit 1; }
  settings="[source.crates-io]
replace-with = \"one\"

[source.one]
registry = \"sparse+$base/one/\"

[registries.two]
index = \"sparse+$base/two/\"

[registries.files]
index = \"file://$room/files\""
  echo "$settings" > "$CARGO_HOME/config.toml"
  # cargo that notes each of its calls of `update` and `metadata`
  cat > "$room/fake/cargo" << NOTED
#!/bin/sh
printf 'cargo %s\n' "\$*" >> "$room/calls"
exec "$cargo" "\$@"
NOTED
  chmod 755 "$room/fake/cargo"
  cp -R "$room/served" "$room/served.first"
  project "$room/first" 'dep = "1.0"
other = "0.2.0"'
  (cd "$room/first" && cargo update -q --precise 1.0.0 dep && cargo update -q --precise 0.2.0 other && cargo fetch -q) || exit 1
}

# Makes a package `a` of these dependencies, with its Cargo.lock.
project() { # DIR DEPENDENCIES [MORE]
  mkdir -p "$1/src"
  touch "$1/src/lib.rs"
  printf '[package]\nname = "a"\nversion = "0.1.0"\nedition = "2021"\n\n[dependencies]\n%s\n%s\n' "$2" "${3-}" > "$1/Cargo.toml"
  (cd "$1" && cargo generate-lockfile -q) || exit 1
}

# A git repository of a package `local`.
repository() { # DIR
  project "$1" ''
  sed -i 's/^name = "a"/name = "local"/' "$1/Cargo.toml"
  rm "$1/Cargo.lock"
  git init -q "$1"
  git -C "$1" add .
  git -C "$1" -c user.name=a -c user.email=a@b.invalid commit -q -m local
}

fail() {
  echo "$*"
  [ ! -f "$room/err" ] || cat "$room/out" "$room/err" | tail -n 40 | cut -c 1-300 | sed 's/^/    | /'
  exit 1
}
# Ends a row that this machine does not allow; it is not counted among those that hold.
leave_out() { # REASON
  echo "$*" > "$room/left_out"
  exit 77
}
# A run of cargo in the current folder.
run() { # STATUS ARGUMENTS
  local wanted=$1 status=0
  shift
  cargo "$@" > "$room/out" 2> "$room/err" || status=$?
  [ "$status" = "$wanted" ] || fail "cargo $*: status $status in place of $wanted"
}
# The same by the script alone, with the cargo of the folder fake/.
noted() { # STATUS COMMAND ARGUMENTS
  local wanted=$1 status=0
  shift
  CARGO="$room/fake/cargo" "cargo-$1" "$@" > "$room/out" 2> "$room/err" || status=$?
  [ "$status" = "$wanted" ] || fail "cargo $*: status $status in place of $wanted"
}
says() { # TEXT: on standard error
  grep -q -F -- "$1" "$room/err" || fail "standard error has no \`$1\`"
}
says_like() { # REGULAR EXPRESSION
  grep -q -E -- "$1" "$room/err" || fail "standard error has nothing like \`$1\`"
}
says_once() { # REGULAR EXPRESSION
  [ "$(grep -c -E -- "$1" "$room/err")" = 1 ] || fail "standard error has not one line of \`$1\`"
}
silent() { # REGULAR EXPRESSION: what is nowhere
  ! grep -E -- "$1" "$room/err" "$room/out" > "$room/log" || fail "it says \`$1\`"
}
has() { grep -q -F -- "$2" "$1" || fail "no \`$2\` in $1"; }
lacks() { ! grep -q -F -- "$2" "$1" || fail "\`$2\` is in $1"; }
same() { cmp -s "$1" "$2" || fail "$2 is not as $1"; }
unwritten() { # the files of the project are those that the row began with
  same "$room/first/Cargo.toml" Cargo.toml
  same "$room/first/Cargo.lock" Cargo.lock
}
shown() { # the table has both
  grep -q -E '^dep +1\.0 .* 1\.2 ' "$room/out" && grep -q -E '^other +0\.2\.0 .* 0\.2\.5 ' "$room/out" || fail 'the table has not both'
}
unshown() { ! grep -q -E '^(dep|other) ' "$room/out" || fail 'the table has an entry'; }
raised() { has Cargo.toml 'dep = "1.2"'; has Cargo.toml 'other = "0.2.5"'; }
locked() { # NAME: its versions in Cargo.lock
  awk -v name="$1" '{ gsub(/"/, "") } $1 == "name" { is = $3 == name }
    $1 == "version" && is { printf "%s%s", sep, $3; sep = " " }' Cargo.lock
}
locks() { [ "$(locked "$1")" = "$2" ] || fail "Cargo.lock has $1 $(locked "$1") in place of $2"; }
mode() { echo "$*" > "$room/mode"; }
entry() { printf '%s/sparse+http:%%2F%%2F127.0.0.1:%s%%2F%s%%2F/%s' "$cache" "$(cat "$room/port")" "$1" "$2"; } # REGISTRY PATH
# Ended for want of entries: one error, and one line with these crates.
missing() { # REGULAR EXPRESSION
  says_once '^Error: '
  says_once "$1"
  says --offline
  says --exclude
}
# The body in a cached file: what follows its first line, which has the ETag.
body_of() { # FILE
  [ "$(head -c 6 "$1" 2> /dev/null)" = 'ETag: ' ] || fail "$1 does not begin with an ETag"
  sed 1d "$1"
}
# The cached entries lose their ETags.
forget_etags() { find "$cache" -type f ! -path '*/.run.*' -exec sed -i '1s/^ETag: .*/ETag: /' {} +; }
# What the cache has of the two crates is whole and of the registry.
whole() {
  body_of "$(entry one 3/d/dep)" | cmp -s "$room/served/one/3/d/dep" - || fail 'the entry of dep is not the one of the registry'
  body_of "$(entry one ot/he/other)" | cmp -s "$room/served/one/ot/he/other" - || fail 'the entry of other is not the one of the registry'
}
requests() { if [ -f "$room/requests" ]; then wc -l < "$room/requests"; else echo 0; fi; }
updates() { grep -E '^cargo update ' "$room/calls" || true; }

# Each row in a copy of the first project, with no cache.
all_rows() {
  local it row status failed=0 left=0 count=0 begun
  for row in ${ROWS:-$(declare -F | sed -n 's/^declare -f row_//p')}; do
    for it in ws user tmp mode requests calls out err open served left_out all private walled seen; do rm -rf "${room:?}/$it"; done
    mkdir "$room/user" "$room/tmp"
    cp -R "$room/served.first" "$room/served"
    cp -R "$room/first" "$room/ws"
    echo "$settings" > "$CARGO_HOME/config.toml"
    begun=$(date +%s%N)
    count=$((count + 1))
    status=0
    (cd "$room/ws" && "row_$row") > "$room/verdict" 2>&1 || status=$?
    if [ "$status" = 0 ]; then
      echo "$self: $row: ok ($((($(date +%s%N) - begun) / 1000000)) ms)"
    elif [ "$status" = 77 ] && [ -f "$room/left_out" ]; then
      left=$((left + 1))
      echo "$self: $row: left out, $(cat "$room/left_out")"
    else
      failed=$((failed + 1))
      echo "$self: $row: FAILED"
      sed 's/^/  /' "$room/verdict"
    fi
  done
  echo "$self: $((count - failed - left)) rows hold, $failed do not, $left were left out"
  [ "$failed" = 0 ]
}
