#!/usr/bin/env bash
# cargo_tokens.sh PROGRAM   tokens of registries: where they are looked for and in which order, credential providers, to
# whom they are sent, and that no file, message and list of processes has one; with real cargo beside, which gets the same.
# shellcheck source-path=SCRIPTDIR disable=SC2016 source=../cargo_checks/lib.sh
. "$(dirname "$0")/../cargo_checks/lib.sh"
begin "$1"

# The project depends on `dep` of the registry `corp`, which is `one` and wants the token s3cret.
corp() { # [LINES OF registries.corp]
  printf '[package]\nname = "a"\nversion = "0.1.0"\nedition = "2021"\n\n[dependencies]\n' > Cargo.toml
  printf 'dep = { version = "1.0", registry = "corp" }\n' >> Cargo.toml
  rm -f Cargo.lock
  printf '[registries.corp]\nindex = "sparse+%s/one/"\n%s\n' "$base" "${1-}" > "$CARGO_HOME/config.toml"
  rm -f "$CARGO_HOME"/credentials*
  echo s3cret > "$room/private"
}
global() { printf '[registry]\nglobal-credential-providers = [%s]\n' "$1" >> "$CARGO_HOME/config.toml"; } # PROVIDERS
credentials() { printf '[registries.corp]\ntoken = "%s"\n' "$2" > "$CARGO_HOME/$1"; } # FILE TOKEN
# cargo and this get the crate, or both do not.
both_get() {
  run 0 upgrade -n
  grep -q -E '^dep +1\.0 .* 1\.2 ' "$room/out" || fail 'dep is not raised'
  cargo generate-lockfile -q > "$room/log" 2>&1 || { cat "$room/log"; fail 'cargo does not get it'; }
  rm -rf Cargo.lock "$CARGO_HOME/registry" "$cache"
  nowhere
}
neither_gets() { # what it says
  run 1 upgrade -n
  says "$1"
  missing dep
  ! cargo generate-lockfile -q > "$room/log" 2>&1 || fail 'cargo gets it'
  rm -rf "$CARGO_HOME/registry" "$cache"
  nowhere
}
nowhere() {
  silent s3cret
  ! grep -rl s3cret "$HOME" "$room/tmp" || fail 'a file has the token'
}
# A provider of the protocol: it notes its arguments and the request, and gives the answer.
provider() { # NAME ANSWER
  mkdir -p "$room/providers"
  cat > "$room/providers/$1" << PROVIDER
#!/bin/sh
{ printf '%s' "$1"; printf ' [%s]' "\$@"; echo; } >> "$room/calls"
echo '{"v":[1]}'
IFS= read -r request
printf '%s\n' "\$request" >> "$room/calls"
cat << 'ANSWER'
$2
ANSWER
PROVIDER
  chmod 755 "$room/providers/$1"
}
gives='{"Ok":{"kind":"get","token":"s3cret","cache":"session","operation_independent":true}}'
# A command that prints a text, and notes its arguments and what cargo sets for it.
printing() { # NAME TEXT [STATUS]
  mkdir -p "$room/providers"
  cat > "$room/providers/$1" << COMMAND
#!/bin/sh
{ printf '%s' "$1"; printf ' [%s]' "\$@"; echo " \$CARGO_REGISTRY_INDEX_URL \$CARGO_REGISTRY_NAME_OPT"; } >> "$room/calls"
printf '$2'
exit ${3-0}
COMMAND
  chmod 755 "$room/providers/$1"
}
# The calls of providers by cargo are those of this.
same_calls() {
  rm -f "$room/calls"
  run 0 upgrade -n
  mv "$room/calls" "$room/log"
  rm -rf "$cache"
  cargo generate-lockfile -q 2> /dev/null
  python3 - "$room/log" "$room/calls" << 'END' || fail "the calls differ: $(cat "$room/log" "$room/calls")"
import json, sys
def lines(path):
    for line in open(path):
        yield json.loads(line) if line.startswith("{") else line
sys.exit(list(lines(sys.argv[1])) != list(lines(sys.argv[2])))
END
  rm -rf Cargo.lock "$CARGO_HOME/registry"
}

# Each place that may have the token.
row_environment() {
  corp
  global '"cargo:token"'
  CARGO_REGISTRIES_CORP_TOKEN=s3cret both_get
}
row_credentials() {
  corp
  global '"cargo:token"'
  credentials credentials.toml s3cret
  both_get
  mv "$CARGO_HOME/credentials.toml" "$CARGO_HOME/credentials"
  both_get
}
row_configuration() {
  corp 'token = "s3cret"'
  global '"cargo:token"'
  both_get
}
# `cargo:token` serves where no provider is configured, in which case cargo refuses.
row_no_provider() {
  corp
  credentials credentials.toml s3cret
  run 0 upgrade -n
  CARGO_REGISTRIES_CORP_CREDENTIAL_PROVIDER=cargo:token both_get
}
# The order of these places.
row_order() {
  corp 'token = "wrong"'
  global '"cargo:token"'
  credentials credentials.toml s3cret
  both_get
  credentials credentials s3cret
  credentials credentials.toml wrong
  both_get
  credentials credentials wrong
  CARGO_REGISTRIES_CORP_TOKEN=s3cret both_get
  CARGO_REGISTRIES_CORP_TOKEN=wrong neither_gets 'refused'
}
# A registry that answers 401 for its config.json too.
row_walled() {
  corp
  global '"cargo:token"'
  touch "$room/walled"
  CARGO_REGISTRIES_CORP_TOKEN=s3cret both_get
}

# Programs of the protocol, by name and by path, with arguments, and by an alias.
row_plugin() {
  provider cargo-credential-corp "$gives"
  export PATH="$room/providers:$PATH"
  corp 'credential-provider = "cargo-credential-corp --account me"'
  both_get
  same_calls
  corp "credential-provider = [\"$room/providers/cargo-credential-corp\", \"an argument\"]"
  same_calls
  corp 'credential-provider = "mine"'
  printf '[credential-alias]\nmine = ["%s", "a b"]\n' "$room/providers/cargo-credential-corp" >> "$CARGO_HOME/config.toml"
  same_calls
  corp
  CARGO_REGISTRIES_CORP_CREDENTIAL_PROVIDER="$room/providers/cargo-credential-corp x" same_calls
}
row_relative_plugin() {
  provider cargo-credential-corp "$gives"
  mkdir .cargo bin
  cp "$room/providers/cargo-credential-corp" bin
  corp 'credential-provider = "bin/cargo-credential-corp"'
  mv "$CARGO_HOME/config.toml" .cargo
  both_get
}
row_stdout() {
  printing token 's3cret\n'
  corp "credential-provider = \"cargo:token-from-stdout $room/providers/token one two\""
  both_get
  same_calls
  printing token 's3cret'
  both_get
}
# No word of a provider is text of a shell.
row_words() {
  printing token 's3cret\n'
  corp 'credential-provider = ["cargo:token-from-stdout", "'"$room"'/providers/token", "$(touch hit)", "; touch hit", "'"'"'", ""]'
  same_calls
  [ ! -e hit ] || fail 'a shell evaluates it'
  # (the name of a function or a built-in command is a program)
  corp 'credential-provider = "cargo:token-from-stdout entries"'
  neither_gets 'cannot be started'
}

# Of the global providers the last is asked first, and the next one where that has no token.
row_global_order() {
  provider first '{"Err":{"kind":"not-found"}}'
  provider second '{"Err":{"kind":"url-not-supported"}}'
  export PATH="$room/providers:$PATH"
  corp
  global '"cargo:token", "first a", "second"'
  export CARGO_REGISTRIES_CORP_TOKEN=s3cret
  both_get
  same_calls
  CARGO_REGISTRY_GLOBAL_CREDENTIAL_PROVIDERS=first same_calls
  provider third "$gives"
  CARGO_REGISTRY_GLOBAL_CREDENTIAL_PROVIDERS=third same_calls
  # the registry's own provider is the only one
  corp 'credential-provider = "second"'
  global '"cargo:token"'
  neither_gets 'none was found'
}
# An open registry gets no token, and no provider is asked for it.
row_open_registry() {
  provider cargo-credential-corp "$gives"
  corp "credential-provider = \"$room/providers/cargo-credential-corp\""
  rm "$room/private"
  both_get
  [ ! -e "$room/calls" ] || fail 'a provider is asked'
  CARGO_REGISTRIES_CORP_TOKEN=s3cret both_get
  ! grep -q s3cret "$room/seen" || fail 'a token is sent'
}

# The four errors: none was found, it was refused, it is not sent, a provider failed.
row_none_found() {
  corp
  neither_gets 'the registry `corp` wants a token, and none was found'
  says 'CARGO_REGISTRIES_CORP_TOKEN'
  says 'registries.corp.token'
  printing other x
  corp
  global '"cargo:token", "cargo:libsecret", "cargo:wincred"'
  run 1 upgrade -n
  says 'the registry `corp` wants a token, and none was found'
  says '`cargo:libsecret` is built into cargo alone'
  says 'cargo:token-from-stdout'
}
row_refused() {
  corp
  global '"cargo:token"'
  CARGO_REGISTRIES_CORP_TOKEN=s3cret.wrong neither_gets 'status 401: the registry `corp` refused the token of CARGO_REGISTRIES_CORP_TOKEN'
  credentials credentials.toml s3cret.wrong
  neither_gets "refused the token of $CARGO_HOME/credentials.toml"
}
row_not_secure() {
  corp
  sed -i 's,^index = .*,index = "sparse+http://registry.invalid/one/",' "$CARGO_HOME/config.toml"
  CARGO_HTTP_PROXY="$base" CARGO_REGISTRIES_CORP_TOKEN=s3cret run 1 upgrade -n
  says 'the registry `corp` wants a token, but the token of CARGO_REGISTRIES_CORP_TOKEN is not sent'
  says https
  ! grep -q s3cret "$room/seen" || fail 'it is sent'
  nowhere
}
row_provider_fails() {
  provider cargo-credential-corp '{"Err":{"kind":"other","message":"the vault is closed for s3cret","caused-by":["no key"]}}'
  corp "credential-provider = \"$room/providers/cargo-credential-corp\"
token = \"s3cret\""
  neither_gets 'of the registry `corp` failed: the vault is closed for ***: no key'
  printing token 's3cret\n' 3
  corp "credential-provider = \"cargo:token-from-stdout $room/providers/token\""
  neither_gets 'it ended with status 3'
  printing token 's3cret\nmore\n'
  neither_gets 'it printed more than one line'
  provider cargo-credential-corp 's3cret'
  corp "credential-provider = \"$room/providers/cargo-credential-corp\""
  neither_gets 'its answer is not JSON'
  corp "credential-provider = \"$room/providers/token\""
  neither_gets 'does not offer version 1'
  corp 'credential-provider = "/nonexistent/provider"'
  neither_gets 'cannot be started'
}
# A run that could not send a token uses what is cached.
row_cached() {
  corp
  CARGO_REGISTRIES_CORP_TOKEN=s3cret run 0 upgrade -n
  run 0 upgrade -n
  says_once '^warning: .*none was found'
  grep -q -E '^dep +1\.0 .* 1\.2 ' "$room/out" || fail 'dep is not raised'
}

# A redirect within a host is followed with the token, and to another one, also another port, without it, as by cargo.
redirected() { # URL TOKEN
  local client
  rm -rf "$room/requests" "$cache" "$CARGO_HOME/registry" Cargo.lock
  touch "$room/all"
  for client in run cargo; do
    mode "redirect-once $1"
    if [ "$client" = run ]; then run 0 upgrade -n; else cargo generate-lockfile -q || fail 'cargo does not follow it'; fi
  done
  [ "$(grep -c "^/moved/one/3/d/dep [a-z]* [^ ]* $2 " "$room/requests")" = 2 ] || fail "redirected: $(cat "$room/requests")"
}
row_redirects() {
  corp
  global '"cargo:token"'
  mkdir -p "$room/served/moved"
  cp -R "$room/served/one" "$room/served/moved"
  export CARGO_REGISTRIES_CORP_TOKEN=s3cret
  redirected "$base/moved" s3cret
  redirected "$other/moved" -
  redirected "http://localhost:${base##*:}/moved" -
  nowhere
}

# While a transfer waits, no file of the run and no list of processes has the token.
row_nowhere() {
  local run
  printing token 's3cret\n'
  corp "credential-provider = \"cargo:token-from-stdout $room/providers/token\""
  mode gate
  cargo-upgrade upgrade -n > "$room/out" 2> "$room/err" < /dev/null &
  run=$!
  while [ "$(requests)" -lt 1 ]; do
    kill -0 "$run" 2> /dev/null || fail 'it asks for nothing'
    sleep 0.05
  done
  grep -q ' s3cret$' "$room/seen" || grep -q ' s3cret ' "$room/requests" || fail 'the token is not sent'
  ps -A -o args= > "$room/log"
  ! grep -q s3cret "$room/log" || fail "a process: $(grep s3cret "$room/log")"
  find "$HOME" "$room/tmp" "$CARGO_HOME" -type f -exec grep -l s3cret {} + > "$room/log"
  [ ! -s "$room/log" ] || fail "a file: $(cat "$room/log")"
  touch "$room/open"
  wait "$run" || fail 'it fails'
  nowhere
}
# A signal ends a run that waits for a provider, and the provider.
row_signal() {
  local run
  mkdir -p "$room/providers"
  printf '#!/bin/sh\necho $$ > "%s/calls"\nexec sleep 60\n' "$room" > "$room/providers/hangs"
  chmod 755 "$room/providers/hangs"
  corp "credential-provider = \"$room/providers/hangs\""
  cargo-upgrade upgrade -n > "$room/out" 2> "$room/err" < /dev/null &
  run=$!
  while [ ! -s "$room/calls" ]; do
    kill -0 "$run" 2> /dev/null || fail 'it asks no provider'
    sleep 0.05
  done
  kill -TERM "$run"
  SECONDS=0
  wait "$run"
  [ "$? $((SECONDS < 3))" = "143 1" ] || fail "it does not end"
  # (one that has ended may wait for its parent, in the state Z)
  ! grep -q -v -s ') Z ' "/proc/$(cat "$room/calls")/stat" || fail 'the provider goes on'
  [ -z "$(find "$cache" -name '.run.*')" ] || fail 'the folder of the run is left'
}

all_rows
