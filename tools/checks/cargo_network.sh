#!/usr/bin/env bash
# cargo_network.sh PROGRAM   `cargo upgrade` over a network with faults, with real cargo and curl over loopback registries:
# which transfers are tried again and after which wait, that a body of more than 100 MB is an error, which progress a terminal
# shows, and that a signal ends a run at any moment, with all processes that it started.
# shellcheck source-path=SCRIPTDIR source=../cargo_checks/lib.sh
. "$(dirname "$0")/../cargo_checks/lib.sh"
begin "$1"

# A dry run that ends within these seconds.
within() { # SECONDS STATUS ARGUMENTS
  local seconds=$1 wanted=$2 status=0
  shift 2
  timeout -k 1 "$seconds" cargo-upgrade upgrade "$@" > "$room/out" 2> "$room/err" || status=$?
  [ "$status" != 124 ] || fail "it does not end within $seconds s"
  [ "$status" = "$wanted" ] || fail "upgrade $*: status $status in place of $wanted"
}
# The project depends on 40 crates more, c1 to c40, of the registry `one`.
many() {
  local number
  for number in $(seq 40); do
    case $number in ?) set -- "$room/served/one/2/c$number" ;; *) set -- "$room/served/one/3/c/c$number" ;; esac
    mkdir -p "${1%/*}"
    sed "s/\"dep\"/\"c$number\"/" "$room/served/one/3/d/dep" > "$1"
    echo "c$number = \"1.0\"" >> Cargo.toml
  done
}

# A transfer that the connection breaks is tried again, and no other one. Each transfer has a connection of its own here: on
# one that is used again curl itself asks once more.
broken_once() { # MODE MESSAGE
  mode "$1 dep"
  CARGO_NET_RETRY=1 run 0 upgrade -n
  shown
  [ "$(requests)" = 3 ] || fail "$(requests) requests"
  rm -rf "$cache"
  mode "$1 dep"
  run 1 upgrade -n
  missing "dep \\($2"
  silent 'other'
}
row_cut() { broken_once cut-once 'transfer closed with .*, curl: 18'; }
row_reset() { broken_once reset-once 'Recv failure.*, curl: 56'; }
row_silent() { broken_once silent-once 'Empty reply from server, curl: 52'; }
row_cut_among_many() {
  many
  mode 'cut-once c17'
  CARGO_NET_RETRY=1 run 0 upgrade -n
  [ "$(grep -c -E '^c[0-9]+ +1\.0 .* 1\.2 ' "$room/out")" = 40 ] || fail 'not all are raised'
  [ "$(requests)" = 43 ] || fail "$(requests) requests"
}
# What is an answer is tried again only where it may change.
row_lasting_answers() {
  local status count
  for status in 401 403 404 418; do
    rm -f "$room/requests"
    mode "status $status"
    count=1
    [ "$status" != 404 ] || count=0
    CARGO_NET_RETRY=3 within 5 "$count" -n
    [ "$(requests)" = 2 ] || fail "$status: $(requests) requests"
  done
  says 'status 418'
  rm -f "$room/requests"
  mode 'status 501'
  CARGO_NET_RETRY=1 within 9 1 -n
  [ "$(requests)" = 4 ] || fail "501: $(requests) requests"
  says 'status 501'
}

# Retry-After is heeded up to 60 s in all.
row_short_wait() {
  local begun
  begun=$(date +%s)
  mode 'wait-once 429 3'
  (unset CI CARGO_TERM_PROGRESS_WHEN CARGO_TERM_QUIET; CARGO_NET_RETRY=1 on_terminal 0 -n) || exit 1
  shown
  says '     Waiting 3 s: status 429'
  [ $(($(date +%s) - begun)) -ge 3 ] || fail 'it did not wait'
}
row_long_wait() {
  mode 'wait 429 3600'
  CARGO_NET_RETRY=3 within 9 1 -n
  says '(it wants a wait of 3600 s: status 429'
  [ "$(requests)" = 2 ] || fail "$(requests) requests"
}
# A curl whose transfers say that they took this long.
row_wait_in_all() {
  mkdir "$room/curl"
  cat > "$room/curl/curl" << CURL
#!/bin/sh
case "\$*" in *--version*) exec $(command -v curl) "\$@" ;; esac
$(command -v curl) "\$@" | awk -F '\t' -v OFS='\t' '{ \$5 = "59.7"; print }'
CURL
  chmod 755 "$room/curl/curl"
  mode down
  CARGO_NET_RETRY=9 PATH="$room/curl:$PATH" within 9 1 -n
  says 'gave up after 60 s: status 503'
  [ "$(requests)" = 2 ] || fail "$(requests) requests"
}

# A body of more than 100 MB is refused, whether its length is known or not.
row_known_length() {
  mode large
  CARGO_NET_RETRY=3 within 20 1 -n
  says 'the body has more than 100 MB'
}
row_unknown_length() {
  mode endless
  CARGO_NET_RETRY=3 within 30 1 -n
  says 'the body has more than 100 MB'
  missing 'dep, other'
}
# Where the cache cannot be written, the error says so, also for crates of which nothing is cached.
row_full_cache() {
  local long
  long=$(printf '%032767d' 0)
  sed -i "s/\"features\": {}/\"features\": {\"f\": [\"$long\"]}/" "$room/served/one/3/d/dep"
  (ulimit -f 40; within 20 1 -n) || exit 1
  says 'dep (the cache could not be written, curl: 23)'
  silent 'no answer'
  run 0 upgrade -n
  whole
}

# An index entry with a malformed line: the error has the registry, the crate, the line and what it lacks.
row_malformed_line() {
  mode 'malformed dep'
  run 1 upgrade
  says "127.0.0.1:$(cat "$room/port")/one/: dep (line 2 of the entry of dep is malformed: "
  says 'strings as `name` and `vers`'
  missing dep
  unwritten
  rm "$room/mode"
  run 0 upgrade -n
  forget_etags
  mode 'malformed dep'
  run 0 upgrade -n
  shown
  says_once '^warning: .*line 2 of the entry of dep is malformed: .*the cached ones are used \(dep\)'
  whole
}

# A version of a later format, which cargo leaves out, is named.
row_later_format() {
  sed -n '$s/"vers": "2.0.0"/"vers": "1.9.0", "v": 99/p' "$room/served/one/3/d/dep" >> "$room/served/one/3/d/dep"
  run 0 upgrade -n
  says_once '^warning: .* too new for cargo: dep$'
}

# Runs cargo-upgrade in a pseudo-terminal, which is its standard error; $room/err gets what that terminal gets.
on_terminal() { # STATUS ARGUMENTS
  local wanted=$1 status=0
  shift
  CARGO_TERM_COLOR=never TERM=${TERM_OF_ROW-xterm} python3 -c 'import os, pty, sys
said = open(sys.argv[1], "wb")
def read(fd):
    data = os.read(fd, 1024)
    said.write(data)
    said.flush()
    return b" " if data else data
sys.stdout = open(os.devnull, "w")
os.dup2(sys.stdout.fileno(), 1)
sys.exit(os.waitstatus_to_exitcode(pty.spawn(["sh", "-c", "exec \"$@\" > \"$0\"", sys.argv[2]] + sys.argv[3:], read)))' \
    "$room/err" "$room/out" cargo-upgrade upgrade "$@" < /dev/null || status=$?
  [ "$status" = "$wanted" ] || fail "upgrade $*: status $status in place of $wanted"
}
row_progress() {
  (
    unset CI CARGO_TERM_PROGRESS_WHEN CARGO_TERM_QUIET
    mode slow 2
    on_terminal 0 -n
    says "    Updating 127.0.0.1:$(cat "$room/port")/one index (0/2)"
    grep -q -a -F -- "$(printf '\r\033[K')" "$room/err" || fail 'the line is not cleared'
    lacks "$room/out" Updating
    mode flaky
    rm -rf "$cache"
    CARGO_NET_RETRY=1 on_terminal 0 -n
    says '     Waiting 1 s: status 503'
    mode slow 1
    on_terminal 0 -n -q
    silent 'Updating|Waiting|Resolving'
    CARGO_TERM_PROGRESS_WHEN=never on_terminal 0 -n
    silent 'Updating|Waiting|Resolving'
    TERM_OF_ROW=dumb on_terminal 0 -n
    silent 'Updating|Waiting|Resolving'
    run 0 upgrade -n
    silent 'Updating|Waiting|Resolving'
    rm "$room/mode"
    cat > "$room/slow" << SLOW
#!/bin/sh
case "\$*" in *--all-features*) sleep 1.5 ;; esac
exec "$cargo" "\$@"
SLOW
    chmod 755 "$room/slow"
    CARGO="$room/slow" on_terminal 0
    says '   Resolving the workspace'
  ) || exit 1
}

# Starts a command whose signals are as a terminal's shell leaves them, in a process group of its own; $started is it.
start() { # COMMAND ARGUMENTS
  # (a shell has its background jobs ignore INT, and under nohup all ignore HUP)
  python3 -c 'import os, signal, sys
for number in (signal.SIGHUP, signal.SIGINT, signal.SIGTERM):
    signal.signal(number, signal.SIG_DFL)
os.setsid()
os.execvp(sys.argv[1], sys.argv[1:])' "$@" > "$room/out" 2> "$room/err" < /dev/null &
  started=$!
}
# Waits until a command has status 0.
until_done() { # COMMAND ARGUMENTS
  for _ in $(seq 200); do
    if "$@" > "$room/log" 2>&1; then return; fi
    kill -0 "$started" 2> /dev/null || fail "it has ended, before $*"
    sleep 0.05
  done
  fail "it takes too long, before $*"
}
# The signal, to the script alone, ends it within a second, or four of a loaded machine; nothing of it runs or stays.
ends_by() { # SIGNAL
  local begun status=0 wanted watch
  begun=$(date +%s%N)
  kill "-$1" "$started"
  { sleep 8; kill -KILL -- "-$started"; } > "$room/log" 2>&1 &
  watch=$!
  wait "$started" || status=$?
  kill "$watch"
  [ $((($(date +%s%N) - begun) / 1000000)) -lt 4000 ] || fail "$1: it ended after $((($(date +%s%N) - begun) / 1000000)) ms"
  case $1 in HUP) wanted=129 ;; INT) wanted=130 ;; *) wanted=143 ;; esac
  [ "$status" = "$wanted" ] || fail "$1: status $status"
  ps -A -o pgid= -o stat= -o args= | awk -v group="$started" '$1 == group && $2 !~ /^Z/' > "$room/log"
  [ ! -s "$room/log" ] || fail "$1: this runs on: $(cat "$room/log")"
  [ -z "$(ls -A "$room/tmp")" ] || fail "$1: left in TMPDIR"
  [ ! -d "$cache" ] || [ -z "$(find "$cache" -name '.run*')" ] || fail "$1: left in the cache"
}
# A cargo that, at a subcommand, starts a process and waits for it.
held_cargo() { # SUBCOMMAND
  mkdir -p "$room/held"
  cat > "$room/held/cargo" << CARGO
#!/bin/sh
[ "\$1" != "$1" ] || { touch "$room/began"; sleep 30; exit 9; }
exec $cargo "\$@"
CARGO
  chmod 755 "$room/held/cargo"
}
row_signals_in_cargo() {
  local signal
  held_cargo metadata
  for signal in HUP INT TERM; do
    rm -f "$room/began"
    CARGO="$room/held/cargo" start cargo-upgrade upgrade
    until_done [ -e "$room/began" ]
    ends_by "$signal"
    rm -f "$room/began"
    CARGO="$room/held/cargo" start cargo-set-version set-version --bump minor
    until_done [ -e "$room/began" ]
    ends_by "$signal"
  done
  held_cargo locate-project
  rm -f "$room/began"
  CARGO="$room/held/cargo" start cargo-upgrade upgrade
  until_done [ -e "$room/began" ]
  ends_by TERM
  unwritten
}
row_signals_in_curl() {
  local signal
  mode hang
  for signal in HUP INT TERM; do
    rm -f "$room/requests"
    start cargo-upgrade upgrade
    until_done [ -s "$room/requests" ]
    ends_by "$signal"
  done
  unwritten
}
row_signals_in_a_wait() {
  local signal
  mode 'wait 429 30'
  for signal in HUP INT TERM; do
    rm -f "$room/requests"
    CARGO_NET_RETRY=2 start cargo-upgrade upgrade
    until_done grep -q other "$room/requests"
    sleep 0.5
    ends_by "$signal"
  done
  unwritten
}
# The program too can wait, as for a pipe of its arguments.
row_signals_in_the_program() {
  local signal
  mkfifo "$room/tmp/calls"
  for signal in HUP INT TERM; do
    start cargo-upgrade upgrade --update-calls "$room/tmp/calls"
    until_done pgrep -g "$started" -f 'cargo-edit upgrade'
    sleep 2 # it opens the pipe, which nobody reads
    mv "$room/tmp/calls" "$room/calls.pipe"
    ends_by "$signal"
    mv "$room/calls.pipe" "$room/tmp/calls"
    cp "$room/first/Cargo.toml" "$room/first/Cargo.lock" .
  done
  rm "$room/tmp/calls"
}
# What a killed run left is removed by the next run; the folder of a run that goes on stays.
row_dead_folders() {
  local live dead
  mode hang
  start cargo-upgrade upgrade -n
  live=$started
  until_done [ -s "$room/requests" ]
  rm "$room/requests"
  start cargo-upgrade upgrade -n
  dead=$started
  until_done [ -s "$room/requests" ]
  [ "$(find "$cache" -maxdepth 1 -name '.run.*' | wc -l)" = 2 ] || fail 'there are not two runs'
  kill -KILL -- "-$dead"
  wait "$dead" 2> /dev/null
  rm "$room/mode"
  run 0 upgrade -n
  [ "$(find "$cache" -maxdepth 1 -name '.run.*' | wc -l)" = 1 ] || fail "left: $(ls -a "$cache")"
  kill -0 "$live" || fail 'the other run has ended'
  started=$live
  ends_by TERM
}
row_dead_folders_of_set_version() {
  held_cargo metadata
  CARGO="$room/held/cargo" start cargo-set-version set-version --bump minor
  until_done [ -e "$room/began" ]
  kill -KILL -- "-$started"
  wait "$started" 2> /dev/null
  [ -n "$(ls "$room/tmp")" ] || fail 'nothing was left'
  run 0 set-version --bump minor
  [ -z "$(ls "$room/tmp")" ] || fail "left: $(ls "$room/tmp")"
}

all_rows
