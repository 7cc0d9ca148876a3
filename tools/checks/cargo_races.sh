#!/usr/bin/env bash
# cargo_races.sh PROGRAM   the cache of `cargo upgrade` if runs overlap or end early: several at once over a registry
# that changes, kills at varying moments, a temporary folder on another file system, and a full disk. A cached entry
# is always a whole one that the registry had, and the next run gets the newest.
# shellcheck source-path=SCRIPTDIR source=../cargo_checks/lib.sh
. "$(dirname "$0")/../cargo_checks/lib.sh"
begin "$1"
published=0

# The registry gets version 1.N.0 of dep, with a description that makes its entry large; $room/bodies keeps each entry
# that it had.
publish() {
  published=$((published + 1))
  [ -d "$room/bodies" ] || { mkdir "$room/bodies"; cp "$room/served/one/3/d/dep" "$room/bodies"; }
  python3 - "$room/served/one/3/d/dep" "$published" << 'END_OF_PYTHON'
import json, os, sys
path, number = sys.argv[1], int(sys.argv[2]) + 2
line = json.loads(open(path).readline())
line.update(vers=f"1.{number}.0", features={"f": ["x" * 40000]})
with open(path + ".new", "a") as file:
    file.write(open(path).readline() + json.dumps(line) + "\n")
os.replace(path + ".new", path)
END_OF_PYTHON
  cp "$room/served/one/3/d/dep" "$room/bodies/$published"
}
newest() { # this run shows it
  run 0 upgrade -n
  grep -q -E "^dep +1\.0 .* 1\.$((published + 2)) " "$room/out" || fail "version 1.$((published + 2)).0 is not shown"
  body_of "$(entry one 3/d/dep)" | cmp -s "$room/served/one/3/d/dep" - || fail 'the cached entry is not the newest'
}
whole() { # the cached entry is one that the registry had
  local body
  [ -f "$(entry one 3/d/dep)" ] || return 0
  body_of "$(entry one 3/d/dep)" > "$room/had"
  for body in "$room"/bodies/*; do if cmp -s "$body" "$room/had"; then return 0; fi; done
  fail 'the cached entry is none that the registry had'
}

row_at_once() {
  local round each
  for round in 1 2 3; do
    publish
    for each in 1 2 3 4; do
      cargo-upgrade upgrade -n > "$room/out.$each" 2> "$room/err.$each" &
      [ "$each" != 2 ] || publish
    done
    for each in $(jobs -p); do [ "$each" = "$server" ] || wait "$each" || fail "round $round: $(cat "$room"/err.?)"; done
    whole
  done
  newest
}
# A curl that has its answers, and then waits until $room/open is there.
held_curl() {
  mkdir -p "$room/curl"
  cat > "$room/curl/curl" << CURL
#!/bin/sh
$(command -v curl) "\$@"
it=\$?
case "\$*" in *--config*) touch "$room/fetched"; while [ ! -e "$room/open" ]; do sleep 0.05; done ;; esac
exit \$it
CURL
  chmod 755 "$room/curl/curl"
  rm -f "$room/fetched"
  PATH="$room/curl:$PATH" cargo-upgrade upgrade -n > "$room/out.1" 2> "$room/err.1" &
  while [ ! -e "$room/fetched" ]; do
    kill -0 "$!" 2> /dev/null || fail "$(cat "$room/err.1")"
    sleep 0.05
  done
}
# Two that fetched different bodies store them at the same time: the second to write has the older one.
row_older_one_stores_last() {
  publish
  held_curl
  publish
  run 0 upgrade -n
  touch "$room/open"
  wait "$!" || fail "$(cat "$room/err.1")"
  whole
  newest
}
# The same, where the run with the newer body is held while it stores that, if it uses `mv`.
row_mixed_answers() {
  local older newer
  publish
  held_curl
  older=$!
  publish
  mkdir -p "$room/held"
  cat > "$room/held/mv" << MOVE
#!/bin/sh
$(command -v mv) "\$@"
it=\$?
if mkdir "$room/paused" 2> /dev/null; then while [ ! -e "$room/go" ]; do sleep 0.05; done; fi
exit \$it
MOVE
  chmod 755 "$room/held/mv"
  rm -rf "$room/paused" "$room/go"
  PATH="$room/held:$PATH" cargo-upgrade upgrade -n > "$room/out.2" 2> "$room/err.2" &
  newer=$!
  while [ ! -e "$room/paused" ] && kill -0 "$newer" 2> /dev/null; do sleep 0.05; done
  touch "$room/open"
  wait "$older" || fail "$(cat "$room/err.1")"
  touch "$room/go"
  wait "$newer" || fail "$(cat "$room/err.2")"
  newest
}
row_kills() {
  local kill
  for kill in $(seq 14); do
    publish
    # (a group of its own, so that all that the run started ends with it)
    setsid cargo-upgrade upgrade -n > "$room/out" 2> "$room/err" &
    sleep "0.$((kill * 3 / 10))$((kill * 3 % 10))"
    kill -KILL -- "-$!" 2> /dev/null
    wait "$!" 2> /dev/null
    whole
  done
  newest
  [ "$(find "$cache" -maxdepth 1 -name '.run.*' | wc -l)" -le 14 ] || fail 'what is left piles up'
}
# Nothing is moved from another file system into the cache.
row_other_file_system() {

  local other
  other=$(mktemp -d /dev/shm/cargo_races.XXXXXX) || fail "there is no other file system at /dev/shm"
  mkdir -p "$room/move"
  cat > "$room/move/mv" << MOVE
#!/bin/sh
for it; do
  case \$it in -*) ;; *) stat -c %d "\$it" 2> /dev/null || stat -c %d "\$(dirname "\$it")" ;; esac
done >> "$room/devices"
exec $(command -v mv) "\$@"
MOVE
  chmod 755 "$room/move/mv"
  : > "$room/devices"
  publish
  PATH="$room/move:$PATH" TMPDIR="$other" run 0 upgrade -n
  rm -r "$other"
  [ "$(sort -u "$room/devices" | wc -l)" -le 1 ] || fail 'a file is moved to another file system'
  newest
}
# Files that cannot grow: the old entry stays whole, and a message says that the new one is missing.
row_no_room() {
  run 0 upgrade -n
  publish
  (ulimit -f 24; run 0 upgrade -n) || exit 1
  says_like '^warning: .*dep'
  whole
  newest
}
# Disks of several sizes that are full at some step below the cache: each entry there is one that the registry had, whole, the
# old one where the new one does not fit, and a run that has no entry ends with an error.
row_full_disk() {
  local space size old status
  for space in 'unshare --mount' 'unshare --map-root-user --mount' ''; do
    if [ -z "$space" ]; then leave_out 'no file system can be mounted here'; fi
    if $space sh -c 'mount -t tmpfs -o size=64k tmpfs /mnt' 2> /dev/null; then break; fi
  done
  run 0 upgrade -n
  cp -R "$cache" "$room/filled"
  publish
  for old in yes ''; do
    for size in 16 24 32 48 64 80 96 112 128 160 192 256; do
      rm -rf "$room/copy"
      status=0
      # (the mount is gone with the process that made it)
      # shellcheck disable=SC2016
      $space sh -c 'mkdir -p "$1" && mount -t tmpfs -o "size=$2k" tmpfs "$1" || exit 9
        if [ -n "$4" ]; then cp -R "$4/." "$1"; fi
        cargo upgrade -n; status=$?; cp -R "$1" "$3"; exit "$status"' \
        '' "$cache" "$size" "$room/copy" "${old:+$room/filled}" > "$room/out" 2> "$room/err" || status=$?
      case $status in
        0) grep -q -E "^dep +1\.0 .* 1\.$((published + 2)) " "$room/out" || says_like '^warning: .*dep' ;;
        1) says_like '^Error: ' ;;
        *) fail "$size kB: status $status" ;;
      esac
      [ -z "$(find "$room/copy" -name '.run*')" ] || fail "$size kB: the folder of the run is left"
      find "$room/copy" -type f ! -name '.*' > "$room/entries"
      while IFS= read -r entry; do
        case $entry in
          */3/d/dep)
            for body in "$room"/bodies/*; do if body_of "$entry" | cmp -s "$body" -; then continue 2; fi; done ;;
          */ot/he/other) if body_of "$entry" | cmp -s "$room/served/one/ot/he/other" -; then continue; fi ;;
        esac
        fail "$size kB: $entry is none that the registry had"
      done < "$room/entries"
      [ -z "$old" ] || [ "$(wc -l < "$room/entries")" = 2 ] || fail "$size kB: an entry is gone"
    done
  done
}

all_rows
