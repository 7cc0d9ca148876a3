#!/usr/bin/env bash
# cargo_help.sh PROGRAM   the help, man pages and completions of `cargo upgrade` and `cargo set-version` are those of these
# commands: with --offline, without what only `cargo-edit` takes. The documents have each option of the help.
# shellcheck source-path=SCRIPTDIR source=../cargo_checks/lib.sh
. "$(dirname "$0")/../cargo_checks/lib.sh"
begin "$1"

of_the_command() { # COMMAND FILE
  grep -q -e '--offline' "$2" || fail "no --offline in $2"
  ! grep -n -E 'metadata-json|index-dir|index-file|fetch-plan|fetch-store|next-call|check-curl|shell-options' "$2" > "$room/log" || fail "$2 has $(cat "$room/log")"
  ! grep -n -E -e "cargo-edit $1" "$2" > "$room/log" || fail "$2 has $(cat "$room/log")"
}
row_help() {
  local command
  for command in upgrade set-version; do
    run 0 "$command" -h
    of_the_command "$command" "$room/out"
    cp "$room/out" "$room/short"
    "cargo-$command" --help > "$room/out" || fail "status $?"
    cmp -s "$room/short" "$room/out" || fail '-h and --help differ'
    grep -q -E "^Usage: cargo $command " "$room/out" || fail 'no usage of the command'
    run 0 "$command" --version
  done
  run 0 upgrade --help
  has "$room/out" 'cargo --config'
}
row_documents() {
  local command page names name found
  for command in upgrade set-version; do
    page=$here/docs/${command^^}.md
    run 0 "$command" --help
    sed -n -E 's/^ +(-[a-zA-Z], )?(--[a-z-]+).*/\1\2/p' "$room/out" > "$room/options"
    [ "$(wc -l < "$room/options")" -ge 15 ] || fail "no options in the help of cargo $command"
    while IFS= read -r names; do
      case $names in *--help | *--version) continue ;; esac
      found=
      for name in ${names//,/}; do
        ! grep -q -E -- "\`${name}[\` ]" "$page" "$here/docs/SCRIPTING.md" || found=yes
      done
      [ -n "$found" ] || fail "$page and SCRIPTING.md have no $names"
    done < "$room/options"
  done
}
row_man_pages() {
  local command section
  for command in upgrade set-version; do
    sed 's/\\-/-/g' "$room/prefix/share/man/man1/cargo-$command.1" > "$room/page"
    of_the_command "$command" "$room/page"
    for section in EXAMPLES FILES ENVIRONMENT 'EXIT STATUS'; do
      grep -q -E "^\.SH \"?$section" "$room/page" || fail "no section $section of cargo-$command"
    done
    grep -q NO_COLOR "$room/page" || fail "no NO_COLOR in the page of cargo-$command"
  done
  grep -q '^\[workspace.metadata.cargo-edit\]' <(sed -n '/^\.SH POLICY/,$s/^ *//p' "$room/prefix/share/man/man1/cargo-upgrade.1" | sed 's/\\-/-/g') ||
    fail 'no policy in the page of cargo-upgrade'
}
row_values_that_may_be_left_out() {
  run 0 upgrade --help
  has "$room/out" '-i, --incompatible [<allow|ignore>]'
  has "$room/out" '--level <patch|minor|major>'
  run 0 set-version --help
  has "$room/out" '[possible values: major, minor, patch, release'
}
row_fish_offers_values_and_no_files() {
  local file=$room/prefix/share/fish/vendor_conf.d/cargo-edit.fish
  grep -q -E -- "upgrade' -l level -x -a 'patch minor major' " "$file" || fail '--level'
  grep -q -E -- "upgrade' -l message-format -x -a 'human json markdown github' " "$file" || fail '--message-format'
  grep -q -E -- "upgrade' -s i -l incompatible -f -a 'allow ignore' " "$file" || fail '--incompatible'
  grep -q -E -- "set-version' -l bump -x -a 'major minor patch release rc beta alpha' " "$file" || fail '--bump'
}
row_completions() {
  local command file
  for command in upgrade set-version; do
    for file in "$room/prefix/share"/*/*/*"cargo-$command"*; do
      case $file in */man/*) continue ;; esac
      grep -q -e offline "$file" || fail "no offline in $file"
      ! grep -q -E 'metadata-json|index-dir|index-file' "$file" || fail "$file has more than the command takes"
    done
  done
}
# cargo's own completion for bash has the options of both commands, with bash-completion before 2.12 and from it on.
row_bash_completes_cargo() {
  local of_cargo='' file
  for file in /usr/share/bash-completion/completions/cargo "$(dirname "$(dirname "$(readlink -f "$(rustup which cargo 2> /dev/null)")")")/etc/bash_completion.d/cargo"; do
    [ ! -f "$file" ] || of_cargo=$file
  done
  [ -n "$of_cargo" ] || leave_out 'there is no completion of cargo'
  [ -f /usr/share/bash-completion/bash_completion ] || fail 'there is no bash-completion (gate_needs installs it)'
  completed() { # COMMAND WORD: what `cargo COMMAND WORD` completes to
    # shellcheck disable=SC2016
    XDG_DATA_HOME="$room/prefix/share" bash -c '. /usr/share/bash-completion/bash_completion && . "$1" && . "$2" || exit 1
      COMP_WORDS=(cargo "$3" "$4") COMP_CWORD=2 COMP_LINE="cargo $3 $4" COMP_POINT=${#COMP_LINE}
      _cargo cargo "$4" "$3"
      echo "${COMPREPLY[@]}"' '' "$of_cargo" "$room/prefix/share/bash-completion/completions/cargo-$1" "$1" "$2"
  }
  completed_value() { # COMMAND OPTION WORD: what `cargo COMMAND OPTION WORD` completes to
    # shellcheck disable=SC2016
    XDG_DATA_HOME="$room/prefix/share" bash -c '. /usr/share/bash-completion/bash_completion && . "$1" || exit 1
      for it in upgrade set-version; do . "${2%/*}/cargo-$it"; done
      COMP_WORDS=(cargo "$3" "$4" "$5") COMP_CWORD=3 COMP_LINE="cargo $3 $4 $5" COMP_POINT=${#COMP_LINE}
      "$(complete -p cargo | sed "s/.*-F \([^ ]*\) .*/\1/")" cargo "$5" "$4"
      echo "${COMPREPLY[@]}"' '' "$of_cargo" "$room/prefix/share/bash-completion/completions/cargo-$1" "$1" "$2" "$3"
  }
  [ "$(completed_value upgrade --level m)" = 'minor major' ] || fail "--level: $(completed_value upgrade --level m)"
  [ "$(completed_value set-version --bump r)" = 'release rc' ] || fail "--bump: $(completed_value set-version --bump r)"
  [ "$(completed upgrade --never)" = --never-lower ] || fail "upgrade: $(completed upgrade --never)"
  [ "$(completed set-version --bu)" = --bump ] || fail "set-version: $(completed set-version --bu)"
}

all_rows
