# shellcheck shell=sh disable=SC2154
# Sourced by the scripts in bin/: gives manifests back that killed runs had moved aside, and resolves the
# workspace after its manifests were written. It uses the variables `tool` (the program), `cargo`, `room` (the
# folder of this run) and `manifest` of these scripts, their functions `workspace`, `shown` and `die`, and
# process.sh.

# Output of cargo, without colors.
escape=$(printf '\033')
without_colors() { sed "s/$escape\[[0-9;]*m//g" "$1"; } # FILE
# The progress that is shown: a step, its subject, and the last line of cargo.
step=Updating subject=Cargo.lock
last_said() {
    set -- "$(without_colors "$room/said" | tail -n 1 | sed 's/^ *//' | shown)"
    printf '%s\n' "$subject${1:+: $1}"
}

# Gives manifests back that runs of cargo-edit had moved aside when they were killed: those below the
# uppermost folder that has a manifest, from the folder of the manifest on. The status is 0 if one is back.
give_back() {
    top=$(dirname -- "${manifest:-./Cargo.toml}") && top=$(cd -- "$top" 2> /dev/null && pwd) || return 1
    above=$top
    while [ "$above" != / ]; do
        above=$(dirname -- "$above")
        [ ! -f "$above/Cargo.toml" ] || top=$above
    done
    find "$top" -name target -prune -o -type f -name '.cargo-edit.*-*.*.was' -print > "$room/aside" 2> /dev/null
    set -- 1
    while IFS= read -r aside; do
        name=${aside##*/}
        process=${name#.cargo-edit.} process=${process%%-*} name=${name#.cargo-edit.*-*.}
        place=${aside%/*}/${name%.was}
        if [ ! -e "$place" ] && ! kill -0 "$process" 2> /dev/null && ln -- "$aside" "$place"; then
            rm -f -- "$aside"
            echo "note: $place is back: a run that was killed had moved it aside" | shown >&2
            set -- 0
        fi
    done < "$room/aside"
    return "$1"
}

# Runs a command that calls cargo. The standard error of cargo goes to ROOM/said, and is printed at the end;
# on a terminal its last line is shown as progress.
attempt() { # COMMAND ARGUMENT..
    : > "$room/said"
    say_later "$step" last_said
    "$@" 2> "$room/said"
    set -- $?
    unsay
    if [ -t 2 ]; then without_colors "$room/said" | shown >&2; else cat "$room/said" >&2; fi
    return "$1"
}

# Whether Cargo.lock fits the manifests. This writes and fetches nothing.
fits() {
    run_process "$cargo" update --workspace --locked --offline ${manifest:+--manifest-path "$manifest"} \
        > "$room/said.fit" 2>&1
}

# Resolves the workspace, which makes or updates Cargo.lock. (`cargo metadata` can fail after it has written
# Cargo.lock, for example if a package has two names.)
resolve() {
    step=Resolving subject='the workspace'
    attempt workspace --all-features || { fits && echo 'note: Cargo.lock fits the manifests all the same' >&2; }
    set -- $?
    step=Updating subject=Cargo.lock
    return "$1"
}

# Ends the run if the manifests are written and Cargo.lock does not fit them. The reason is the first error
# in a file, which has the output of cargo or of a step of the program.
unfit() { # FILE
    reason=$(without_colors "$1" | sed -n 's/^[Ee]rror: //p' | head -n 1)
    place=$(sed -n '/^Error: /,$p' "$1" | grep -E '^  (at|cause:) ')
    command=$("$tool" shell-words cargo update --workspace ${manifest:+--manifest-path "$manifest"})
    die "the manifests are written, Cargo.lock is not: ${reason:-cargo failed}${place:+
$place}
  help: change what cargo names, or take the manifests back, and run \`$command\`"
}
