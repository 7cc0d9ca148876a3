# shellcheck shell=sh disable=SC2154
# Sourced by bin/cargo-upgrade: updates Cargo.lock after the manifests were written. It uses these variables
# of cargo-upgrade: `tool` (the program), `cargo`, `room` (the folder of this run), `lock` (the path of
# Cargo.lock), `calls` (the file for the calls), `offline` and `to_lockfile`, and the functions of
# resolve.sh. ROOM has the output of lock-plan, and before.lock, a copy of Cargo.lock from before the run,
# if there was one.

# Finds the next call of `cargo update` after the one with this number, fitted to Cargo.lock as it is now.
# `call` is text for the shell, which sets `number` and the arguments; it is empty after the last call.
find_call() { # NUMBER
    call=$("$tool" next-call --calls "$room/stage" --lock-before "$room/stage.lock" --lock-file "$lock" \
        --after "$1" ${offline:+"$offline"} 2> "$room/said") || return 1
    shown < "$room/said" >&2 # the lines with `Run` and `Skipping`
}

# Runs cargo without standard input.
call_cargo() { run_process "$cargo" "$@" < /dev/null; }

# Makes the calls of `cargo update` of a stage, which name packages in Cargo.lock as it is before the first
# of them. After a failure ROOM/said has the error.
make_calls() { # STAGE
    number=0 locked_now=$lock
    cp "$lock" "$room/stage.lock" 2> /dev/null || { locked_now=$room/stage.lock; : > "$locked_now"; }
    "$tool" update-calls --stage "$1" --lock-plan "$room/lock-plan" --metadata-json "$room/metadata.json" \
        --lock-file "$locked_now" ${offline:+"$offline"} > "$room/stage" 2> "$room/said" || return 1
    [ -s "$room/stage" ] || return 0
    cat "$room/stage" >> "$calls" 2> "$room/said" || return 1
    while find_call "$number" || return 1; [ -n "$call" ]; do
        eval "$call"
        attempt call_cargo "$@" ${publish_time:+--publish-time "$publish_time"} || return 1
    done
}

# Makes the calls of all stages.
make_all_calls() { make_calls precise && make_calls git && make_calls recursive; }

# Updates Cargo.lock. If cargo cannot resolve the workspace, the run ends with an error. If a call fails,
# ROOM/failed has the error, and the run continues.
update_lock() {
    resolve || unfit "$room/said"
    [ -n "$to_lockfile" ] || make_all_calls || cp "$room/said" "$room/failed"
}
