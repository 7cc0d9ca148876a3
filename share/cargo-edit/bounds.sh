# shellcheck shell=sh disable=SC2154
# Sourced by bin/cargo-upgrade: sets packages that this run changed in Cargo.lock back within the bounds of
# the upgrade (an age, the holds of a policy, the versions that requirements were raised to). It uses these
# variables of cargo-upgrade: `tool` (the program), `cargo`, `cache`, `room` (the folder of this run),
# `lock` (the path of Cargo.lock) and `offline`.

# Runs a subcommand about the bounds, with Cargo.lock and the workspace as they are now.
bounds() { # SUBCOMMAND [--report]
    "$tool" "$@" --lock-plan "$room/lock-plan" --metadata-json "$room/resolved.json" \
        --lock-before "$room/before.lock" --lock-file "$lock" --room "$room"
}

# Whether this run has a bound: a time of publication, a hold, or a version that a requirement was raised
# to.
is_bounded() { ! grep -q '"chosen":\[\],.*"holds":\[\],.*"published_before":null' "$room/lock-plan"; }

# Fetches the index entries of changed packages, except those that the upgrade has fetched already, and lists
# them in ROOM/more/index.
fetch_more() { # ARGUMENT..
    bounds lock-lookups > "$room/changed" 2> "$room/faults" || unfit "$room/faults"
    grep -v -x -F -f "$room/lookups" "$room/changed" > "$room/wanted"
    [ -s "$room/wanted" ] || return 0
    ! cmp -s "$room/wanted" "$room/fetched" || return 0
    cp "$room/wanted" "$room/fetched"
    (umask 077 && mkdir -p "$room/more") || die "$room/more cannot be made"
    fetch_lookups "$room/wanted" "$room/more" "$@"
}

# Has cargo set a package back to a version. A failure is not an error yet: the report at the end decides.
set_back() { # NAME@VERSION VERSION
    set -- update --manifest-path "${lock%.lock}.toml" --precise "$2" --package "$1" ${offline:+"$offline"}
    printf '         Run cargo %s\n' "$("$tool" shell-words "$@")" | shown >&2
    attempt call_cargo "$@" || :
}

# Sets `publish_time` to the latest time of publication if this cargo has a stable option for it; else to
# nothing.
find_publish_time() {
    publish_time=$(sed -n 's/.*"published_before":"\([^"]*\)".*/\1/p' "$room/lock-plan")
    [ -z "$publish_time" ] ||
        "$cargo" update --help 2> /dev/null | grep -i -v unstable | grep -q -e '--publish-time' || publish_time=''
}

# Sets packages beyond a bound back, each to the greatest version within the bound that all requirements on
# it admit. Since this can change other packages too, it is repeated until no new step is left. No step is
# made twice, so that it ends. Packages that are still beyond a bound are an error.
hold_back() { # ARGUMENT.. of the upgrade
    is_bounded || return 0
    [ -s "$room/resolved.json" ] || die "the manifests are written, but whether Cargo.lock is within the bounds \
is not known, since \`cargo metadata\` does not accept the workspace"
    : > "$room/taken"
    more=yes
    while [ -n "$more" ]; do
        more=''
        fetch_more "$@"
        bounds set-backs > "$room/set-backs" 2> "$room/faults" || unfit "$room/faults"
        while IFS=' ' read -r package version <&3; do
            ! grep -q -x -F -e "$package $version" "$room/taken" || continue
            printf '%s %s\n' "$package" "$version" >> "$room/taken"
            more=yes
            set_back "$package" "$version"
        done 3< "$room/set-backs"
        [ -z "$more" ] || resolve || unfit "$room/said"
    done
    bounds set-backs --report 2> "$room/faults" || end_step
    shown < "$room/faults" >&2
}
