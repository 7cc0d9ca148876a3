# shellcheck shell=sh disable=SC2154
# Sourced by bin/cargo-upgrade: fetches the index entries of a run. It uses these variables of
# cargo-upgrade: `tool` (the program), `cache` and `room` (the folders of the cache and of this run) and
# `offline`.

# shellcheck source-path=SCRIPTDIR source=tokens.sh
. "$parts/tokens.sh"

# Runs a subcommand for the index entries that the arguments of an upgrade need, or, if `wanted` is set, for
# the lookups in that file. `stored` is --offline where nothing is fetched.
wanted=''
entries() { # SUBCOMMAND ARGUMENT..
    entries_step=$1; shift
    "$tool" "$entries_step" --cache "$cache" --room "$room" \
        ${wanted:+--lookups "$wanted"} ${stored:+"$stored"} -- "$@"
}
plan_entries() { umask 077; entries fetch-plan "$@"; } # ARGUMENT..

# curl's options for all transfers, as tokens.sh sets them. They may have tokens.
configuration() { printf '%s\n' "$curl_options"; }

# Runs curl for the transfers in the file `again`. Its line about each goes to the file `round`: NUMBER,
# HTTP STATUS, EXIT CODE, REDIRECTS, SECONDS and MESSAGE, separated by tabs. A body of more than 100 MB
# cannot be written, since files are limited to that size; curl then continues with the other transfers.
run_curl() {
    trap '' XFSZ
    ulimit -f 204800 2> /dev/null # blocks of 512 bytes
    configuration | "$tool" fetch-round "$room" |
        curl -q --no-progress-meter -Z --parallel-immediate --parallel-max 16 --config - > "$room/round"
}

# Ends each transfer of this round with the error that the cache could not be written. Its files are emptied
# first, so that a full disk has room for these lines.
give_up_round() {
    for it in "$room"/*[0-9]; do : > "$it"; done
    while read -r number _; do
        printf '%s\t000\t23\t0\tthe cache could not be written\n' "$number"
    done < "$room/again" 2> /dev/null >> "$room/answers" || die "the cache could not be written, below $cache"
}

# What is updated, and how many of the transfers have an answer.
count_answers() {
    set -- "$indexes" "$(find "$room" -name '*.head' -size +0 2> /dev/null | wc -l)"
    echo "$1 ($(($2))/$transfers)"
}
# The name of the index that is updated, or the number of indexes.
name_indexes() {
    set -- "$(cut -f 1 "$room/lookups" | grep '^sparse+http' | sort -u)"
    case $1 in
        *"
"*) echo "$(($(printf '%s\n' "$1" | wc -l))) indexes" ;;
        *) if grep -q -F "\"$1\"" "$room/last.toml"; then echo 'crates.io index'; else
            printf '%s\n' "$1" |
                sed -e 's,^sparse+https*://,,' -e 's,^[^/]*@,,' -e 's,/$,,' -e 's,$, index,' | shown
        fi ;;
    esac
}

# Makes the transfers in rounds: `fetch-retry` decides which of them are in the next round, and prints how
# long to wait before it. There are at most `net.retry` rounds after the first one.
transfer() {
    tries=$(cat "$room/retry") usual=1 indexes=''
    [ -z "$columns" ] || indexes=$(name_indexes)
    configuration | sed -n 's/^write-out = "\([0-9]*\).*/\1/p' > "$room/again"
    : > "$room/answers"
    while [ -s "$room/again" ]; do
        while read -r number _; do : > "$room/$number.head"; done < "$room/again"
        say_later Updating count_answers
        run_process run_curl
        curl_status=$?
        unsay
        pause=$("$tool" fetch-retry "$room" "$tries" "$usual" "$curl_status" 2> /dev/null) ||
            { give_up_round; break; }
        [ -n "$pause" ] || break
        tries=$((tries - 1)) usual=$((usual < 8 ? usual * 2 : usual))
        say Waiting "$(printf '%s\n' "$pause" | shown)"
        run_process sleep "${pause%% *}"
        unsay
    done
}

# Ends the run if cargo is too old for a sparse registry of a configuration. (Crates of the built-in
# registry are no error: an older cargo has a git index of it.) The version of cargo is read only if its
# metadata have no `workspace_default_members`, which came with cargo 1.71.
check_cargo() {
    ! grep -q '"workspace_default_members"' "$room/metadata.json" || return 0
    builtin=$(sed -n 's/.*"\(sparse+[^"]*\)".*/\1/p' "$room/last.toml")
    grep '^sparse+' "$room/lookups" | grep -q -v -F -- "${builtin:-sparse+none}" || return 0
    case $("$cargo" --version) in
        'cargo 1.'[0-9].* | 'cargo 1.'[1-5][0-9].* | 'cargo 1.6'[0-7].*)
            die "cargo 1.68 or later is needed for sparse registries, and this is $("$cargo" --version)" ;;
    esac
}

# Fetches the index entries that the upgrade with these arguments needs, to the cache, and lists them in the
# file `index` of the folder of the run. If cargo's settings say offline, nothing is fetched, and the entries
# come from the cache.
fetch_entries() { # ARGUMENT..
    stored=$offline
    run_process plan_entries "$@" > "$room/count" || {
        status=$?
        cat "$room/count" # the message of an error, with JSON
        exit "$status"
    }
    check_cargo
    transfers=$(cat "$room/count")
    if [ "$transfers" != 0 ]; then
        fault=$("$tool" check-curl "$(curl --version 2> /dev/null)" 2>&1) || die "${fault#Error: }"
        find_tokens "$@"
        [ -z "$curl_options" ] || transfer
    elif grep -q '^sparse+http' "$room/lookups"; then stored=--offline; fi
    run_process entries fetch-store "$@" || exit $?
    warn_of_formats
}

# Warns of index lines in a format that cargo does not know and therefore ignores. (A record of the list of
# entries ends with the path of its file; its other fields are no files.)
warn_of_formats() {
    set -- "$(cd "$room" && tr '\t' '\0' < index | xargs -0 grep -l -s -E '"v": *([3-9]|[1-9][0-9])' |
        sed 's,.*/,,' | sort -u | tr '\n' ' ')"
    [ -z "$1" ] ||
        printf 'warning: the index has versions of a format that is too new for cargo: %s\n' "${1% }" | shown >&2
}

# Fetches the index entries of the lookups in a file, and lists them in a folder below the folder of the run.
fetch_lookups() { # FILE FOLDER ARGUMENT.. of the upgrade
    wanted=$1 own_room=$room room=$2; shift 2
    fetch_entries "$@"
    room=$own_room own_room='' wanted=''
}
