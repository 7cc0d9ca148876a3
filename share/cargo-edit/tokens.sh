# shellcheck shell=sh disable=SC2154,SC2034
# Sourced by fetch.sh: finds the tokens of registries, and sets `curl_options`. Tokens are only in variables
# of this shell, which are not exported, and in pipes: no file, no environment and no list of processes has
# one.
unset reply replies curl_options # (a variable of the environment would stay exported)

# Fetches `config.json` of registries without a token.
fetch_probes() {
    retries=$(cat "$room/retry")
    printf '%s\n' "$probes" | sed "s/^silent\$/&\\
retry = $retries\\
retry-max-time = 60\\
retry-all-errors/" |
        curl -q --no-progress-meter -Z --parallel-max 16 --config - > "$room/probes/answers"
}

name_probes() { echo 'registries whether they want a token'; }

# Runs a credential provider, and prints its answer as one line. No shell evaluates its command line.
answer_of_provider() { # COMMAND ARGUMENT..
    case $how in
        plugin) printf '%s\n' "$request" | { (exec "$@" 4>&-); echo $? > "$room/ended"; } ;;
        *)
            (
                export CARGO="$cargo" CARGO_REGISTRY_INDEX_URL="$registry_address"
                [ -z "$registry_name" ] || export CARGO_REGISTRY_NAME_OPT="$registry_name"
                exec "$@" 4>&-
            )
            echo $? > "$room/ended"
            ;;
    esac | "$tool" credential-reply "$how"
}

# Runs a credential provider, and adds its exit status and its answer to `replies`.
ask_provider() { # CALL, as `credential-request` prints it
    eval "$1" # sets how, registry_address, registry_name and request, and the arguments
    run_process answer_of_provider "$@" >&4 || die "the answer of the credential provider $1 cannot be read"
    IFS= read -r reply <&4
    replies="$replies$(cat "$room/ended") $reply
"
}

# Sets `call` to the next call of a provider, given the answers so far; to nothing if none is left.
find_provider() { # ARGUMENT..
    call=$(printf '%s' "$replies" | entries credential-request "$@" 2> "$room/faults") || end_step
}

# Finds the tokens for the transfers of this run: fetches `config.json` of the registries that may want one,
# and runs the providers for those that do.
find_tokens() { # ARGUMENT..
    replies='' probes=$(entries credential-probes "$@" 2> "$room/faults") || end_step
    if [ -n "$probes" ]; then
        (umask 077; mkdir "$room/probes" && mkfifo "$room/reply") || die "$room cannot be written"
        say_later Asking name_probes
        run_process fetch_probes
        unsay
        exec 4<> "$room/reply"
        while find_provider "$@" && [ -n "$call" ]; do ask_provider "$call"; done
        exec 4>&-
    fi
    curl_options=$(umask 077; printf '%s' "$replies" | entries fetch-config "$@" 2> "$room/faults") ||
        end_step
}
