# shellcheck shell=sh disable=SC2154
# Sourced by the scripts in bin/: the folder of a run, its processes, and its progress on a terminal. It
# uses `quiet` of these scripts, and sets `room`, the folder of this run. fetch.sh changes `room` for a
# time; meanwhile `own_room` is the folder of the run.
room='' own_room='' child='' watcher='' said=''
true 2> /dev/null <&0 || exec < /dev/null # if standard input is closed

# The number of columns of the terminal on standard error; empty where no progress is shown.
columns=''
if [ -t 2 ] && [ -z "${quiet-}" ]; then
    case ${CARGO_TERM_QUIET-}:${CARGO_TERM_PROGRESS_WHEN-}:${TERM-dumb}:${CI-} in
        true:* | *:never:* | *:*:dumb:*) ;;
        *:always:* | *:*:*:) columns=$(stty size 2> /dev/null <&2) columns=${columns##* } columns=${columns:-80} ;;
    esac
    [ "${columns:-0}" -gt 20 ] 2> /dev/null || columns=${columns:+80}
fi

# Shows a step in the current line of the terminal, as cargo does. The next output replaces it.
show_step() { # WORD TEXT
    printf "\r\033[K%12s %.$((columns - 14))s\r" "$1" "$2" >&2
}

# `say` shows a step at once, `say_later` after half a second, with the output of a command as a text that
# is renewed. Each of them, and `unsay`, removes the step that was shown before.
say() { # WORD TEXT
    unsay
    [ -z "$columns" ] || { said=yes; show_step "$1" "$2"; }
}
say_later() { # WORD COMMAND
    unsay
    [ -n "$columns" ] || return 0
    said=yes
    {
        sleep 0.5
        while kill -0 $$ 2> /dev/null; do
            show_step "$1" "$("$2")"
            sleep 0.2
        done
    } > /dev/null &
    watcher=$!
}
unsay() {
    [ -z "$watcher" ] || { kill "$watcher"; wait "$watcher"; } 2> /dev/null
    [ -z "$said" ] || printf '\r\033[K' >&2
    watcher='' said=''
}

# Runs a command with the standard input of this run, and returns its status. The command runs in the
# background, so that a signal ends this run at once: a shell handles no signal while it waits for a command
# in the foreground.
run_process() { # COMMAND ARGUMENT..
    child=begins # (a signal may come before its number is known)
    {
        "$@" <&3 3<&- &
        child=$!
    } 3<&0
    wait "$child"
    set -- $?
    child=''
    return "$1"
}

# Ends the run with the error of a step, whose standard error is in ROOM/faults: its warnings are printed,
# and its error is that of the run, with JSON also as a message.
end_step() {
    sed -n '/^Error: /q;p' "$room/faults" | shown >&2
    error=$(sed -n '/^Error: /,$p' "$room/faults")
    die "${error#Error: }"
}

# Prints a line for each process: its number, and the number of its parent.
processes() {
    if [ ! -r /proc/self/stat ]; then
        ps -A -o pid= -o ppid= 2> /dev/null |
            while read -r number parent; do echo "$number $parent"; done
        return
    fi
    for stat in /proc/[0-9]*/stat; do
        { IFS= read -r line < "$stat"; } 2> /dev/null || continue
        # shellcheck disable=SC2086 # number, state, number of the parent ..
        set -- "${line%% *}" ${line##*) }
        echo "$1 $3"
    done
}

# Ends a child process of this run with all its descendants: by SIGTERM, and by SIGKILL if they still run
# after a third of a second.
end_process() { # NUMBER
    family=" $1 " known='' all=$(processes)
    printf '%s\n' "$all" | grep -q -x "$1 $$" || return 0
    while [ "$family" != "$known" ]; do
        known=$family
        while read -r number parent; do
            case $family in *" $number "*) continue ;; esac
            case $family in *" $parent "*) family="$family$number " ;; esac
        done << END
$all
END
    done
    # shellcheck disable=SC2086 # a list of numbers
    kill -TERM $family 2> /dev/null
    for _ in 1 2 3; do
        left=''
        for number in $family; do ! is_running "$number" || left="$left $number"; done
        [ -n "$left" ] || break
        sleep 0.1
    done
    # shellcheck disable=SC2086
    [ -z "$left" ] || kill -KILL $left 2> /dev/null
    wait "$1" 2> /dev/null
}

# Whether a process runs. A zombie does not.
is_running() { # NUMBER
    [ -r /proc/self/stat ] || { kill -0 "$1" 2> /dev/null; return; }
    { IFS= read -r line < "/proc/$1/stat"; } 2> /dev/null || return 1
    case ${line##*) } in Z*) return 1 ;; esac
}

# The start time of a process, in a unit of the system. It tells the process from a later one with the same
# number. Empty if the system does not have it.
began() { # NUMBER
    { IFS= read -r line < "/proc/$1/stat"; } 2> /dev/null || return 0
    # shellcheck disable=SC2086
    set -- ${line##*) }
    echo "${20-}"
}

# A checksum of what process numbers belong to: the machine, its last start, and the namespace of processes.
place() {
    boot='' space=$(readlink /proc/self/ns/pid 2> /dev/null)
    { IFS= read -r boot < /proc/sys/kernel/random/boot_id; } 2> /dev/null
    # shellcheck disable=SC2046 # the sum, and the number of bytes
    set -- $(printf '%s\n' "$boot" "$space" "$(uname -n)" | cksum)
    echo "$1"
}

# Makes the folder of this run, and has it removed at the end. The name of the folder has the process of the
# run. Folders of processes that have ended are removed now; folders from another machine or namespace stay.
make_room() { # PREFIX OF THE NAME
    place=$(place)
    for room in "$1$place".*; do
        [ -d "$room" ] || continue
        number=${room#"$1$place".} begun=${number#*.}
        number=${number%%.*} begun=${begun%%.*}
        if ! is_running "$number" || [ "$(began "$number")" != "$begun" ]; then rm -rf -- "$room"; fi
    done
    room=''
    trap leave EXIT
    trap 'exit 129' HUP; trap 'exit 130' INT; trap 'exit 141' PIPE; trap 'exit 143' TERM
    room=$(umask 077; mktemp -d "$1$place.$$.$(began $$).XXXXXX")
}

# Ends the processes of this run, and removes its folder.
leave() {
    trap '' HUP INT PIPE TERM
    unsay
    [ "$child" != begins ] || child=${!-}
    [ -z "$child" ] || end_process "$child"
    [ -z "${own_room:-$room}" ] || rm -rf -- "${own_room:-$room}"
}
