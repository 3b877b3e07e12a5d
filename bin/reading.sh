# shellcheck shell=bash disable=SC2034,SC2154
# How a command at the desk takes its input and runs a program on it; to be sourced after common.sh.

# Prints why an input, a file or - for standard input, cannot be read; nothing if it can.
fault_of() { # FILE
    if [[ $1 == - ]]; then
        [[ ! -d /dev/stdin ]] || echo "standard input is a folder"
    elif [[ ! -e $1 ]]; then
        echo "there is no such file"
    elif [[ -d $1 ]]; then
        echo "is a folder"
    elif [[ ! -r $1 ]]; then
        echo "cannot be read by this user"
    fi
}

# Becomes a command that reads the input, so it takes a subshell, and leaves its number for 'watch'.
reader() { # FILE COMMAND..
    [[ -z $watcher ]] || echo "$BASHPID" >"$watched"
    if [[ $1 == - ]]; then
        exec "${@:2}"
    else
        exec "${@:2}" <"$1"
    fi
}

# A reader of the output that goes away, as after | head, is no fault; a command that it ended has this status.
nobody_reads=141

# ---- how far the input is read, where standard error is a terminal and the output goes elsewhere, for else that tells it
watcher='' watched=''

# Only a regular file has an end that is known, and what is soon done is not worth a line.
watch() { # FILE MOST-BYTES
    local reader size at name=${1##*/}
    [[ $1 != - ]] || name="standard input"
    sleep 1.5
    until [[ -s $watched ]]; do sleep 0.1; done
    reader=$(<"$watched")
    [[ -f /proc/$reader/fd/0 ]] || return 0
    size=$(stat -Lc %s "/proc/$reader/fd/0")
    ((size < $2)) || size=$2
    while at=$(sed -n 's/^pos:[ \t]*//p' "/proc/$reader/fdinfo/0") && [[ -n $at ]] && ((size > 0)); do
        printf '\r\033[K%s: %d %% of %s' "$speaker" $((at < size ? 100 * at / size : 100)) "${name:0:50}" >&3
        sleep 0.5
    done
}

begin_watch() { # FILE [MOST-BYTES]
    [[ -t 2 && ! -t 1 ]] || return 0
    watched=$(mktemp)
    watch "$1" "${2:-9223372036854775807}" 3>&2 </dev/null >/dev/null 2>&1 &
    watcher=$!
}

# The line is gone before anything else is said.
end_watch() {
    [[ -n $watcher ]] || return 0
    kill "$watcher" 2>/dev/null || true
    wait "$watcher" 2>/dev/null || true
    rm -f "$watched"
    printf '\r\033[K' >&2
    watcher=''
}
