# Tells each command line of an interactive bash to the store: when it begins, and when it ended, how long it took and with
# which status. Source it from ~/.bashrc, last of all, with these set:
#
#     export KUVADENY_PROGRAM=.../crates/atuin_main/out/atuin_main
#     export KUVADENY_FOLDER=~/.local/share/kuvadeny       # where `$KUVADENY_PROGRAM "$KUVADENY_FOLDER" init` made a log
#
# and the folder has a key, made as `init` says. `kuvadeny_search TEXT` prints the newest command lines that have the text.

_kuvadeny_client=$(dirname "${BASH_SOURCE[0]}")/client.py
_kuvadeny_session=$(od -An -N8 -tx8 /dev/urandom | tr -d ' ')
_kuvadeny_id=
_kuvadeny_waits=

_kuvadeny_ask() {
    python3 "$_kuvadeny_client" "$KUVADENY_FOLDER" "$@" 2>/dev/null
}

# Before a command line: the first command of it that isn't the prompt's own.
_kuvadeny_begins() {
    if [[ -z $_kuvadeny_waits || -n ${COMP_LINE-} ]]; then
        return
    fi
    _kuvadeny_waits=
    local line
    line=$(HISTTIMEFORMAT= history 1)
    line=${line#*[0-9]  }
    _kuvadeny_id=$(_kuvadeny_ask start "$line" "$PWD" "$_kuvadeny_session" "$HOSTNAME:$USER")
    _kuvadeny_began=${EPOCHREALTIME/[.,]/}
}

# Behind it, before the prompt. It leaves the status of the command.
_kuvadeny_ended() {
    local status=$?
    if [[ -n $_kuvadeny_id ]]; then
        _kuvadeny_ask end "$_kuvadeny_id" $(((${EPOCHREALTIME/[.,]/} - _kuvadeny_began) * 1000)) "$status"
        _kuvadeny_id=
    fi
    return "$status"
}

# The very last of the prompt's commands: what comes next is a command line.
_kuvadeny_prompted() {
    local status=$?
    _kuvadeny_waits=1
    return "$status"
}

kuvadeny_search() {
    _kuvadeny_ask search "$1"
}

trap '_kuvadeny_begins' DEBUG
PROMPT_COMMAND=(_kuvadeny_ended "${PROMPT_COMMAND[@]}" _kuvadeny_prompted)
