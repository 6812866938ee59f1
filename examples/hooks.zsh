# Tells each command line of an interactive zsh to the store: when it begins, and when it ended, how long it took and with
# which status. Source it from ~/.zshrc with these set:
#
#     export KUVADENY_PROGRAM=.../crates/atuin_main/out/atuin_main
#     export KUVADENY_FOLDER=~/.local/share/kuvadeny       # where `$KUVADENY_PROGRAM "$KUVADENY_FOLDER" init` made a log
#
# and the folder has a key, made as `init` says. `kuvadeny_search TEXT` prints the newest command lines that have the text.

zmodload zsh/datetime
autoload -Uz add-zsh-hook

typeset -g _kuvadeny_client=${0:A:h}/client.py
typeset -g _kuvadeny_session=$(od -An -N8 -tx8 /dev/urandom | tr -d ' ')
typeset -g _kuvadeny_id= _kuvadeny_began=

_kuvadeny_ask() {
    python3 $_kuvadeny_client $KUVADENY_FOLDER "$@" 2>/dev/null
}

_kuvadeny_begins() {
    _kuvadeny_id=$(_kuvadeny_ask start "$1" "$PWD" $_kuvadeny_session "$HOST:$USER")
    _kuvadeny_began=$EPOCHREALTIME
}

_kuvadeny_ended() {
    local code=$?
    if [[ -n $_kuvadeny_id ]]; then
        local -i nanoseconds=$(( (EPOCHREALTIME - _kuvadeny_began) * 1000000000 ))
        _kuvadeny_ask end $_kuvadeny_id $nanoseconds $code
        _kuvadeny_id=
    fi
}

kuvadeny_search() {
    _kuvadeny_ask search "$1"
}

add-zsh-hook preexec _kuvadeny_begins
add-zsh-hook precmd _kuvadeny_ended
