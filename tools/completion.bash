# Completion of dp for bash: its commands, then names of files, and of numbers nothing.

_dp()
{
    local word=${COMP_WORDS[COMP_CWORD]} kind=
    COMPREPLY=()
    if [ "$COMP_CWORD" -eq 1 ]; then
        mapfile -t COMPREPLY < <(compgen -W "replay check make trial drift" -- "$word")
        return
    fi
    case ${COMP_WORDS[1]}:$COMP_CWORD in
        replay:2 | check:2 | trial:2 | drift:2) kind=toml ;;
        replay:4) kind=script ;;
        replay:3 | drift:3) kind=any ;;
    esac
    [ -n "$kind" ] || return
    compopt -o filenames 2> /dev/null
    if [ "$kind" = any ]; then
        mapfile -t COMPREPLY < <(compgen -f -- "$word")
    else
        mapfile -t COMPREPLY < <(compgen -d -- "$word"; compgen -f -X "!*.$kind" -- "$word")
    fi
}

complete -F _dp dp
