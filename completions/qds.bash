# Completion of qds for bash: source this file.
_qds() {
    local word=${COMP_WORDS[COMP_CWORD]} before=${COMP_WORDS[COMP_CWORD - 1]} command=${COMP_WORDS[1]} at=0 options='--scheme'
    COMPREPLY=()
    if [ "$COMP_CWORD" -eq 1 ]; then
        COMPREPLY=($(compgen -W 'check fmt replay gen post dump' -- "$word"))
        return
    fi
    # gen takes two numbers.
    [ "$command" = gen ] && return
    # bash cuts --scheme=FILE at its =, so the value comes as a word of its own.
    if [ "$word" = '=' ]; then
        word=''
    elif [ "$before" = '=' ]; then
        before=${COMP_WORDS[COMP_CWORD - 2]}
    fi
    case $before in
    --scheme) compopt -o filenames 2>/dev/null; COMPREPLY=($(compgen -f -- "$word")); return ;;
    --cap | --hcap) COMPREPLY=($(compgen -W '1 100 1024 4096' -- "$word")); return ;;
    --stripes) COMPREPLY=($(compgen -W '1 2 4 8 16' -- "$word")); return ;;
    --count | --limit) return ;;
    esac
    while [ "$((at += 1))" -lt "$COMP_CWORD" ]; do
        if [ "${COMP_WORDS[at]}" = '--' ]; then
            options=''
        fi
    done
    [ "$command" = replay ] && options=${options:+$options --cap --hcap --stripes}
    [ "$command" = dump ] && options=${options:+$options --count --limit}
    if [ -n "$options" ] && [ "${word#-}" != "$word" ]; then
        COMPREPLY=($(compgen -W "$options --" -- "$word"))
        return
    fi
    if [ "$command" = dump ]; then
        # The collector stands behind the address; keys and addresses are not known here.
        [ "$COMP_CWORD" -eq 3 ] && COMPREPLY=($(compgen -W 'TICKER STREAM HISTORY' -- "$word"))
        return
    fi
    compopt -o filenames 2>/dev/null
    COMPREPLY=($(compgen -f -- "$word"))
}
complete -F _qds qds ./qds
