# Completion for bash: the commands of dnsprim, their options, files, and the zones of the configuration that was named.

# The origins in a configuration.
_dnsprim_origins() { sed -n 's/^[[:blank:]]*origin[[:blank:]]*=[[:blank:]]*"\([[:alnum:]._-]*\)".*/\1/p' "$1" 2>/dev/null; }

# The options of a command.
_dnsprim_options() {
    case $1 in
        load) echo --dry-run --explain --help ;;
        serve) echo --turns --quiet --count-every --log-level --record --explain --help ;;
        fetch) echo --since --seconds --explain --help ;;
        check) echo --config --explain --help ;;
        dump) echo --serial --explain --help ;;
        diff) echo --as-update --explain --help ;;
        history) echo --records --explain --help ;;
        verify) echo --every-sector --explain --help ;;
        init | migrate | replay) echo --explain --help ;;
    esac
}

# The words of the command line after the command and before the cursor, without options and their values.
_dnsprim_arguments() {
    local at
    for ((at = 2; at < COMP_CWORD; at++)); do
        case ${COMP_WORDS[at]} in
            --turns | --since | --seconds | --serial | --count-every | --log-level | --record)
                [[ ${COMP_WORDS[at + 1]} != = ]] || ((at++))
                ((at++))
                ;;
            -*) ;;
            *) arguments+=("${COMP_WORDS[at]}") ;;
        esac
    done
}

# What may stand at the cursor: words, or a mark that these are files.
_dnsprim_words() {
    local commands="check diff dump fetch help history init load migrate replay serve verify"
    case $previous,$current in
        --since,* | --record,*) echo :files && return ;;
        --turns,*) echo unlimited && return ;;
        --log-level,*) echo off error warn info debug trace && return ;;
        --seconds,* | --serial,* | --count-every,*) return ;;
    esac
    ((COMP_CWORD > 1)) || { echo "$commands --help --version" && return; }
    case $current,$command,${#arguments[@]} in
        -*) _dnsprim_options "$command" ;;
        *,help,0) echo "$commands" ;;
        *,check,0 | *,diff,0 | *,dump,0 | *,history,0 | *,init,0 | *,load,0 | *,migrate,0 | *,replay,[01] | *,serve,0 | *,verify,0) echo :files ;;
        *,diff,1 | *,dump,1 | *,history,1 | *,init,1 | *,load,1 | *,verify,1) _dnsprim_origins "${arguments[0]}" ;;
        *,check,1 | *,diff,[23] | *,fetch,[01]) ;;
        *) _dnsprim_options "$command" ;;
    esac
}

_dnsprim() {
    local current=${COMP_WORDS[COMP_CWORD]} previous=${COMP_WORDS[COMP_CWORD - 1]} command=${COMP_WORDS[1]} arguments=() words
    # Bash takes `--since=FILE` as three words.
    [[ $current != = ]] || current=
    [[ $previous != = ]] || previous=${COMP_WORDS[COMP_CWORD - 2]}
    _dnsprim_arguments
    words=$(_dnsprim_words)
    if [[ $words == :files ]]; then
        compopt -o filenames 2>/dev/null
        mapfile -t COMPREPLY < <(compgen -f -- "$current")
    else
        mapfile -t COMPREPLY < <(compgen -W "$words" -- "$current")
    fi
}

complete -F _dnsprim dnsprim
