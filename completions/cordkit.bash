# Completions of cordkit, cordedit, cordkit-verify and cordkit-lsp for bash.

# What the words of a command are, in their order; `files` are all words from there on.
_cordkit_kinds() {
    case $1 in
        check | migrate | log | apply | cordkit-verify) echo file files ;;
        show | blame) echo file number files ;;
        commit) echo file file files ;;
        restore) echo file number file files ;;
        cut) echo number number file ;;
        join) echo files ;;
        find) echo number text file ;;
        cmp | edit | serve) echo file file ;;
        cordedit) [[ -n $continued ]] && echo file file file || echo file file ;;
        cordkit-lsp) [[ -n $looked ]] && echo number number || echo files ;;
        help) echo command ;;
    esac
}

_cordkit_options() {
    case $1 in
        cordkit-verify) echo --text --graph --at-most --help ;;
        cordkit-lsp) echo --whole --start --stop --continue --show --runs --help ;;
        check | migrate) echo --at-most --length --explain --quiet --help ;;
        show | commit | restore | serve) echo --at-most --explain --quiet --help ;;
        log) echo --at-most --length --brief --explain --quiet --help ;;
        blame) echo --at-most --start --count --explain --quiet --help ;;
        apply) echo --onto --at-most --explain --quiet --help ;;
        find) echo --all --explain --quiet --help ;;
        edit) echo --onto --keep --session --no-clobber --replace --discard --explain --quiet --help ;;
        cordedit) echo -f --replace --copy --text --continue --discard --help ;;
        help) ;;
        '') echo --explain --quiet --help --version ;;
        *) echo --explain --quiet --help ;;
    esac
}

# Reads the words before the present one: how many of the command's own there are, as `place`, whether options have ended, whether an old image is
# gone on from, and whether the present word is an option's number or file, or a file that output goes to.
_cordkit_read() {
    local k word
    for ((k = 1; k < COMP_CWORD; k++)); do
        word=${COMP_WORDS[k]}
        if [[ $word == [\<\>]* ]]; then
            ((++k == COMP_CWORD)) && redirected=yes
        elif [[ -n $ended ]]; then
            ((++place))
        elif [[ $word == -- ]]; then
            ended=yes
        elif [[ $word == --at-most || $word == --length || $word == --start || $word == --count || $word == --text || $word == --onto || $word == --keep || $word == --session ]]; then
            [[ ${COMP_WORDS[k + 1]} == = ]] && ((++k))
            ((++k >= COMP_CWORD)) && valued=$command$word
        elif [[ $command == cordkit-lsp && $word == --@(start|stop|continue|show|runs) ]]; then
            looked=yes
            ((++k >= COMP_CWORD)) && valued=$command$word
        elif [[ $word == --continue ]]; then
            continued=yes
        elif [[ $word != -* && -z $command ]]; then
            command=$word
        elif [[ $word != -* ]]; then
            ((++place))
        fi
    done
}

_cordkit() {
    local commands='check show cut join find cmp edit migrate log blame apply commit restore serve help'
    local IFS=$' \t\n' command='' place=0 ended='' valued='' continued='' looked='' redirected='' kind kinds
    COMPREPLY=()
    [[ ${1##*/} == cordkit ]] || command=${1##*/}
    _cordkit_read
    if [[ -n $redirected || $valued == edit--* || $valued == apply--onto || $valued == cordedit--text || $valued == cordkit-lsp--* ]]; then
        compopt -o default
        return
    fi
    [[ -z $valued ]] || return
    if [[ -z $ended && $2 == -* ]]; then
        COMPREPLY=($(compgen -W "$(_cordkit_options "$command")" -- "$2"))
        return
    fi
    kind=command
    if [[ -n $command ]]; then
        kinds=($(_cordkit_kinds "$command"))
        kind=${kinds[place]:-}
        if [[ -z $kind && ${kinds[*]} == *files ]]; then
            kind=files
        fi
    fi
    case $kind in
        command) COMPREPLY=($(compgen -W "$commands" -- "$2")) ;;
        file | files) compopt -o default ;;
    esac
}

complete -F _cordkit cordkit cordedit cordkit-verify cordkit-lsp
