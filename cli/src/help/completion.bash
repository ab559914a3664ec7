# Has bash complete the words after tulfasheq: source <(tulfasheq help bash)
# It is made from the usage lines that --help shows.
_tulfasheq() {
    local word=${COMP_WORDS[COMP_CWORD]} before=${COMP_WORDS[COMP_CWORD - 1]}
    local words names=''
    COMPREPLY=()
    # bash takes --out=FILE for three words.
    [[ $before != = ]] || before=${COMP_WORDS[COMP_CWORD - 2]}
    [[ $word != = ]] || word=''
    case $before in
    {FILES})
        compopt -o default
        return
        ;;
    {FOLDERS})
        compopt -o dirnames
        return
        ;;
    {NOTHING}) return ;;
    esac
    if ((COMP_CWORD == 1)); then
        words='{COMMANDS} help --help --version'
    else
        case ${COMP_WORDS[1]} in
{OF_COMMANDS}
        help | --help | -h) words='{COMMANDS} {MADE}' ;;
        *) return ;;
        esac
    fi
    if [[ $word == -* || -z $names ]]; then
        mapfile -t COMPREPLY < <(compgen -W "$words" -- "$word")
    else
        # None is named here, so bash completes to names of files or folders.
        compopt -o "$names"
    fi
}
complete -F _tulfasheq tulfasheq
