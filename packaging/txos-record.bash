# The words of txos-record, for bash to complete. After a command, what is no option is a file.
_txos_record() {
    local words=''
    case $COMP_CWORD:${COMP_WORDS[1]} in
        1:*) words='@COMMANDS@ @OPTIONS@' ;;
@BASH_CASES@
    esac
    [[ $COMP_CWORD -eq 1 || $2 == -* ]] || words=''
    mapfile -t COMPREPLY < <(compgen -W "$words" -- "$2")
}
complete -o default -F _txos_record txos-record
