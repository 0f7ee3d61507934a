# The words of txos, for bash to complete.
_txos() {
    local words=''
    case $COMP_CWORD:${COMP_WORDS[1]} in
        1:*) words='@COMMANDS@ @OPTIONS@' ;;
@BASH_CASES@
    esac
    mapfile -t COMPREPLY < <(compgen -W "$words" -- "$2")
}
complete -F _txos txos
