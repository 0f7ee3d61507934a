# Sourced by checks: sets `words` to those of the command that a text is for.
# NAME.walk is for the debugger; NAME.program is run, by the words that NAME.words
# has, or else by one worker for one turn; any other text is replayed.
words_for() {
    case $1 in
        *.walk) words=(debug) ;;
        *.program)
            words=(run --workers 1 --turns 1)
            [ ! -f "${1%.program}.words" ] || read -ra words <"${1%.program}.words"
            ;;
        *) words=(replay) ;;
    esac
}
