# Answers words that need no program: those that ask for help, and those that
# the program does not understand. For scripts that set `top` and read this.

# Prints the help that is kept under a name, as the program does.
tell() {
    printf '%s\n' "$(<"$top/tools/help/$1")" >&2
    exit 2
}

# Says that words are not understood, and how those of a command are used.
refuse() {
    local command=$1 why=$2 usage
    usage=$(grep -m 1 '^Usage:' "$top/tools/help/$command")
    printf "error: %s\n\n%s\n\nFor more information, try '--help'.\n" "${why//[^ -~]/?}" "$usage" >&2
    exit 2
}

# Whether a word is a number from 1 to a greatest one, as the program reads it.
is_number() {
    local digits=${1#+}
    [[ $digits =~ ^0*([1-9][0-9]{0,4})$ ]] && [ "${BASH_REMATCH[1]}" -le "$2" ]
}

# The words after `help`.
help_words() {
    case $#:${1-} in
        0:) tell txos ;;
        1:replay | 1:debug | 1:json | 1:picture | 1:expect | 1:shell | 1:run | 1:check | 1:explain | 1:plain | 1:version | 1:help) tell "$1" ;;
        *) refuse txos "'$*' is no command that there is help for" ;;
    esac
}

# The words after `replay`, `debug`, `expect`, `plain` or `version`, or after those of `shell`:
# there are none.
lone_words() {
    local command=$1
    shift
    case $#:${1-} in
        0: | 1:--) ;;
        *:-h | *:--help) tell "$command" ;;
        *) refuse "$command" "'$1' is not understood after $command" ;;
    esac
}

# The words after `shell`: `--json`, or none.
shell_words() {
    [ "${1-}" != --json ] || shift
    lone_words shell "$@"
}

# The words after `check`: the command that is to read the text, or none.
check_words() {
    local word
    for word in "$@"; do
        case $word in
            -h | --help) tell check ;;
            --) break ;;
            -?*) refuse check "'$word' is not understood after check" ;;
        esac
    done
    [ "${1-}" != -- ] || shift
    case ${1-replay} in
        replay | debug | run | picture | json) ;;
        *) refuse check "'$1' is none of replay, debug, run, picture and json" ;;
    esac
    [ $# -le 1 ] || [ "$#:$2" = 2:-- ] || refuse check "'$2' is not understood after check"
}

# The words after `explain`: one, or none. A number may have `-` before it.
explain_words() {
    local word
    case $#:${1-} in
        1:-[0-9]*) return ;;
    esac
    for word in "$@"; do
        case $word in
            -h | --help) tell explain ;;
            --) break ;;
            -?*) refuse explain "'$word' is not understood after explain" ;;
        esac
    done
    [ "${1-}" != -- ] || shift
    [ $# -le 1 ] || [ "$#:$2" = 2:-- ] || refuse explain "'$2' is not understood after explain"
}

# The words after a command that takes two numbers, each once at most, by options that are given
# with the greatest number of each. Sets `first` and `second`.
numbers_words() {
    local command=$1 one=$2 most_one=$3 two=$4 most_two=$5 name value
    shift 5
    first='' second=''
    while [ $# -gt 0 ]; do
        case $1 in
            -h | --help) tell "$command" ;;
            "$one"=* | "$two"=*) name=${1%%=*} value=${1#*=} ;;
            "$one" | "$two")
                name=$1 value=${2-}
                [[ $value == [!-]* ]] || refuse "$command" "$name wants a number"
                shift
                ;;
            --) [ $# -eq 1 ] || refuse "$command" "'$2' is not understood after $command"; break ;;
            *) refuse "$command" "'$1' is not understood after $command" ;;
        esac
        shift
        case $name in
            "$one") [ -z "$first" ] && is_number "$value" "$most_one" && first=$value ;;
            "$two") [ -z "$second" ] && is_number "$value" "$most_two" && second=$value ;;
        esac || refuse "$command" "$name is a number from 1 on, given once: at most $most_one for $one, $most_two for $two"
    done
}

# The words after `run` or `json`: the two numbers of a run. Behind `json` both may be missing.
crew_words() {
    local first second
    numbers_words "$1" --workers 16 --turns 10000 "${@:2}"
    case $1:${first:+w}${second:+t} in
        run:wt | json:wt | json:) ;;
        run:*) refuse run "run wants --workers and --turns" ;;
        json:*) refuse json "json takes --workers and --turns together, or neither" ;;
    esac
}

# The words after `picture`: the first and the last step that is drawn, of which both may be missing.
excerpt_words() {
    local first second
    numbers_words picture --from 4096 --to 4096 "$@"
    [ "${first:-1}" -le "${second:-4096}" ] || refuse picture "the step of --from must not be after that of --to"
}

# Answers the words and ends the script, or returns where they ask for a run.
answer_words() {
    local LC_ALL=C
    [ $# -gt 0 ] || tell none
    case $1 in
        -h | --help) tell txos ;;
        help) help_words "${@:2}" ;;
        replay | debug | expect | plain | version) lone_words "$@" ;;
        shell) shell_words "${@:2}" ;;
        check) check_words "${@:2}" ;;
        explain) explain_words "${@:2}" ;;
        -V | --version) tell own_version ;;
        run | json) crew_words "$@" ;;
        picture) excerpt_words "${@:2}" ;;
        *) refuse txos "'$1' is no command" ;;
    esac
}
