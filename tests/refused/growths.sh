# Sourced by the checks beside it that refuse the program's growths of memory, and
# run it so. Sets `top`, `program` and `tmp`.
. "$(dirname "${BASH_SOURCE[0]}")/preload.sh"
. "$top/tests/lib/program.sh"
. "$top/tests/lib/words.sh"

# Answers the text by the words of `command`, where that is set, and else by the
# command that its name says, with that growth refused, or with none for 0. How
# many growths there were goes to the file `growths`.
answer_without() {
    local words
    words_for "$1"
    [ -z "${command-}" ] || read -ra words <<<"$command"
    REFUSE_AT=$2 REFUSE_COUNT=9 LD_PRELOAD=$tmp/refuse.so \
        "$program" "${words[@]}" <"$1" >"$tmp/out" 2>"$tmp/err" 9>"$tmp/growths"
}
