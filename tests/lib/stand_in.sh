#!/usr/bin/env bash
# Stands in for the program, where a check runs before there is one: gives the
# answer that was kept for these words and this text in the folder STAND_IN. Where
# none was, it keeps them as a case to be answered, and ends with status 1.
#
# usage: STAND_IN=FOLDER tests/lib/stand_in.sh WORD.. <TEXT
set -u

input=$(mktemp) || exit 2
trap 'rm -f "$input"' EXIT
cat >"$input"
name=$({ printf '%s\n' "$@"; cat "$input"; } | sha256sum) || exit 2
name=${name%% *}

answer=$STAND_IN/answers/$name
if [ -f "$answer.status" ]; then
    cat "$answer.out"
    cat "$answer.err" >&2
    exit "$(cat "$answer.status")"
fi
cp "$input" "$STAND_IN/cases/$name"
printf '%s\n' "$@" >"$STAND_IN/cases/$name.args"
exit 1
