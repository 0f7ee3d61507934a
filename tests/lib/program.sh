# Sourced by checks: sets `program` to what they try. That is TXOS, where it is set;
# else the proved program of these contents, which is built first where there is none.
program=${TXOS-}
if [ -z "$program" ]; then
    checkout=$(cd "$(dirname "${BASH_SOURCE[0]}")/../.." && pwd) || exit 2
    program=$("$checkout/tools/program") || {
        "$checkout/build" >&2 || exit 2
        program=$("$checkout/tools/program") || exit 2
    }
fi
