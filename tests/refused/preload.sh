# Sourced by the checks beside it: builds what counts and refuses growths of memory,
# `$tmp/refuse.so`. Sets `top` and `tmp`.
here=$(cd "$(dirname "${BASH_SOURCE[0]}")" && pwd) || exit 2
top=$(cd "$here/../.." && pwd) || exit 2
clang=$(dirname "$(rt doc)")/toolchain/bin
tmp=$(mktemp -d) || exit 2
trap 'rm -rf "$tmp"' EXIT

"$clang/clang" -O2 -shared -fPIC -nostdlib -fuse-ld=lld -B"$clang" \
    -o "$tmp/refuse.so" "$here/refuse.c" || exit 2
