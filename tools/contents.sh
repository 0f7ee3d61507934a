# What the program is made from, and whether the program that is there was made
# from it. For the scripts that set `top`, the checkout's folder, and read this.
#
# The contents decide: a sum over the files that a proof of the program reads,
# and over their lines in crates.txt. To work it out takes a tenth of a second,
# so it is kept together with a listing of names, sizes and dates of the files,
# and is worked out again only where a listing is another.

# Another one would have `cd` go elsewhere.
CDPATH=''
out=$top/crates/txos/out
program=$out/txos
# The sum of the contents that the program was made from, and the program's own.
mark=$out/txos.sum
# The sums that were worked out last, and the listing at which they were.
seen=$out/txos.seen
# The library for C, with the sums of the contents that it was made from and its own.
library=$top/crates/txos_c/out/libtxos.a
library_mark=$top/crates/txos_c/out/libtxos.sum

# The crates that a crate stands on, lowest first, and itself at the end: where none is
# named, those of the program.
crates_below() {
    awk -F ': *' -v top="${1:-txos}" '
        /^[a-z]/ { split($1, counted, " "); below[counted[1]] = $2 }
        function list(name, each, names, number) {
            if (!(name in below) || name in seen) return
            seen[name] = 1
            number = split(below[name], names, " ")
            for (each = 1; each <= number; each++) list(names[each])
            print name
        }
        END { list(top) }
    ' "$top/crates.txt"
}

# The lines of crates.txt that name the given crates.
lines_of() {
    local IFS='|'
    grep -E "^($*)([ :]|\$)" "$top/crates.txt"
}

# A line for each file below the places that are given: a change of a file
# changes its line. It takes the shell's place, so call it in one of its own.
listing() {
    cd "$top" && exec find "$@" -type f -printf '%p %s %C@ %i\n' 2>/dev/null
}

# The folders of the given crates that rt reads, whether or not they are there.
folders_of() {
    local name folders=()
    for name in "$@"; do
        folders+=("crates/$name/src" "crates/$name/specs" "crates/$name/proofs")
    done
    echo "${folders[*]}"
}

# The sum of the crates that are given: of their lines in crates.txt, and of the
# files that rt reads of them.
sum_of() {
    local sum
    sum=$(
        lines_of "$@"
        cd "$top" && find $(folders_of "$@") -type f -print0 2>/dev/null |
            LC_ALL=C sort -z | xargs -0 sha256sum
    ) && printf '%s\n' "$sum" | sha256sum | head -c 64
}

# The sum of a file, or `none` where there is no such file.
file_sum() {
    if [ -f "$1" ]; then sha256sum <"$1" | head -c 64; else echo none; fi
}

# Sets `contents` and `made`, the sums of what is there now and of the program.
look() {
    local places
    if read -r contents made places 2>/dev/null <"$seen" &&
        { printf '%s %s %s\n' "$contents" "$made" "$places"; listing $places; } | cmp -s - "$seen"; then
        return 0
    fi
    work_out
}

# Prints the places of the crates that are given: their list and their folders.
sources_of() {
    echo crates.txt "$(folders_of "$@")"
}

# Works `contents` and `made` out, and keeps them where the folder can be
# written, unless a file is so new that another change might not show.
work_out() {
    local crates places before
    crates=$(crates_below) && [ -n "$crates" ] || return 1
    places="$(sources_of $crates) crates/txos/out/txos"
    before=$(listing $places)
    contents=$(sum_of $crates)
    made=$(file_sum "$program")
    if [ -w "$out" ] && [ "$before" = "$(listing $places)" ] &&
        [ -z "$(cd "$top" && find $places -newerct '2 seconds ago' -print -quit 2>/dev/null)" ]; then
        printf '%s %s %s\n%s\n' "$contents" "$made" "$places" "$before" >"$seen.$$" &&
            mv -f "$seen.$$" "$seen" || rm -f "$seen.$$"
    fi 2>/dev/null
    return 0
}

# Whether the program is there and was made from these contents.
is_proved() {
    local of_contents of_program
    look && read -r of_contents of_program 2>/dev/null <"$mark" &&
        [ "$contents $made" = "$of_contents $of_program" ] && [ -x "$program" ]
}

# Marks the program as made from these contents, unless they are other ones than
# the sum that is given, which was worked out before the program was built.
mark_program() {
    look && [ "$contents" = "$1" ] && [ "$made" != none ] &&
        printf '%s %s\n' "$contents" "$made" >"$mark.$$" && mv -f "$mark.$$" "$mark"
}

# The sums of the contents that the library is made from, and of the library that is there.
library_sums() {
    printf '%s %s\n' "$(sum_of $(crates_below txos_c))" "$(file_sum "$library")"
}

# Whether the library is there and was made from these contents.
is_library_proved() {
    [ -f "$library" ] && library_sums | cmp -s - "$library_mark"
}
