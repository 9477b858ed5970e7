# Sourced by valgrind and sanitized, with the repository in $root, the output folder in $out, the checker's name in $checker and the words that run a program
# under it in $under: compare with the kit's spoil.c and our spoil_difference.c between it and an archive, which let every call through as long as SPOIL names
# none of their faults.
# shellcheck shell=sh disable=SC2154 # set where this is sourced

# need_tools TOOL...: these and rustc, each in the package of its name; gcc takes the C library's headers from another.
need_tools() {
    missing=
    for tool in "$@"; do
        command -v "$tool" >/dev/null || missing="$missing $tool"
    done
    command -v "${RUSTC:-rustc}" >/dev/null || missing="$missing rustc"
    [ -n "$missing" ] || return 0
    missing="$missing libc6-dev"
    echo "$checker: installing $missing" >&2
    apt-get update -qq
    # shellcheck disable=SC2086 # the packages are several words
    DEBIAN_FRONTEND=noninteractive apt-get install -y -qq $missing >/dev/null
}

# build_spoil FLAG...: spoil.o and spoil_difference.o.
build_spoil() {
    for source in kit/test/spoil.c peer/spoil_difference.c; do
        gcc -std=c99 -Wall -Wextra -Wpedantic -Werror "$@" -I"$root/kit" -c "$root/$source" -o "$out/$(basename "$source" .c).o"
    done
}

# build_compare ARCHIVE FOLDER [FLAG...]: FOLDER/compare, linked with these two and an archive, which stands behind them once more for a linker that looks into
# an archive only for what is missing so far.
build_compare() {
    archive=$1 folder=$2
    shift 2
    flags="-C link-arg=$out/spoil.o -C link-arg=$out/spoil_difference.o -C link-arg=$archive $*"
    for name in sheet lengths reset enable exchange replay difference; do
        flags="$flags -C link-arg=-Wl,--wrap=t24_$name"
    done
    T24_LIB=$archive LINK_FLAGS=$flags PROGRAMS=compare OUT=$folder "$root/peer/build"
}

# checked COMPARE FAULT EXCHANGES: tells whether the checker and compare saw nothing; what they said is in log.
checked() {
    # shellcheck disable=SC2086 # several words
    SPOIL=$2 $under "$1" "$3" "$seed" --blocks >"$out/log" 2>&1
}

# must_see COMPARE FAULT WORDS NAME: what the checker has to see in $tries exchanges, with a fault of these two or, with 0, one of the archive; the words may go over lines.
must_see() {
    if checked "$1" "$2" "${tries:-20000}" || ! tr '\n' ' ' <"$out/log" | grep -Eq "$3"; then
        cat "$out/log"
        echo "$checker: not seen: $4" >&2
        exit 1
    fi
    echo "$checker: seen: $4"
}

# must_see_nothing COMPARE EXCHANGES
must_see_nothing() {
    if ! checked "$1" 0 "$2" || grep '^not reached' "$out/log"; then
        cat "$out/log"
        exit 1
    fi
    echo "$checker: nothing outside a block, and $(tail -n 1 "$out/log")"
}
