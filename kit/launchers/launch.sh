# Sourced by the launchers, with their name in $name and the kit's folder in $root: checks, and programs by processor.
# shellcheck shell=sh disable=SC2154 # name and root are set where this is sourced

export LC_ALL=C # the programs write octets, and awk is not to read letters out of them

work=
trap '[ -z "$work" ] || rm -rf "$work"' EXIT
trap 'exit 130' INT
trap 'exit 143' TERM

say() { echo "$name: $*" >&2; }

refuse() {
    say "$@"
    exit 2
}

# refuse_usage WORD...: a wrong call, with the line that says how it goes.
refuse_usage() {
    say "$@"
    show_usage >&2
    exit 2
}

# no_options PLACE WORD...: the words behind the options are files; one that looks like an option came too late.
no_options() {
    place=$1
    shift
    for word in "$@"; do
        case $word in
        -?*) refuse_usage "options come before $place: $word" ;;
        esac
    done
}

# take_options PLACE WORD...: --help and --hex in front of the files; $hex says whether --hex was among them, and $taken how many words that were.
take_options() {
    before=$1 hex=no taken=0
    shift
    while [ $# -gt 0 ]; do
        case $1 in
        --help | -h)
            show_help
            exit 0
            ;;
        --hex) hex=yes ;;
        --)
            taken=$((taken + 1))
            return
            ;;
        -?*) refuse_usage "unknown option $1" ;;
        *)
            no_options "$before" "$@"
            return
            ;;
        esac
        shift
        taken=$((taken + 1))
    done
}

need_work() { [ -n "$work" ] || work=$(mktemp -d) || refuse "no room for temporary files"; }

# need_file FILE: one that can be opened, and read more than once; the fault is said by the file's name.
need_file() {
    if [ -d "$1" ]; then
        say "$1: is a directory"
    elif [ -p "$1" ]; then
        say "$1: is a pipe, can't be read twice"
    elif [ ! -e "$1" ]; then
        say "$1: no such file"
    elif [ ! -f "$1" ]; then
        say "$1: is not a file, can't be read twice"
    elif [ ! -r "$1" ]; then
        say "$1: can't be read"
    else
        return 0
    fi
    return 1
}

# lay_sheet FILE NAME: the sheet, in octets or by --hex in lines of hex, where a program that runs in $work finds it.
lay_sheet() {
    if [ "$hex" = yes ]; then
        "$root/bin/t24-hex" to "$work/$2" <"$1" || refuse "$1: not lines of hex"
    else
        cp -- "$1" "$work/$2" || refuse "$1: can't be read"
    fi
}

# find_program PROGRAM: its file and, where it is for another processor, the emulator's words, in $program and $emulator.
find_program() {
    hand=$(uname -m) emulator=
    machine=${T24_MACHINE:-$hand}
    [ -n "${T24_MACHINE:-}" ] || [ -f "$root/$machine/libexec/$1" ] || machine=x86_64
    program=$root/$machine/libexec/$1
    [ -f "$program" ] || refuse "the kit has no program at $program"
    [ "$machine" != "$hand" ] || return 0
    command -v "qemu-$machine" >/dev/null 2>&1 \
        || refuse "$program is for $machine, this is $hand, and there is no qemu-$machine (Debian: qemu-user)"
    emulator=qemu-$machine
    # Debian's C library for another processor, whole, lest its loader meets one of another version.
    libraries=/usr/$machine-linux-gnu
    [ ! -d "$libraries/lib" ] || emulator="$emulator -L $libraries -E LD_LIBRARY_PATH=$libraries/lib"
}

# run_program WORD...: what find_program found; what it ends with goes to $work/ended, as it stands before a pipe.
run_program() {
    # shellcheck disable=SC2086 # the emulator is several words, or none
    $emulator "$program" "$@" && echo 0 >"$work/ended" || echo $? >"$work/ended"
}

# need_good_end: the programs end with 0 whatever they find, so another number is a fault of the program or its emulator.
need_good_end() {
    ended=$(cat "$work/ended" 2>/dev/null) || ended=unknown
    [ "$ended" = 0 ] || refuse "the program ended with $ended"
}

# explain EXPECTED WORD...: what t24-explain says on either stream, where the kit has it; it has to come to the same end as the program.
explain() {
    [ -x "$root/bin/t24-explain" ] || return 0
    expected=$1 told=0
    shift
    "$root/bin/t24-explain" "$@" 2>&1 || told=$?
    [ "$told" = "$expected" ] || say "t24-explain ended with $told, expected $expected"
}
