# Sourced by build and add-processor, with scratch room in $work: what an archive must have and must not have.
# shellcheck shell=sh disable=SC2154 # work is set where this is sourced

# symbols NM FLAG...: lines of name and type, without those that name members.
symbols() {
    tool=$1
    shift
    (cd "$work" && "$tool" -P "$@" libtype24.a) >"$work/raw" || fail "$tool cannot read $archive"
    awk 'NF >= 2 { print $1, $2 }' "$work/raw" | sort -u
}

# check_archive ARCHIVE NM: fails unless it is ours and whole; a copy that was checked stands in $work/libtype24.a.
check_archive() {
    archive=$1
    cp "$archive" "$work/libtype24.a"
    symbols "$2" -g --defined-only >"$work/defined"
    symbols "$2" -u >"$work/needed"
    symbols "$2" >"$work/all"

    # Everything the archive shows to the linker is ours, and all of it is there.
    while read -r name type; do
        case $name in
        t24_*) ;;
        *) fail "the archive exports the foreign name $name ($type)" ;;
        esac
    done <"$work/defined"
    for name in t24_sheet t24_lengths t24_reset t24_enable t24_exchange t24_replay t24_turn t24_version t24_difference; do
        grep -q "^$name T" "$work/defined" || fail "the archive lacks $name"
    done

    # Of the C library it asks only what every compiler takes for granted.
    while read -r name type; do
        case $name in
        memcpy | memset | memmove | memcmp) ;;
        *) grep -q "^$name " "$work/defined" || fail "the archive needs $name" ;;
        esac
    done <"$work/needed"

    # The header promises that nothing is kept from call to call.
    while read -r name type; do
        case $type in
        [bBdDC]) fail "the archive keeps data in $name ($type)" ;;
        esac
    done <"$work/all"
}

# install_processor DIST MACHINE CC [PROGRAMS]: DIST/MACHINE, a whole prefix of its own, with the archive that was checked.
install_processor() {
    own=$1/$2 compiler=$3
    mkdir -p "$own/lib/pkgconfig"
    ln -sfn ../include "$own/include"
    for program in $PROGRAMS t24-explain; do rm -f "$own/libexec/$program"; done # none is left of an earlier build
    cp "$work/libtype24.a" "$own/lib/libtype24.a"
    sed "s/@VERSION@/$(version_of "$1")/" "$kit/type24.pc.in" >"$own/lib/pkgconfig/type24.pc"
    [ $# -lt 4 ] || install_programs "$own/libexec" "$4"
    [ ! -f "$1/example/explain.c" ] || install_explain "$1" "$own"
    link_lib "$1"
}

install_programs() {
    mkdir -p "$1"
    for program in $PROGRAMS; do
        [ -f "$2/$program" ] || fail "no program at $2/$program"
        cp "$2/$program" "$1/$program"
        chmod 755 "$1/$program"
    done
}

install_explain() {
    need "$compiler"
    mkdir -p "$2/libexec"
    "$compiler" -std=c99 -O2 -static -I"$1/include" "$1/example/explain.c" "$2/lib/libtype24.a" -o "$2/libexec/t24-explain"
    cp "$kit/launchers/t24-explain" "$1/bin/t24-explain"
}

version_of() { sed -n 's/^version //p' "$1/VERSION"; }

# link_lib DIST: DIST/lib leads to the archive for the processor at hand, and where there is none to the product's. Only a link, or a folder
# that holds what an earlier kit had there and nothing else, makes room for it.
link_lib() {
    hand=$(uname -m)
    [ -d "$1/$hand" ] || hand=x86_64
    if [ -d "$1/lib" ] && [ ! -L "$1/lib" ]; then
        rm -f "$1/lib/libtype24.a" "$1/lib/pkgconfig/type24.pc"
        rmdir "$1/lib/pkgconfig" "$1/lib" || fail "$1/lib holds what is not the kit's"
    fi
    ln -sfn "$hand/lib" "$1/lib"
}
