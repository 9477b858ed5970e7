# Sourced by native, programs and sanitized, with the repository in $root: what is made of the proved functions for another processor than the product's, and
# the LLVM module that rattle compiles into the product.
# shellcheck shell=sh disable=SC2154 # root is set where this is sourced

# shellcheck source-path=SCRIPTDIR source=../tools/made.sh
. "$root/tools/made.sh"

host=$(uname -m)
machine=${T24_MACHINE:-$host} # a processor that is not at hand can be asked for
module=$root/target/module
product=$root/target/staticlib/libtype24.a

# need_target: the toolchain makes code for these two alone, and runs on the first alone.
need_target() {
    case $machine in
    x86_64 | aarch64) ;;
    *) echo "native: the proof kit, $(cat "$root/.ci/kit"), makes code for x86_64 and aarch64, and none for $machine" >&2; exit 1 ;;
    esac
    [ "$host" = x86_64 ] || { echo "native: there is a proof kit, $(cat "$root/.ci/kit"), for x86-64 alone; this is $host" >&2; exit 1; }
}

# made_for MACHINE: the folder for what is made for that processor.
made_for() {
    if [ "$1" = "$host" ]; then echo "$root/target/native"; else echo "$root/target/native-$1"; fi
}

# made_over CRATE FILE WORD..: over_libraries of tools/made.sh; where libraries are missing, or are of several runs and do not fit each other, rt builds them first.
made_over() {
    over_libraries "$@" && return
    verb=run
    [ -f "$root/crates/$1/src/main.rt" ] || verb=lib
    (cd "$root/crates/$1" && rt $verb </dev/null) >"$made_log" 2>&1 || : # a program's own status
    over_libraries "$@" || { cat "$made_log" >&2; echo "native: $1 was not built" >&2; exit 1; }
}

# make_toolchain: a toolchain like the one at hand, whose compiler keeps the module that it is given, and the words that it is called with, a line each.
make_toolchain() {
    rm -rf "$module"
    mkdir -p "$module/toolchain/bin"
    for part in "$rattle_kit/toolchain"/* "$rattle_kit/toolchain/bin"/*; do
        place=$module/toolchain${part#"$rattle_kit/toolchain"}
        [ -e "$place" ] || ln -s "$part" "$place"
    done
    rm "$module/toolchain/bin/clang"
    cat >"$module/toolchain/bin/clang" <<SCRIPT
#!/bin/sh
for word in "\$@"; do
    case \$word in *.bc) cp "\$word" "$module/module.bc" && printf '%s\n' "\$@" >"$module/words" ;; esac
done
exec "$rattle_kit/toolchain/bin/clang" "\$@"
SCRIPT
    chmod +x "$module/toolchain/bin/clang"
}

# need_module: the module of the product as text in $module/module.ll, and the product beside it, which rattle makes of that module again.
need_module() {
    "$root/tools/prove" archive
    if as_new "$module/module.ll"; then
        return
    fi
    make_toolchain
    made_over type24_c "$module/libtype24.a" --toolchain "$module/toolchain"
    [ -f "$module/module.bc" ] || { echo "native: rattle compiled nothing" >&2; exit 1; }
    cmp "$module/libtype24.a" "$product" >&2 || { echo "native: the module is not that of ${product#"$root/"}" >&2; exit 1; }
    "$rattle_kit/toolchain/bin/clang" --target=x86_64-unknown-linux-gnu -x ir "$module/module.bc" -S -emit-llvm -O0 -Xclang -disable-llvm-passes \
        -o "$module/module.ll"
}

# make_archive TEXT FOLDER [FLAG...]: FOLDER/libtype24.a, from a module as text, by the compiler and the words that rattle took for the module of the product.
make_archive() (
    text=$1 folder=$2
    shift 2
    while IFS= read -r word; do
        case $word in
        *.bc) word=$text ;;
        *.o) word=$folder/type24_c.o ;;
        esac
        set -- "$@" "$word"
    done <"$module/words"
    "$rattle_kit/toolchain/bin/clang" "$@"
    rm -f "$folder/libtype24.a"
    "$rattle_kit/toolchain/bin/llvm-ar" rcs "$folder/libtype24.a" "$folder/type24_c.o"
)
