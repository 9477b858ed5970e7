# Sourced by tools/prove and peer/module.sh, with the repository in $root: what was made from the crates as they are, and how rattle makes something over
# the libraries that stand proved in crates/*/out.
# shellcheck shell=sh disable=SC2154 # root is set where this is sourced

rattle_kit=$(dirname "$(dirname "$(readlink -f "$(command -v rt)")")")
made_log=$root/target/log/run.log

# as_new FILE: tells whether a file is there that was made from the crates as they are, by the toolchain at hand. What lies in out/ and must-fail/ makes nothing.
as_new() {
    [ -f "$1" ] && [ "$(cat "$root/target/made-with" 2>/dev/null)" = "$(rt version)" ] || return 1
    newer=$(find "$root/crates.txt" -newer "$1")$(find "$root/crates" -mindepth 2 \( -name out -o -name must-fail \) -prune -o -newer "$1" -print | head -n 1)
    [ -z "$newer" ]
}

# needs_of CRATE: the libraries that its line in crates.txt names.
needs_of() {
    sed -n "s/^$1\( staticlib\)\{0,1\}://p" "$root/crates.txt" | sed 's/#.*//'
}

# over_libraries CRATE FILE WORD..: `rattle build` of the archive or the object of a crate, over the libraries in crates/*/out/rlib as rt built them there. It
# proves the crate itself; the libraries below it are proved, or they would not be there. What rattle says goes to the log.
over_libraries() {
    crate=$1 file=$2
    shift 2
    top=src/lib.rt
    [ ! -f "$root/crates/$crate/src/main.rt" ] || top=src/main.rt
    [ "$top" = src/main.rt ] || set -- --crate-type staticlib "$@"
    for library in $(needs_of "$crate"); do
        folder=$rattle_kit/rlibs
        [ ! -d "$root/crates/$library" ] || folder=$root/crates/$library/out/rlib
        set -- --extern "$library=$folder/$library.rlib" "$@"
    done
    for folder in "$root"/crates/*/out/rlib; do
        [ ! -d "$folder" ] || set -- -L "dependency=$folder" "$@"
    done
    case " $* " in *" --toolchain "*) ;; *) set -- --toolchain "$rattle_kit/toolchain" "$@" ;; esac
    mkdir -p "$root/target/log" "$(dirname "$file")"
    (cd "$root/crates/$crate" && "$rattle_kit/bin/rattle" build --crate-name "$crate" "$top" --extern "std=$rattle_kit/rlibs/std.rlib" \
        -L "dependency=$rattle_kit/rlibs" --antt-project "$rattle_kit/rattle/logic/antt-project.json" --logic-built "$rattle_kit/logic_built" \
        --jobs 1 --links "$crate=" --backend llvm "$@" -o "$file") >"$made_log" 2>&1 </dev/null
}
