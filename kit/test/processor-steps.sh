# Sourced by steps.sh: what the kit holds for other processors, and whether its pages name only what it holds.
# shellcheck shell=sh disable=SC2086,SC2154,SC2046 # several words, set by test-kit

# The kit's own path for the processor at hand: the page's first exchange, as a reader would link it.
test_at_hand() {
    if [ -z "$at_hand" ] || ! [ -d "$dist/$(uname -m)" ]; then
        echo "note: the kit has no archive for $(uname -m), so $dist/lib is not linked with here"
        return
    fi
    gcc -I"$dist/include" "$work/first.c" -L"$dist/lib" -ltype24 -o "$work/first-at-hand"
    [ "$("$work/first-at-hand")" = accepted ] || fail "first exchange at hand"
    echo "at hand, $(uname -m): accepted"
    command -v pkg-config >/dev/null 2>&1 || return 0
    gcc "$work/first.c" $(PKG_CONFIG_PATH="$dist/lib/pkgconfig" pkg-config --cflags --libs type24) -o "$work/first-at-hand"
    [ "$("$work/first-at-hand")" = accepted ] || fail "first exchange at hand, by pkg-config"
    echo "at hand, by pkg-config: accepted"
}

# test_processor MACHINE: the boundary's written-out octets, and oven by that folder's pkg-config file.
test_processor() (
    use_tools_of "$1"
    need "$OTHER_CC" ${OTHER_RUN:+"qemu-$1"}
    other="$OTHER_CC -std=c99 -O2 $WARN -I$dist/include"
    $other -static $SOURCES "$dist/$1/lib/libtype24.a" -o "$work/boundary-$1"
    run "$work/boundary-$1" || fail "boundary for $1"
    $other -static stack.c sheets.c "$dist/$1/lib/libtype24.a" -o "$work/stack-$1"
    run "$work/stack-$1" || fail "stack for $1"
    flags="-I$dist/include -L$dist/$1/lib -ltype24"
    ! command -v pkg-config >/dev/null 2>&1 \
        || flags=$(PKG_CONFIG_PATH="$dist/$1/lib/pkgconfig" pkg-config --cflags --libs type24)
    $OTHER_CC -std=c99 $WARN -static "$dist/example/oven.c" $flags -o "$work/oven-$1"
    run "$work/oven-$1" "$work/p.bin" | cmp - "$work/p.want" || fail "oven for $1"
    run "$work/oven-$1" "$work/s.bin" | cmp - "$work/s.want" || fail "oven for $1, short"
    echo "$1: ok"
)

test_processors() {
    say "processors"
    test_at_hand
    for folder in "$dist"/*/lib; do
        machine=$(basename "$(dirname "$folder")")
        [ "$machine" = x86_64 ] || [ ! -d "$folder" ] || test_processor "$machine"
    done
    must_fail "the product as another processor's" "not another processor" \
        "$kit/add-processor" "$dist" x86_64 "$dist/x86_64/lib/libtype24.a"
    must_fail "a folder that is no kit" "no kit at" "$kit/add-processor" "$work" aarch64 "$dist/x86_64/lib/libtype24.a"
}

test_citations() {
    say "what the kit's pages name"
    "$kit/test/citations" "$dist" || fail "a page names what the kit does not hold"
    mkdir "$work/citing" "$work/citing/doc"
    echo 'See `kit/test-kit` and doc/NONE.md.' >"$work/citing/doc/PAGE.md"
    must_fail "a page that names what is not there" "kit/test-kit" "$kit/test/citations" "$work/citing"
    (cd "$dist" && "$kit/test/links" $(find doc -name '*.md' | sort)) || fail "a link leads out of the kit"
    echo 'See [there](NONE.md).' >"$work/citing/doc/LINK.md"
    must_fail "a link that leads nowhere" "leads nowhere" "$kit/test/links" "$work/citing/doc/LINK.md"
    echo 'See [there](PAGE.md#none).' >"$work/citing/doc/LINK.md"
    must_fail "a link to no heading" "names no heading" "$kit/test/links" "$work/citing/doc/LINK.md"
}
