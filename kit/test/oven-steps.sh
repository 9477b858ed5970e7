# Sourced by steps.sh: the example host, and archives the build must refuse.
# shellcheck shell=sh disable=SC2086,SC2154 # several words, set by test-kit

# octets HEX...: writes them to standard output.
octets() {
    for octet in "$@"; do
        # shellcheck disable=SC2059 # the format is the octet itself
        printf "\\$(printf %03o "0x$octet")"
    done
}

make_sheets() {
    octets 01 10 30 00 02 00 10 00 00 04 00 00 00 03 \
        02 04 10 00 00 04 00 00 00 06 03 07 00 02 10 00 00 02 00 >"$work/p.bin"
    head -c 32 "$work/p.bin" >"$work/cut.bin"
    mkdir "$work/folder"
    octets 01 08 30 00 00 >"$work/bare.bin"
    octets 01 10 30 00 02 00 10 00 00 04 00 00 00 09 00 >"$work/rights.bin"
    octets 01 10 30 00 02 00 10 00 00 04 00 00 00 01 00 >"$work/readonly.bin"
    # 1000 alone may be written; 1000 is in no region
    octets 01 10 30 00 02 00 10 00 00 01 00 00 00 07 \
        02 01 10 00 00 01 00 00 00 05 00 >"$work/second.bin"
    octets 01 10 30 00 02 01 10 00 00 04 00 00 00 07 00 >"$work/unmapped.bin"
    octets 01 10 30 00 02 00 10 00 00 08 00 00 00 07 06 01 00 >"$work/tolerant.bin" # one lost cycle in a row
    octets 01 10 30 00 02 00 10 00 00 08 00 00 00 07 06 04 00 >"$work/tolerance.bin"
    make_short_sheets
    cat >"$work/p.want" <<'END'
L 16, memory 8 octets
CONNECT    0E000400300001000000000000000000
MEM_RD     1D000400002101000010000000000000
MEM_WR     1E0004000021010000100000B4000000
DISCONNECT 0F000400000000000000000000000000
CONNECT    0E010400300201000000000000000000
MEM_RD     1D1204000021010000100000B4000000
MEM_RD     1D2304000021010000100000B4000000
MEM_RD     1D3404000021010000100000B4000000
DISCONNECT 0F000400000000000000000000000000
END
}

# The short type: sheet P's drive, one that tolerates a lost cycle, and faults.
make_short_sheets() {
    { octets 05 && tail -c +2 "$work/p.bin"; } >"$work/s.bin"
    octets 05 10 30 77 02 00 10 00 00 08 00 00 00 07 03 07 00 00 10 00 00 02 06 01 00 >"$work/short-tolerant.bin"
    octets 05 20 30 00 00 >"$work/short-l.bin"
    octets 01 10 30 00 05 10 30 00 00 >"$work/two-links.bin"
    octets 05 10 30 00 00 >"$work/short-bare.bin"
    octets 05 10 30 00 02 00 10 00 00 04 00 00 00 01 03 07 00 02 10 00 00 02 00 >"$work/short-readonly.bin"
    cat >"$work/s.want" <<'END'
short type, L 16, memory 8 octets
CONNECT    0E000400300001000000000000000000
PRM_RD     01000400070002000000000000000000
PRM_WR     02000400070002B40000000000000000
DISCONNECT 0F000400000000000000000000000000
CONNECT    0E000400300201000000000000000001
PRM_RD     01000400070002B40000000000000012
PRM_RD     01000400070002B40000000000000023
PRM_RD     01000400070002B40000000000000034
DISCONNECT 0F000400000000000000000000000000
END
}

# refused_with SHEET WORDS: the oven fails and says why.
refused_with() {
    if run "$work/oven" "$work/$1" >"$work/out" 2>&1; then
        fail "the oven took $1"
    fi
    grep -qF "$2" "$work/out" || { cat "$work/out"; fail "not said: $2"; }
    grep -F "$2" "$work/out"
}

# The page's command makes the example's sheet.
test_example_sheet() {
    awk '/^    \{$/ { on = 1 } on { print } /^    \} >/ { on = 0 }' \
        "$dist/doc/LINKING.md" >"$work/make-sheet"
    (cd "$work" && sh ./make-sheet) || fail "the page's command for a sheet"
    cmp "$work/example.sheet" "$dist/example/example.sheet" || fail "example.sheet"
    cmp "$work/short.sheet" "$dist/example/short.sheet" || fail "short.sheet"
    cmp "$work/rules.sheet" "$dist/example/rules.sheet" || fail "rules.sheet"
    echo "example.sheet, short.sheet and rules.sheet are what the page makes"
}

test_oven() {
    say "oven"
    make_sheets
    test_example_sheet
    $CPP "$dist/example/oven.c" $LIB -o "$work/oven"
    run "$work/oven" "$work/p.bin" | cmp - "$work/p.want" || fail "oven in C++"
    $C -static "$dist/example/oven.c" $LIB -o "$work/oven"
    run "$work/oven" "$work/p.bin" >"$work/out" || fail "oven"
    cmp "$work/out" "$work/p.want" || fail "oven's replies"
    cat "$work/out"
    run "$work/oven" "$dist/example/example.sheet" | cmp - "$work/p.want" \
        || fail "oven with the example's sheet"
    refused_with cut.bin "sheet refused: 11 at octet 32: no end record"
    refused_with rights.bin "sheet refused: 14 at octet 4: region 1, rights 09: only bits 0 to 2 may be set"
    refused_with tolerance.bin "sheet refused: 14 at octet 14: tolerance record, lost cycles 4: only 0 to 3"
    refused_with folder "oven: $work/folder: Is a directory"
    refused_with none.bin "oven: $work/none.bin: No such file or directory"
    refused_with bare.bin "MEM_RD refused: alarm 9 at octet 6, count: 0, or with its element more than L - 12 octets"
    refused_with unmapped.bin "MEM_WR refused: alarm 9 at octet 8, address: an octet from it on is in no region"
    refused_with readonly.bin "MEM_WR refused: alarm 10: octet 0 of the span, at address 00001000, lacks the right to be written out of step"
    refused_with second.bin "MEM_WR refused: alarm 10: octet 1 of the span, at address 00001001, lacks the right to be written out of step"
    test_short_oven
    test_ruled_oven
    test_lost_cycles
    test_pkg_config
}

# The same host, and the helpers know the type.
test_short_oven() {
    run "$work/oven" "$work/s.bin" >"$work/out" || fail "oven with a short sheet"
    cmp "$work/out" "$work/s.want" || fail "oven's short replies"
    cat "$work/out"
    run "$work/oven" "$dist/example/short.sheet" | cmp - "$work/s.want" || fail "oven with the short example"
    refused_with short-l.bin "sheet refused: 14 at octet 0: short link record, L 32: only 16"
    refused_with two-links.bin "sheet refused: 13 at octet 4: a short link record after a link record: one of them comes first and once"
    refused_with short-bare.bin "PRM_RD refused: alarm 9 at octet 4, parameter number: not in the sheet"
    refused_with short-readonly.bin "PRM_WR refused: alarm 10: octet 0 of the span, at address 00001002, lacks the right to be written out of step"
}

# Under release 2 of the drive rules the same replies come, for the host sends zeros where nothing is named; one that does not is told the octet.
test_ruled_oven() {
    { head -c 32 "$work/p.bin" && octets 07 02 00; } >"$work/p2.bin"
    cmp "$work/p2.bin" "$dist/example/rules.sheet" || fail "the example's sheet under release 2 of the drive rules"
    { head -c 32 "$work/s.bin" && octets 07 02 00; } >"$work/s2.bin"
    { head -c 32 "$work/p.bin" && octets 07 03 00; } >"$work/p3.bin"
    run "$work/oven" "$work/p2.bin" | cmp - "$work/p.want" || fail "oven under release 2 of the drive rules"
    run "$work/oven" "$work/s2.bin" | cmp - "$work/s.want" || fail "short oven under release 2 of the drive rules"
    refused_with p3.bin "sheet refused: 14 at octet 32: rule release record, rule release 3: only 1 or 2"
    sed 's/^    memset(host->command, 0, /    memset(host->command, 0x40, /' "$dist/example/oven.c" >"$work/littering.c"
    ! cmp -s "$dist/example/oven.c" "$work/littering.c" || fail "no edit: octets left as they were"
    $HAND -static "$work/littering.c" $HAND_LIB -o "$work/littering"
    must_fail "octets that a host has not made zero" "^CONNECT refused: alarm 9: octet 3 must be zero$" hand "$work/littering" "$work/p2.bin"
    must_fail "the same with the short type" "^CONNECT refused: alarm 9: octet 1 must be zero$" hand "$work/littering" "$work/s2.bin"
    grep -q "^CONNECT    0E090500" "$work/out" || fail "the short reply of a host that has not made octets zero"
}

# deaf NAME EDIT WORDS [SHEET]: a host with this edit in its WDT is told why its cycle was lost.
deaf() {
    sed "s/t24_next_wdt(host->sheet, host->reply)/$2/" "$dist/example/oven.c" >"$work/deaf.c"
    ! cmp -s "$dist/example/oven.c" "$work/deaf.c" || fail "no edit: $1"
    $HAND -static "$work/deaf.c" $HAND_LIB -o "$work/deaf"
    must_fail "$1" "$3" hand "$work/deaf" "$work/${4:-p.bin}"
}

# The second command behind CONNECT in step is the first that the watchdog asks.
test_lost_cycles() {
    deaf "a master that does not count" 0x10 \
        "^MEM_RD not executed, a cycle was lost: MN 1 expected, 0 seen; SN 1 expected, 1 seen$"
    deaf "a master that does not read the replies" "t24_next_wdt(host->sheet, host->reply) \& 0x0F" \
        "^MEM_RD not executed, a cycle was lost: MN 3 expected, 3 seen; SN 1 expected, 0 seen$"
    must_fail "the same with the short type" \
        "^PRM_RD not executed, a cycle was lost: MN 3 expected, 3 seen; SN 1 expected, 0 seen$" hand "$work/deaf" "$work/s.bin"
    test_tolerated
}

# The same masters on a sheet that tolerates one: the first is told as tolerated, with its reply in step, the second leaves link 3.
test_tolerated() {
    deaf "a master that does not count, tolerated" 0x10 \
        "^MEM_RD not executed, a cycle was lost: tolerated, 1 of 1 in a row: MN 1 expected, 0 seen; SN 1 expected, 1 seen$" tolerant.bin
    deaf "a master that does not count, twice" 0x10 \
        "^MEM_RD not executed, a cycle was lost: the 2nd in a row, 1 is tolerated: MN 1 expected, 0 seen; SN 2 expected, 1 seen$" tolerant.bin
    grep -qx "MEM_RD     1D200600000000000000000000000000" "$work/out" || fail "the reply of a tolerated cycle"
    grep -qx "MEM_RD     1D0005C0000000000000000000000000" "$work/out" || fail "the reply of one more"
    # One reply is missed: the next command follows the reply that tells it, and the band runs on.
    sed 's/^    heat_command(host, 0);/    static int reads;\n\n&\n    host->command[t24_wdt_at(host->sheet)] ^= ++reads == 3 ? 0x80 : 0;/' \
        "$dist/example/oven.c" >"$work/missed.c"
    ! cmp -s "$dist/example/oven.c" "$work/missed.c" || fail "no edit: a missed reply"
    $HAND -static "$work/missed.c" $HAND_LIB -o "$work/missed"
    must_fail "a reply that was missed" "^MEM_RD not executed, a cycle was lost: tolerated, 1 of 1 in a row: MN 3 expected, 3 seen; SN 1 expected, 9 seen$" \
        hand "$work/missed" "$work/tolerant.bin"
    sed -n '/^CONNECT    0E01/,$p' "$work/out" >"$work/band"
    cat >"$work/want" <<'END'
CONNECT    0E010400300201000000000000000000
MEM_RD     1D1204000021010000100000B4000000
MEM_RD     1D230600000000000000000000000000
MEM_RD     1D3404000021010000100000B4000000
DISCONNECT 0F000400000000000000000000000000
END
    grep -v "not executed" "$work/band" | diff "$work/want" - || fail "the band does not run on"
    test_short_tolerated
}

# The same host and the same miss with the short type, whose profile nobody asks.
test_short_tolerated() {
    must_fail "a reply that was missed, short" "^PRM_RD not executed, a cycle was lost: tolerated, 1 of 1 in a row: MN 3 expected, 3 seen; SN 1 expected, 9 seen$" \
        hand "$work/missed" "$work/short-tolerant.bin"
    sed -n '/^CONNECT    0E00040030020/,$p' "$work/out" >"$work/band"
    cat >"$work/want" <<'END'
CONNECT    0E000400300201000000000000000001
PRM_RD     01000400070002B40000000000000012
PRM_RD     01000600000000000000000000000023
PRM_RD     01000400070002B40000000000000034
DISCONNECT 0F000400000000000000000000000000
END
    grep -v "not executed" "$work/band" | diff "$work/want" - || fail "the short band does not run on"
}

test_pkg_config() {
    if ! command -v pkg-config >/dev/null 2>&1; then
        echo "note: pkg-config is not installed, so without it"
        return
    fi
    flags=$(PKG_CONFIG_PATH="$dist/x86_64/lib/pkgconfig" pkg-config --cflags --libs type24)
    $CC -std=c99 $WARN -static "$dist/example/oven.c" $flags -o "$work/oven"
    run "$work/oven" "$work/p.bin" | cmp - "$work/p.want" || fail "oven by pkg-config"
    echo "pkg-config: ok"
}

# refused_archive NAME WORDS CODE: with one object more it must not build.
refused_archive() {
    printf '%s\n' "$3" >"$work/more.c"
    $CC -O2 -fno-builtin -c "$work/more.c" -o "$work/more.o"
    cp "$dist/x86_64/lib/libtype24.a" "$work/more.a"
    $AR r "$work/more.a" "$work/more.o"
    must_fail "$1" "$2" env KIT_ID=none "$kit/build" "$work/more.a" "$work/refused"
    [ ! -e "$work/refused" ] || fail "a refused archive left a kit"
}

test_refused_archives() {
    say "archives the build refuses"
    AR=${NM%nm}ar
    refused_archive "a foreign name" "foreign name" \
        'int oven; int foreign(void) { return 1; }'
    refused_archive "a need of libc" "needs malloc" \
        'void *malloc(unsigned long); void *t24_more(void) { return malloc(1); }'
    refused_archive "kept data" "keeps data" \
        'static int kept; int t24_more(void) { return ++kept; }'
    : >"$work/empty.a"
    must_fail "an empty archive" "lacks t24_\|cannot read" \
        env KIT_ID=none "$kit/build" "$work/empty.a" "$work/refused"
    must_fail "a KIT_ID that breaks the header" "odd" \
        env KIT_ID='"' "$kit/build" "$dist/x86_64/lib/libtype24.a" "$work/refused"
    must_fail "no KIT_ID" "must name" \
        env KIT_ID= "$kit/build" "$dist/x86_64/lib/libtype24.a" "$work/refused"
}
