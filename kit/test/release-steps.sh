# Sourced by steps.sh: hosts and archives of different releases. The headers of release 1, as they were given out, stand in release1, and in release2
# the one header of release 2 that says its release.
# shellcheck shell=sh disable=SC2086,SC2154 # several words, set by test-kit

# headers_of RELEASE: the kit's headers, of another release by their number alone.
headers_of() {
    rm -rf "$work/headers"
    cp -r "$dist/include" "$work/headers"
    sed -e "s/T24_RELEASE 3 /T24_RELEASE $1 /" -e "s/T24_VERSION \"3\.[0-9.]*/T24_VERSION \"$1.0.0/" \
        "$dist/include/type24_release.h" >"$work/headers/type24_release.h"
    ! cmp -s "$dist/include/type24_release.h" "$work/headers/type24_release.h" || fail "no edit: release $1"
}

# A host with ten octets of state gets 1 from each call that asks for a state record, and nothing changes.
test_old_host() {
    headers_of 1
    old_host="-std=c99 -O2 $WARN -Irelease1 -I$work/headers release1/host.c"
    cat >"$work/want" <<'END'
release: the archive is of release 3, this header of release 1: a host needs both out of one kit
sheet: 0, L 16, memory 8
reset: 1: state record of wrong length or not valid
enable: 1: state record of wrong length or not valid
exchange: 1: state record of wrong length or not valid
replay: 1: state record of wrong length or not valid
END
    $CC -static $old_host $LIB -o "$work/old-host"
    run "$work/old-host" | diff "$work/want" - || fail "a host of release 1"
    cat "$work/want"
    [ -n "$at_hand" ] || return 0
    gcc -g $old_host -fsanitize=address,undefined "$work/at-hand.a" -o "$work/old-host-address"
    "$work/old-host-address" | diff "$work/want" - || fail "a host of release 1, with the sanitizers"
}

# careless EXPRESSION: the host beside an archive whose reset does this must see it.
careless() {
    cat >"$work/careless.c" <<END
#include "type24.h"
uint64_t __wrap_t24_reset(const uint8_t *sheet, size_t sheet_len, uint8_t *state, size_t state_len);
uint64_t __wrap_t24_reset(const uint8_t *sheet, size_t sheet_len, uint8_t *state, size_t state_len)
{
    (void)sheet, (void)sheet_len;
    $1;
    return T24_BAD_STATE;
}
END
    $HAND_CC -static $old_host "$work/careless.c" $HAND_LIB -Wl,--wrap=t24_reset -o "$work/careless"
}

# An eleventh octet written over ten, one written before them, and a host that is not told of it.
test_careless() {
    careless 'state[state_len] = 0'
    must_fail "an eleventh octet behind a host's ten" "FAILED: reset" hand "$work/careless"
    careless 'state[-1] = (uint8_t)state_len'
    must_fail "an octet before a host's ten" "FAILED: reset" hand "$work/careless"
    careless 'state[0] = 0x12 + 0 * state_len'
    must_fail "a refusal that writes to a host's ten" "FAILED: reset" hand "$work/careless"
}

# says STATUS WORDS COMMAND...: it ends with this number and says this, and nothing else.
says() {
    wanted=$1 words=$2 got=0
    shift 2
    "$@" >"$work/out" 2>&1 || got=$?
    [ "$got" = "$wanted" ] || { cat "$work/out"; fail "status $got, wanted $wanted: $words"; }
    echo "$words" | diff - "$work/out" || fail "other words than: $words"
    echo "$words"
}

# The check comes before all else: before the words of the call, and before a file is opened.
test_release_check() {
    headers_of 4
    misfit="the archive is of release 3, this header of release 4: a host needs both out of one kit"
    $HAND_CC -std=c99 -O2 $WARN -static -I"$work/headers" "$dist/example/oven.c" $HAND_LIB -o "$work/oven-4"
    says 2 "oven: $misfit" hand "$work/oven-4"
    says 2 "oven: $misfit" hand "$work/oven-4" "$work/none.bin"
    $HAND_CC -std=c99 -O2 $WARN -static -I"$work/headers" "$dist/example/explain.c" $HAND_LIB -o "$work/explain-4"
    says 2 "t24-explain: libtype24.a: $misfit" hand "$work/explain-4" --help
    $HAND -static "$dist/example/oven.c" spoil_turn.c $HAND_LIB -Wl,--wrap=t24_turn -Wl,--wrap=t24_version -o "$work/oven-1"
    export SPOIL=44
    says 2 "oven: the archive is of release 1, this header of release 3: a host needs both out of one kit" \
        hand "$work/oven-1" "$work/p.bin"
    unset SPOIL
}

# The archive of release 1 has six calls; a host that asks for the release does not link with it.
test_old_archive() {
    for name in sheet lengths reset enable exchange replay; do
        printf 'int t24_%s(void);\nint t24_%s(void) { return 0; }\n' "$name" "$name"
    done >"$work/six.c"
    $HAND_CC -c "$work/six.c" -o "$work/six.o"
    must_fail "an archive of release 1 under a host of this one" "t24_version" $HAND "$dist/example/oven.c" "$work/six.o" -o "$work/oven-six"
}

# That of version 3.1 has no t24_difference: a host that asks for it does not link with it, and one that does not ask does.
test_archive_before() {
    for name in sheet lengths reset enable exchange replay turn version; do
        printf 'int t24_%s(void);\nint t24_%s(void) { return 0; }\n' "$name" "$name"
    done >"$work/eight.c"
    $HAND_CC -c "$work/eight.c" -o "$work/eight.o"
    must_fail "an archive of version 3.1 under a host that asks what changed" "t24_difference" \
        $HAND "$dist/example/newsheet.c" "$work/eight.o" -o "$work/newsheet-eight"
    $HAND "$dist/example/oven.c" "$work/eight.o" -o "$work/oven-eight" || fail "an archive of version 3.1 under another host"
    echo "an archive of version 3.1 under another host: links"
}

# A host of release 2 would read a short reply's alarm in its status, where it never is; so it is told before its first call.
test_host_2() {
    misfit="the archive is of release 3, this header of release 2: a host needs both out of one kit"
    $HAND_CC -std=c99 -O2 $WARN -static -Irelease2 -I"$dist/include" release2/host.c $HAND_LIB -o "$work/host-2"
    says 1 "$misfit" hand "$work/host-2"
    cp -r "$dist/include" "$work/headers-2"
    cp release2/type24_release.h "$work/headers-2/"
    $HAND_CC -std=c99 -O2 $WARN -static -I"$work/headers-2" "$dist/example/oven.c" $HAND_LIB -o "$work/oven-2"
    says 2 "oven: $misfit" hand "$work/oven-2" "$work/s.bin"
}

# What reads a reply without a sheet must not compile: it would take every refused short command for an accepted one.
test_old_reader() {
    printf '#include "type24.h"\nint main(void)\n{\n    const uint8_t reply[16] = { 0 };\n    return (int)t24_reply_alarm(reply);\n}\n' \
        >"$work/reader.c"
    must_fail "a host that reads a reply without a sheet" "too few arguments" $HAND -c "$work/reader.c" -o "$work/reader.o"
}

test_releases() {
    say "a host of release 1"
    test_old_host
    test_careless
    say "a host of release 2"
    test_host_2
    test_old_reader
    say "headers and archive of different releases"
    test_release_check
    test_old_archive
    test_archive_before
}
