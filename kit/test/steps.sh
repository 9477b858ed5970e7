# Sourced by test-kit: the steps, with DIST in $dist and scratch room in $work.
# shellcheck shell=sh disable=SC2086,SC2154,SC2046 # several words, set by test-kit

UNDEFINED="-fsanitize=undefined -fno-sanitize-recover=all"
CHECKED="valgrind -q --error-exitcode=9"

test_contents() {
    say "contents"
    for file in include/type24.h include/type24_octets.h include/type24_short.h include/type24_answers.h include/type24_reply.h \
        include/type24_watchdog.h include/type24_records.h include/type24_release.h include/type24_words.h include/type24_version.h \
        include/type24_difference.h include/type24_difference_words.h \
        x86_64/lib/libtype24.a x86_64/lib/pkgconfig/type24.pc \
        lib/libtype24.a lib/pkgconfig/type24.pc doc/LINKING.md doc/PROCESSORS.md \
        doc/INTEGRATOR.md doc/FITTER.md doc/ENGINEER.md doc/RULES.md doc/rules/calls.md \
        example/oven.c example/newsheet.c example/example.sheet example/short.sheet example/rules.sheet example/explain.c bin/t24-explain \
        bin/bench bin/replayer bin/sheetdump bin/sheetdiff bin/t24-hex VERSION; do
        [ -f "$dist/$file" ] || fail "the kit lacks $file"
    done
    cat "$dist/VERSION"
    cat >"$work/version.c" <<'END'
#include <stdio.h>
#include "type24.h"
#include "type24_version.h"
int main(void)
{
    return printf("version %s\nproved with %s\n", T24_VERSION, T24_PROVED_WITH) < 0;
}
END
    $C "$work/version.c" -o "$work/version"
    run "$work/version" | cmp - "$dist/VERSION" || fail "VERSION and headers differ"
}

# Twice in one file, alone, and under warnings stricter than the tests' own.
test_header() {
    say "headers alone"
    strict="-Wconversion -Wsign-conversion -Wshadow -Wundef"
    for header in "$dist"/include/*.h; do
        name=$(basename "$header")
        printf '#include "%s"\n#include "%s"\nint alone(void);\n' "$name" "$name" >"$work/header.c"
        $C $strict -c "$work/header.c" -o "$work/header.o"
        $CPP $strict -Wold-style-cast -c "$work/header.c" -o "$work/header.o"
        echo "$name, C99 and C++11: no warning"
    done
    # The words need no C library, so that a board without one can have them.
    $C -ffreestanding -nostdinc -isystem "$($CC -print-file-name=include)" \
        -c "$work/header.c" -o "$work/header.o"
    echo "$name without a C library: no warning"
}

test_boundary_in_c() {
    say "boundary, C99, static"
    $C -static $SOURCES $LIB -o "$work/boundary"
    run "$work/boundary" || fail "boundary in C"
}

test_boundary_in_cpp() {
    say "boundary, C++11, position independent"
    $CPP -fPIE -pie $SOURCES $LIB -o "$work/boundary-cpp"
    run "$work/boundary-cpp" || fail "boundary in C++"
}

test_with_sanitizer() {
    say "boundary, C99, undefined sanitizer"
    $C -g $UNDEFINED $SOURCES $LIB -o "$work/boundary-sanitized"
    run "$work/boundary-sanitized" || fail "boundary with sanitizer"
}

# build_objects FOLDER COMPILER SOURCE...: each source compiled once, for several programs.
build_objects() {
    folder=$1 compiler=$2
    shift 2
    mkdir "$folder"
    for source in "$@"; do
        $compiler -c "$source" -o "$folder/${source%.c}.o"
    done
}

# With every buffer in a block of its own a checker sees an overrun of one octet.
test_with_checkers() {
    if [ -z "$at_hand" ]; then
        say "note: no archive for this processor, so without valgrind and the address sanitizer"
        return
    fi
    need_checkers
    blocks="gcc -std=c99 -O2 -g $WARN -I$dist/include"
    address="$blocks $UNDEFINED -fsanitize=address"
    say "boundary, C99, valgrind"
    build_objects "$work/blocks" "$blocks" $BLOCKS
    $blocks "$work/blocks"/*.o "$work/at-hand.a" -o "$work/boundary-valgrind"
    $CHECKED "$work/boundary-valgrind" || fail "boundary under valgrind"
    say "boundary, C99, address and undefined sanitizers"
    build_objects "$work/address" "$address" $BLOCKS
    $address "$work/address"/*.o "$work/at-hand.a" -o "$work/boundary-address"
    "$work/boundary-address" || fail "boundary with the address sanitizer"
    say "both can fail"
    first="$CHECKED --exit-on-first-error=yes"
    $blocks "$work/blocks"/*.o spoil.c spoil_turn.c spoil_difference.c "$work/at-hand.a" $(wraps) -o "$work/spoiled-blocks"
    must_fail "an octet written behind a reply" "Invalid write" env SPOIL=9 $first "$work/spoiled-blocks"
    must_fail "an octet written before a reply" "Invalid write" env SPOIL=10 $first "$work/spoiled-blocks"
    must_fail "an octet read behind a command" "Invalid read" env SPOIL=12 $first "$work/spoiled-blocks"
    must_fail "an octet read behind a trace" "Invalid read" env SPOIL=19 $first "$work/spoiled-blocks"
    must_fail "an octet read behind an old record" "Invalid read" env SPOIL=54 $first "$work/spoiled-blocks"
    must_fail "an octet written behind a list" "Invalid write" env SPOIL=90 $first "$work/spoiled-blocks"
    must_fail "an octet read behind a second sheet" "Invalid read" env SPOIL=92 $first "$work/spoiled-blocks"
    $address "$work/address"/*.o spoil.c spoil_turn.c spoil_difference.c "$work/at-hand.a" $(wraps) -o "$work/spoiled-address"
    must_fail "an octet written behind a reply, by the sanitizer" "heap-buffer-overflow" env SPOIL=9 "$work/spoiled-address"
}

# wraps: the flags that put spoil.c, spoil_turn.c and spoil_difference.c between the test and the library.
wraps() {
    for name in sheet lengths reset enable exchange replay turn version difference; do
        printf ' -Wl,--wrap=t24_%s' "$name"
    done
}

test_that_tests_fail() {
    say "the tests can fail"
    build_objects "$work/objects" "$HAND" $SOURCES
    cp -r "$work/objects" "$work/wrong-objects"
    $HAND -DWRONG_EXPECTATION -c boundary.c -o "$work/wrong-objects/boundary.o"
    $HAND -static "$work/wrong-objects"/*.o $HAND_LIB -o "$work/wrong"
    must_fail "a wrong expectation" FAILED hand "$work/wrong" stop
    $HAND -static "$work/objects"/*.o spoil.c spoil_turn.c spoil_difference.c $HAND_LIB $(wraps) -o "$work/spoiled"
    export SPOIL=0
    hand "$work/spoiled" stop >"$work/out" || fail "unspoiled, yet fails"
    number=0
    while [ "$number" -lt 103 ]; do
        number=$((number + 1))
        SPOIL=$number
        must_fail "spoil $number" FAILED hand "$work/spoiled" stop
    done
    unset SPOIL
}

# users HEADER: the sources that name something it defines, or that have the words.
users() {
    sed -n -e 's/^#define \(T24_[A-Z0-9_]*\).*/\1/p' -e 's/^static inline .*[ *]\(t24_[a-z0-9_]*\)(.*/\1/p' \
        "$dist/include/$1" >"$work/names"
    echo type24_words.h >>"$work/names"
    grep -lwFf "$work/names" $SOURCES
}

# wrong_words NAME HEADER EDIT: the tests notice a header with this edit, for which no more is compiled again than what uses it.
wrong_words() {
    rm -rf "$work/wrong-include" "$work/wrong-objects"
    cp -r "$dist/include" "$work/wrong-include"
    cp -r "$work/objects" "$work/wrong-objects"
    sed "$3" "$dist/include/$2" >"$work/wrong-include/$2"
    ! cmp -s "$dist/include/$2" "$work/wrong-include/$2" || fail "no edit: $1"
    for source in $(users "$2"); do
        $HAND_CC -std=c99 -I"$work/wrong-include" -c "$source" -o "$work/wrong-objects/${source%.c}.o"
    done
    $HAND_CC -static "$work/wrong-objects"/*.o $HAND_LIB -o "$work/wrong"
    must_fail "$1" FAILED hand "$work/wrong" stop
}

test_that_words_fail() {
    say "wrong words are noticed"
    wrong_words "a cut record taken for whole" type24_walk.h \
        's/if (len == 0 || len > left)/if (len == 0)/'
    wrong_words "a field of a cut record" type24_sheet_words.h \
        's/    if (len == 0 || len > left)/    if (len == 0)/'
    wrong_words "a zero behind the room" type24_text.h \
        's/text->len < text->room ? text->len : text->room - 1/text->len/'
    wrong_words "a limit off by one" type24_sheet_words.h \
        's/memory <= T24_MEMORY_MAX/memory <= T24_MEMORY_MAX + 1/'
    wrong_words "an identity of one bit" type24_reply.h \
        's/(reply\[T24_REPLY_AT_STATUS\] >> 6) & 0x03u/(reply[T24_REPLY_AT_STATUS] >> 6) \& 0x01u/'
    wrong_words "an identity told in a command cut before it" type24_pdu_words.h \
        's/t24_field(&pdu, T24_COMMAND_AT_CONTROL, 1)/pdu.at[T24_COMMAND_AT_CONTROL]/'
    wrong_words "a field told at the next octet" type24_field_words.h \
        's/T24_CONNECT, T24_CONNECT_AT_COM_TIME,/T24_CONNECT, T24_CONNECT_AT_PROFILE,/'
    wrong_words "a check that is ALM_RD's told of ALM_CLR" type24_field_words.h \
        's/T24_ALM_RD, T24_COMMAND_AT_CODE/T24_ALM_CLR, T24_COMMAND_AT_CODE/'
    wrong_words "the address of another parameter" type24_field_words.h \
        's/t24_key(sheet + at) == number/t24_key(sheet + at) <= number/'
    wrong_words "an address that the command has not" type24_field_words.h \
        's/return command->len >= T24_MEM_AT_DATA;/return 1;/'
    wrong_words "the right of the other link" type24_field_words.h \
        's/link == T24_LINK_ASYNC/link == T24_LINK_SYNC/'
    wrong_words "a next MN that does not turn" type24_watchdog.h \
        's/(rwdt + 1u) & 0x0Fu/rwdt + 1u/'
    wrong_words "a next SN that is not RSN" type24_watchdog.h \
        's/rsn = rwdt & 0xF0u/rsn = 0u/'
    wrong_words "a lost cycle by SN not told" type24_watchdog.h \
        's/|| t24_sn(sheet, command) != t24_expected_sn(state)/|| 0/'
    wrong_words "a lost cycle told though MN is not known" type24_watchdog.h \
        's/ && state\[T24_AT_MN_KNOWN\] != 0//'
    wrong_words "the SN that was seen told as expected" type24_watchdog_words.h \
        's/"; SN ", t24_expected_sn(state)/"; SN ", t24_sn(sheet, command)/'
    wrong_words "a refused memory without its length" type24_words.h \
        's/t24_put_decimal(text, memory_len);/t24_put_decimal(text, wanted);/'
}

# The words of request 9: what is tolerated, and what is of release 1.
test_that_tolerance_fails() {
    wrong_words "a tolerance read beside its record" type24_records.h \
        's/sheet\[at\] == kind/sheet[at] >= T24_RECORD_ID/'
    wrong_words "a tolerance of a cut record" type24_records.h \
        's/if (len == 0 || len > sheet_len - at)/if (len == 0)/'
    wrong_words "one lost cycle too many told as tolerated" type24_watchdog.h \
        's/state\[T24_AT_FAILURES\] < t24_tolerance/state[T24_AT_FAILURES] <= t24_tolerance/'
    wrong_words "the last tolerated one told as one too many" type24_watchdog_words.h \
        's/if (count < tolerance)/if (count + 1 < tolerance)/'
    wrong_words "a row counted from 0" type24_watchdog_words.h \
        's/t24_put_decimal(text, count + 1)/t24_put_decimal(text, count)/'
    wrong_words "a row told of a cycle that is kept" type24_watchdog_words.h \
        's/if (t24_watchdog_fails(typed, state, command))/if (t24_watchdog_asks(state))/'
    wrong_words "a tolerated command told as accepted" type24_words.h \
        's/if (alarm == T24_ALARM_NONE \&\& tolerated)/if (0)/'
    wrong_words "bit 1 of the other octet" type24_reply.h \
        's/reply\[t24_status_at(sheet)\] & T24_STATUS_TOLERATED/reply[t24_status_at(sheet) + 1] \& T24_STATUS_TOLERATED/'
    wrong_words "four lost cycles told as allowed" type24_range_words.h \
        's/value > T24_TOLERANCE_MAX/value > T24_TOLERANCE_MAX + 1/'
    wrong_words "a record behind the tolerance told as one behind an ID item" type24_sheet_words.h \
        's/} else if (tolerance \&\& early) {/} else if (0) {/'
    wrong_words "a count above the sheet's told as valid" type24_state_words.h \
        's/failures > tolerance)/failures > tolerance + 1)/'
    wrong_words "a count out of step told as valid" type24_state_words.h \
        's/failures != 0 && state\[T24_AT_LINK\] != T24_LINK_SYNC/0/'
    wrong_words "an octet read behind a record of release 1" type24_state_words.h \
        's/state\[T24_AT_KIND\] != T24_OLD_STATE_KIND/1/'
    wrong_words "a new length not asked of t24_turn" type24_state_words.h \
        's/ && state_len != T24_STATE_LEN)/ \&\& state_len < T24_STATE_LEN)/'
    wrong_words "a header of another release" type24_release.h \
        's/T24_RELEASE 3 /T24_RELEASE 4 /'
}

# Those of request 7: an octet of one type read where the other has it.
test_that_short_fails() {
    wrong_words "a short reply's alarm read in its status" type24_reply.h \
        's/return reply\[T24_SHORT_REPLY_AT_ALARM\];/return reply[3] \& 0x0Fu;/'
    wrong_words "an identity told of a short reply" type24_reply.h \
        's/        return 0;/        return reply[2] >> 6;/'
    wrong_words "a short command's WDT in octet 1" type24_short.h \
        's/? T24_SHORT_COMMAND_AT_WDT : /? 1 : /'
    wrong_words "a short reply's RWDT in octet 1" type24_short.h \
        's/? T24_SHORT_REPLY_AT_RWDT : /? 1 : /'
    wrong_words "a type read behind a sheet's first octet" type24_short.h \
        's/sheet\[0\] == T24_RECORD_SHORT_LINK/*(volatile const uint8_t *)(sheet + 1) < 256 \&\& sheet[0] == 5/'
    wrong_words "MEM_RD told as a command of the short type" type24_pdu_words.h \
        's/if (t24_is_mem(code) && t24_is_short(sheet))/if (0)/'
    wrong_words "a size of two octets in the short type" type24_pdu_words.h \
        's/t24_is_short(sheet) ? 1 : 2/2/'
    wrong_words "a type asked of a sheet that is not lent" type24_pdu_words.h \
        's/return sheet_len > 0 ? sheet : none;/(void)none; return sheet;/'
    wrong_words "a profile checked in the short type" type24_field_words.h \
        's/{ T24_IN_ENHANCED, T24_CONNECT, T24_CONNECT_AT_PROFILE/{ T24_IN_BOTH, T24_CONNECT, T24_CONNECT_AT_PROFILE/'
    wrong_words "data of a short reply told at 8" type24_octet_words.h \
        's/octet < t24_prm_data_at(sheet)/octet < T24_PRM_AT_DATA/'
    wrong_words "an L of the enhanced type told as the short type's" type24_range_words.h \
        's/value != T24_L16/value > T24_L32/'
}

# Of the product, and of the archive for the processor at hand; and a promise that is not kept must be noticed.
test_stack() {
    say "stack"
    $C -static stack.c sheets.c $LIB -o "$work/stack"
    run "$work/stack" || fail "stack"
    $HAND -static stack.c sheets.c $HAND_LIB -o "$work/stack-at-hand"
    hand "$work/stack-at-hand" || fail "stack at hand"
    $HAND -DPROMISED=500u -static stack.c sheets.c $HAND_LIB -o "$work/stack-wrong"
    must_fail "a call over the promised stack" FAILED hand "$work/stack-wrong"
}

# The page's first exchange must be what a reader can type off.
test_linking_page() {
    say "first exchange of LINKING.md"
    awk '/^```c$/ { on = 1; next } /^```$/ { on = 0 } on' \
        "$dist/doc/LINKING.md" >"$work/first.c"
    [ "$(wc -l <"$work/first.c")" -le 20 ] || fail "over twenty lines"
    $C -static "$work/first.c" -L"$dist/x86_64/lib" -ltype24 -o "$work/first"
    [ "$(run "$work/first")" = accepted ] || fail "first exchange"
    $CPP "$work/first.c" -L"$dist/x86_64/lib" -ltype24 -o "$work/first"
    [ "$(run "$work/first")" = accepted ] || fail "first exchange in C++"
    echo "accepted"
}

. "$kit/test/rules-steps.sh"
. "$kit/test/difference-steps.sh"
. "$kit/test/oven-steps.sh"
. "$kit/test/release-steps.sh"
. "$kit/test/processor-steps.sh"
. "$kit/test/explain-steps.sh"
. "$kit/test/explain-refused-steps.sh"
. "$kit/test/explain-tolerated-steps.sh"
. "$kit/test/explain-short-steps.sh"
. "$kit/test/explain-rules-steps.sh"
