# Sourced by steps.sh: wrong words of request 2 are noticed, and the host that is given a new sheet.
# shellcheck shell=sh disable=SC2086,SC2154 # several words, set by test-kit

test_that_differences_fail() {
    wrong_words "a cut entry taken for whole" type24_difference.h \
        's/entry.len == 0 || entry.len > list_len - place/entry.len == 0/'
    wrong_words "an entry behind the list" type24_difference.h \
        's/if (place >= list_len)/if (place > list_len)/'
    wrong_words "a key read high octet first" type24_difference.h \
        's/entry->key\[--count\]/entry->key[t24_key_len(entry->kind) - count--]/'
    wrong_words "bits told of a new record" type24_difference.h \
        's/entry.what == T24_ENTRY_CHANGED ? at\[1\] : 0/at[1]/'
    wrong_words "a body told one octet early" type24_difference.h \
        's/entry.what == T24_ENTRY_CHANGED ? 2 : 1/1/'
    wrong_words "an end record in a list" type24_difference.h \
        's/if (body_len == 0)/if (kind > 7)/'
    wrong_words "a longest list that is too short" type24_difference.h \
        's/T24_DIFFERENCE_MAX 2379/T24_DIFFERENCE_MAX 2378/'
    wrong_words "the first sheet told for the second" type24_answers.h \
        's/return number - T24_SECOND;/return number;/'
    wrong_words "the second sheet not named" type24_sheet_words.h \
        's/fault != 0 \&\& fault != number ? "second sheet: "/0 ? "second sheet: "/'
    wrong_words "the wrong sheet looked at" type24_difference_words.h \
        's/t24_put_verdict(&made, second, second_len, answer)/t24_put_verdict(\&made, first, first_len, answer)/'
    wrong_words "a record of another key told as what was" type24_difference_words.h \
        's/ \&\& t24_key(sheet + at) == t24_entry_key(entry)//'
    wrong_words "the new value told as the old one" type24_difference_words.h \
        's/t24_put_value(text, entry->kind, field, was)/t24_put_value(text, entry->kind, field, entry->body)/'
    wrong_words "the field of the bit before" type24_difference_words.h \
        's/entry->bits >> field/entry->bits >> (field + 1)/'
    wrong_words "rights of the other link" type24_difference_words.h \
        's/"read", "write out of step",/"read", "write in step",/'
    wrong_words "more than 32 octets of an ID item" type24_difference_words.h \
        's/count > T24_ITEM_OCTETS/count > 254/'
    wrong_words "a code told without hex" type24_difference_words.h \
        's/if (code > 9)/if (code > 99)/'
}

# given STATUS IN_USE NEW WORDS...: the host ends with this number and says these lines, and nothing else.
given() {
    wanted=$1 got=0
    run "$work/newsheet" "$work/$2" "$work/$3" >"$work/out" 2>&1 || got=$?
    shift 3
    printf '%s\n' "$@" | diff - "$work/out" || fail "newsheet says otherwise"
    [ "$got" = "$wanted" ] || fail "newsheet ends with $got, not $wanted"
    printf '%s\n' "$@"
}

# Sheet P's drive under which the slave can go on, with what may change changed; with other regions; and with another L.
make_new_sheets() {
    item="04 02 04 01 02 03 04 00 00 00 00 00 00 00 00 00 00 00 00 00 00 00 00 00 00 00 00 00 00 00 00 00 00 00 00"
    octets 01 10 31 00 02 00 10 00 00 04 00 00 00 01 02 04 10 00 00 04 00 00 00 06 03 00 00 00 10 00 00 01 \
        $item 06 01 07 02 00 >"$work/new.bin"
    octets 01 10 30 00 02 00 10 00 00 08 00 00 00 03 03 07 00 02 10 00 00 02 00 >"$work/moved.bin"
    octets 01 20 30 00 02 00 10 00 00 04 00 00 00 03 02 04 10 00 00 04 00 00 00 06 03 07 00 02 10 00 00 02 00 >"$work/longer.bin"
}

test_newsheet() {
    say "newsheet"
    make_new_sheets
    $CPP "$dist/example/newsheet.c" $LIB -o "$work/newsheet"
    given 0 p.bin p.bin "no difference"
    $C -static "$dist/example/newsheet.c" $LIB -o "$work/newsheet"
    given 0 p.bin p.bin "no difference"
    given 0 p.bin new.bin "CONNECT 0E010400300201000000000000000000" "link record: version 30 hex -> 31 hex" \
        "region 00001000: rights read, write out of step -> read" "parameter 0: new, 1 octet at 00001000" "parameter 7: gone" \
        "ID item 2: new, 4 octets" "tolerance record: new, lost cycles 1" "rule release record: new, rule release 2" \
        "taken" "NOP     00120400000000000000000000000000"
    given 1 p.bin moved.bin "CONNECT 0E010400300201000000000000000000" "region 00001000: length 4 -> 8 (waits)" \
        "region 00001004: gone (waits)" "waits: not while the band runs"
    given 1 p.bin longer.bin "CONNECT 0E010400300201000000000000000000" "link record: L 16 -> 32 (waits)" \
        "waits: not while the band runs"
    given 1 moved.bin p.bin "CONNECT 0E010400300201000000000000000000" "region 00001000: length 8 -> 4 (waits)" \
        "region 00001004: new, 4 octets, rights write out of step, write in step (waits)" "waits: not while the band runs"
    test_newsheet_short
    test_newsheet_refused
    test_newsheet_edits
    test_page_loop
}

# The page's loop over a list, as a reader can type it off.
test_page_loop() {
    {
        printf '#include "type24.h"\nstatic uint32_t gone;\nstatic void forget(uint32_t key)\n{\n    gone = key;\n}\nint main(void)\n{\n'
        printf '    static const uint8_t list[] = { 0x42, 1, 0, 0, 0, 0x43, 7, 2, 0x44, 9 };\n    const size_t len = sizeof list;\n'
        awk '/^    struct t24_entry entry;/ { on = 1 } on && !/^    / { exit } on' "$dist/doc/LINKING.md"
        printf '    return gone == 519 && place == len ? 0 : 1;\n}\n'
    } >"$work/loop.c"
    grep -q t24_entry_at "$work/loop.c" || fail "no loop on the page"
    $C "$work/loop.c" $LIB -o "$work/loop"
    run "$work/loop" || fail "the page's loop"
    $CPP "$work/loop.c" $LIB -o "$work/loop"
    run "$work/loop" || fail "the page's loop in C++"
    echo "the page's loop over a list: ok"
}

test_newsheet_short() {
    given 1 p.bin s.bin "CONNECT 0E010400300201000000000000000000" "link record: gone (waits)" \
        "short link record: new, L 16, version 30 hex, profile 0 (waits)" "waits: not while the band runs"
    { head -c 32 "$work/s.bin" && octets 06 02 00; } >"$work/s-tolerant.bin"
    given 0 s.bin s-tolerant.bin "CONNECT 0E000400300201000000000000000001" "tolerance record: new, lost cycles 2" \
        "taken" "NOP     00000400000000000000000000000012"
}

test_newsheet_refused() {
    given 2 p.bin cut.bin "newsheet: second sheet: 21 at octet 32: no end record"
    given 2 cut.bin p.bin "newsheet: first sheet: 11 at octet 32: no end record"
    given 2 cut.bin rights.bin "newsheet: first sheet: 11 at octet 32: no end record"
    given 2 p.bin rights.bin "newsheet: second sheet: 24 at octet 4: region 1, rights 09: only bits 0 to 2 may be set"
    given 2 p.bin none.bin "newsheet: $work/none.bin: No such file or directory"
    given 2 folder p.bin "newsheet: $work/folder: Is a directory"
}

# edited NAME EDIT WORDS IN_USE NEW: a host with this edit is told so.
edited() {
    sed "$2" "$dist/example/newsheet.c" >"$work/edited.c"
    ! cmp -s "$dist/example/newsheet.c" "$work/edited.c" || fail "no edit: $1"
    $HAND -static "$work/edited.c" $HAND_LIB -o "$work/edited"
    must_fail "$1" "$3" hand "$work/edited" "$work/$4" "$work/$5"
}

# A host that takes what it must not is refused by the next call; one in whose band a cycle was lost waits; a list needs its room.
test_newsheet_edits() {
    edited "a new L below a running slave" 's/(entry->bits \& T24_CHANGED_L) == 0/1/' \
        "^newsheet: 1: state record of wrong length or not valid: octet 2, L, is not the sheet's$" p.bin longer.bin
    edited "a region more below a running slave" 's/(entry->bits \& T24_CHANGED_REGION_LENGTH) == 0/1/; s/return entry->what == T24_ENTRY_CHANGED$/return 1/' \
        "^newsheet: 2: memory length is not the sum of the regions: 4, not 8$" readonly.bin p.bin
    octets 01 10 30 00 02 00 10 00 00 08 00 00 00 07 06 00 00 >"$work/intolerant.bin"
    lost='s/^    return exchange(host);/    if (!exchange(host)) return 0;\n    make_command(host, T24_NOP);\n    if (!exchange(host)) return 0;\n    return exchange(host);/'
    edited "a sheet that tolerates less, while a cycle is lost" "$lost" \
        "^waits: cycles are being lost, more than the new sheet tolerates$" tolerant.bin intolerant.bin
    edited "the same, taken" "$lost;s/host->state\[T24_AT_FAILURES\] >/T24_TOLERANCE_MAX </" \
        "^newsheet: 1: state record of wrong length or not valid: octet 10, lost cycles in a row, is more than the sheet tolerates$" \
        tolerant.bin intolerant.bin
    edited "a list without its last octet of room" 's/next->len, list, len)/next->len, list, len - 1)/' "^newsheet: no list$" p.bin new.bin
}
