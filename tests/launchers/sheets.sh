# Sourced by run: what sheetdump and sheetdiff have to do. The kit is in $work/dist, and the commands run in $work/room.
# shellcheck shell=sh disable=SC2154 # work is set by run

DUMP_USAGE="usage: sheetdump [--hex] SHEET"
DIFF_USAGE="usage: sheetdiff [--hex] FIRST SECOND"
SHEET_P="   0  link: L 16, version 30, profile 00
   4  region 00001000: 4 octets, rights read, write out of step; memory 0 to 3
  14  region 00001004: 4 octets, rights write out of step, write in step; memory 4 to 7
  24  parameter 7: address 00001002, 2 octets"
VALID_P="$SHEET_P
  32  end
valid: 8 octets of memory, 2 regions, 1 parameter, 0 ID items"
TYPE_CHANGED="link: gone
short link: new, L 16, version 30, profile 00"

# Sheet P as lines of hex, and with other rights for its second region.
lay_lines() {
    printf '# sheet P\n01 10 30 00\n02 00100000 04000000 03\n02 04100000 04000000 06\n03 0700 02100000 02 # parameter 7\n00\n' >"$work/room/p.hex"
    sed 's/ 06$/ 01/' "$work/room/p.hex" >"$work/room/read.hex"
    printf '01 10 30 00\n0\n' >"$work/room/odd.hex"
}

test_sheets() {
    lay_lines
    dump=$work/dist/bin/sheetdump
    diff=$work/dist/bin/sheetdiff
    test_dump_words
    test_dump
    test_diff_words
    test_diff
    test_diff_refused
}

test_dump_words() {
    expect "sheetdump --help" 0 "$DUMP_USAGE..." "" "$dump" --help
    expect "sheetdump -h" 0 "$DUMP_USAGE..." "" "$dump" -h
    expect "sheetdump alone" 2 "" "sheetdump: which sheet?
$DUMP_USAGE" "$dump"
    expect "sheetdump with an unknown option" 2 "" "sheetdump: unknown option --octets
$DUMP_USAGE" "$dump" --octets sheet.bin
    expect "sheetdump with two sheets" 2 "" "sheetdump: one sheet, so faulty.bin is too many
$DUMP_USAGE" "$dump" sheet.bin faulty.bin
    expect "sheetdump with an option behind the sheet" 2 "" "sheetdump: options come before the sheet: --hex
$DUMP_USAGE" "$dump" p.hex --hex
    expect "sheetdump with a missing sheet" 2 "" "sheetdump: none.bin: no such file" "$dump" none.bin
    expect "sheetdump with a directory" 2 "" "sheetdump: folder: is a directory" "$dump" folder
}

test_dump() {
    expect "sheetdump" 0 "$VALID_P" "" "$dump" sheet.bin
    expect "sheetdump with a sheet behind --" 0 "$VALID_P" "" "$dump" -- -x
    expect "sheetdump --hex" 0 "$VALID_P" "" "$dump" --hex p.hex
    expect "sheetdump --hex with an odd digit" 2 "" "t24-hex: line 2: an odd digit in 0
sheetdump: odd.hex: not lines of hex" "$dump" --hex odd.hex
    expect "sheetdump with a faulty sheet" 2 "$SHEET_P
  32  fault 11: no end record" "sheetdump: faulty.bin: the sheet is refused" "$dump" faulty.bin
    expect "sheetdump with an empty sheet" 2 "   0  fault 11: the sheet is empty" "sheetdump: empty.bin: the sheet is refused" "$dump" empty.bin
    expect "sheetdump with lines of hex as octets" 2 "   0  fault 12: kind 23 is unknown: a record begins with 00 to 07" \
        "sheetdump: p.hex: the sheet is refused" "$dump" p.hex
}

test_diff_words() {
    expect "sheetdiff --help" 0 "$DIFF_USAGE..." "" "$diff" --help
    expect "sheetdiff -h" 0 "$DIFF_USAGE..." "" "$diff" -h
    expect "sheetdiff alone" 2 "" "sheetdiff: which two sheets?
$DIFF_USAGE" "$diff"
    expect "sheetdiff with one sheet" 2 "" "sheetdiff: which two sheets?
$DIFF_USAGE" "$diff" sheet.bin
    expect "sheetdiff with three sheets" 2 "" "sheetdiff: two sheets, so tolerant.bin is too many
$DIFF_USAGE" "$diff" sheet.bin ruled.bin tolerant.bin
    expect "sheetdiff with an unknown option" 2 "" "sheetdiff: unknown option -u
$DIFF_USAGE" "$diff" -u sheet.bin ruled.bin
    expect "sheetdiff with an option behind a sheet" 2 "" "sheetdiff: options come before the sheets: --hex
$DIFF_USAGE" "$diff" p.hex --hex read.hex
    expect "sheetdiff with missing sheets" 2 "" "sheetdiff: none.bin: no such file
sheetdiff: folder: is a directory" "$diff" none.bin folder
}

test_diff() {
    expect "sheetdiff of one sheet" 0 "no difference" "" "$diff" sheet.bin sheet.bin
    expect "sheetdiff with sheets behind --" 0 "no difference" "" "$diff" -- -x sheet.bin
    expect "sheetdiff with another tolerance" 1 "tolerance: new, 1" "" "$diff" sheet.bin tolerant.bin
    expect "sheetdiff the other way round" 1 "tolerance: gone" "" "$diff" tolerant.bin sheet.bin
    expect "sheetdiff with two records" 1 "tolerance: gone
rule release: new, 2" "" "$diff" tolerant.bin ruled.bin
    expect "sheetdiff with another type" 1 "$TYPE_CHANGED" "" "$diff" sheet.bin short-sheet.bin
    expect "sheetdiff --hex" 1 "region 00001004: rights write out of step, write in step -> read" "" "$diff" --hex p.hex read.hex
    expect "sheetdiff --hex of one sheet" 0 "no difference" "" "$diff" --hex p.hex p.hex
    expect "sheetdiff --hex with an odd digit" 2 "" "t24-hex: line 2: an odd digit in 0
sheetdiff: odd.hex: not lines of hex" "$diff" --hex p.hex odd.hex
}

test_diff_refused() {
    expect "sheetdiff with a faulty first sheet" 2 "" "first sheet refused: 11 at octet 32: no end record" "$diff" faulty.bin sheet.bin
    expect "sheetdiff with a faulty second sheet" 2 "" "second sheet refused: 21 at octet 32: no end record" "$diff" sheet.bin faulty.bin
    expect "sheetdiff with two faulty sheets" 2 "" "first sheet refused: 14 at octet 0: short link: L 32: only 16" "$diff" short-l.bin faulty.bin
    expect "sheetdiff with an empty second sheet" 2 "" "second sheet refused: 21 at octet 0: the sheet is empty" "$diff" sheet.bin empty.bin
}
