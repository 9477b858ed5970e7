# Sourced by run: what t24-hex has to do. The kit is in $work/dist, and the commands run in $work/room.
# shellcheck shell=sh disable=SC2154 # work is set by run

HEX_USAGE="usage: t24-hex to FILE [--octets N] <LINES
       t24-hex from FILE [--trace L | --state | --memory | --sheet]"

test_hex() {
    hex=$work/dist/bin/t24-hex
    expect "t24-hex --help" 0 "$HEX_USAGE..." "" "$hex" --help
    expect "t24-hex -h" 0 "$HEX_USAGE..." "" "$hex" -h
    expect "t24-hex from --help" 0 "$HEX_USAGE..." "" "$hex" from --help
    test_hex_words
    test_hex_to
    test_hex_from
    test_hex_and_back
}

test_hex_words() {
    expect "t24-hex alone" 2 "" "t24-hex: to or from?
$HEX_USAGE" "$hex"
    expect "t24-hex with an unknown word" 2 "" "t24-hex: unknown word into
$HEX_USAGE" "$hex" into x.bin
    expect "t24-hex to without a file" 2 "" "t24-hex: which file?
$HEX_USAGE" "$hex" to
    expect "t24-hex to two files" 2 "" "t24-hex: a word too many: b.bin
$HEX_USAGE" "$hex" to a.bin b.bin
    expect "t24-hex to with an unknown option" 2 "" "t24-hex: unknown option --lines
$HEX_USAGE" "$hex" to a.bin --lines
    expect "t24-hex to with an option before the file" 2 "" "t24-hex: the file comes before --octets
$HEX_USAGE" "$hex" to --octets 16 a.bin
    expect "t24-hex --octets without a number" 2 "" "t24-hex: --octets needs a number
$HEX_USAGE" "$hex" to a.bin --octets
    expect "t24-hex --octets with no number" 2 "" "t24-hex: --octets needs a number, not 1x
$HEX_USAGE" "$hex" to a.bin --octets 1x
    expect "t24-hex --octets with a word too many" 2 "" "t24-hex: a word too many: b.bin
$HEX_USAGE" "$hex" to a.bin --octets 16 b.bin
    expect "t24-hex from nothing" 2 "" "t24-hex: which file?
$HEX_USAGE" "$hex" from
    expect "t24-hex from with an option before the file" 2 "" "t24-hex: the file comes before --trace
$HEX_USAGE" "$hex" from --trace 16 trace.bin
    expect "t24-hex from two files" 2 "" "t24-hex: a word too many: memory.bin
$HEX_USAGE" "$hex" from state.bin memory.bin
    expect "t24-hex from with an unknown option" 2 "" "t24-hex: unknown option --replies
$HEX_USAGE" "$hex" from state.bin --replies
    expect "t24-hex from with too many words" 2 "" "t24-hex: a word too many: 16
$HEX_USAGE" "$hex" from state.bin --state 16
    expect "t24-hex --trace without L" 2 "" "t24-hex: --trace needs L: 8, 16, 32, 48 or 64
$HEX_USAGE" "$hex" from trace.bin --trace
    expect "t24-hex --trace with a wrong L" 2 "" "t24-hex: --trace needs L: 8, 16, 32, 48 or 64, not 17
$HEX_USAGE" "$hex" from trace.bin --trace 17
}

# refused_lines NAME LINES MESSAGE [OPTION...]: 'to' refuses them, and leaves the file as it was.
refused_lines() {
    case_name=$1 message=$3
    # shellcheck disable=SC2059 # the lines are a format
    printf "$2" >"$work/room/lines"
    shift 3
    input=$work/room/lines
    printf kept >"$work/room/old.bin"
    expect "t24-hex to, $case_name" 2 "" "t24-hex: $message" "$hex" to old.bin "$@"
    input=/dev/null
    expect "t24-hex to, $case_name, leaves the file" 0 "kept." "" sh -c 'cat old.bin && echo .'
}

test_hex_to() {
    refused_lines "an odd digit" '00 01\n\n02 0 # no\n' "line 3: an odd digit in 0"
    refused_lines "a letter that is no hex" '# first\n00 0g\n' "line 2: g is no hex digit"
    refused_lines "0x before digits" '0x00\n' "line 1: x is no hex digit"
    refused_lines "a line too short" '00 01\n\n# none\n02 # one\n' "line 4: 1 octet, not 2" --octets 2
    refused_lines "a line too long" '00 01 02' "line 1: 3 octets, not 2" --octets 2
    expect "t24-hex to a directory" 2 "" "t24-hex: folder: is a directory" "$hex" to folder
    expect "t24-hex to a missing folder" 2 "" "t24-hex: none/x.bin: can't be written" "$hex" to none/x.bin
    printf '# comment\n\n 00 ff# behind\n\t7F\r\nAbCd' >"$work/room/lines"
    input=$work/room/lines
    expect "t24-hex to" 0 "" "" "$hex" to made.bin
    input=/dev/null
    expect "t24-hex to, the octets" 0 " 00 ff 7f ab cd" "" od -An -v -tx1 made.bin
    printf '# comment\n\n 00 ff# behind\n7Fab\n' >"$work/room/lines"
    input=$work/room/lines
    expect "t24-hex to, lines of one length" 0 "" "" "$hex" to made.bin --octets 2
    input=/dev/null
    expect "t24-hex to, lines of one length, the octets" 0 " 00 ff 7f ab" "" od -An -v -tx1 made.bin
    expect "t24-hex to, from nothing" 0 "" "" "$hex" to made.bin
    expect "t24-hex to, from nothing, no octet" 0 "0" "" sh -c 'wc -c <made.bin'
}

test_hex_from() {
    expect "t24-hex from a missing file" 2 "" "t24-hex: none.bin: no such file" "$hex" from none.bin
    expect "t24-hex from a directory" 2 "" "t24-hex: folder: is a directory" "$hex" from folder
    expect "t24-hex from an empty file" 0 "" "" "$hex" from empty.bin
    expect "t24-hex from" 0 "01103000020010000004000000030204
10000004000000060307000210000002
00" "" "$hex" from sheet.bin
    expect "t24-hex --sheet" 0 "01103000 # 0: link
02001000000400000003 # 4: region
02041000000400000006 # 14: region
0307000210000002 # 24: parameter
00 # 32: end" "" "$hex" from sheet.bin --sheet
    expect "t24-hex --sheet, a tolerance record" 0 "0601 # 32: tolerance
00 # 34: end" "" sh -c '"$1" from tolerant.bin --sheet | tail -n 2' sh "$hex"
    expect "t24-hex --sheet, a rule release record" 0 "0702 # 32: rule release
00 # 34: end" "" sh -c '"$1" from ruled.bin --sheet | tail -n 2' sh "$hex"
    expect "t24-hex --sheet, a rule release record that is cut" 0 "07 # 32: rule release, cut, 1 of 2 octets" \
        "" sh -c 'head -c 33 ruled.bin >cut-ruled.bin && "$1" from cut-ruled.bin --sheet | tail -n 1' sh "$hex"
    expect "t24-hex --sheet, a short link record" 0 "05103000 # 0: short link
02001000000400000003 # 4: region" "" sh -c '"$1" from short-sheet.bin --sheet | head -n 2' sh "$hex"
    expect "t24-hex --state" 0 "12 # kind
02 # link
10 # L
00 # dual
01 # com_time
00 # MN known
00 # last MN
00 # RSN
00 # command latch
00 # communication latch
00 # lost in a row" "" "$hex" from state.bin --state
    expect "t24-hex --state of release 1" 0 "00 # communication latch
# of release 1, a state record has 11 octets" "" sh -c '"$1" from ten.bin --state | tail -n 2' sh "$hex"
    expect "t24-hex --state of an octet too many" 0 "00 # too long, a state record has 11 octets" "" \
        sh -c 'cat state.bin >long.bin && printf "\\000" >>long.bin && "$1" from long.bin --state | tail -n 1' sh "$hex"
    expect "t24-hex --state of no octet" 0 "# too short, a state record has 11 octets" "" "$hex" from empty.bin --state
    expect "t24-hex --memory" 0 "0A0B0C0D0E0F1011                 # 0" "" "$hex" from memory.bin --memory
    expect "t24-hex --trace" 0 "22 1D000000001104000010000000000000 1D00040000110400001000000A0B0C0D
26 1D000000001105000010000000000000 1D000509000000000000000000000000 # not the kind of L 16..." "" \
        "$hex" from form.bin --trace 16
    expect "t24-hex --trace, cut" 0 "22 1D000000001104000010000000000000 1D00040000110400001000000A0B0C0D
22 1D0000000011 # cut, 7 of 33 octets" "" "$hex" from short.bin --trace 16
}

# There and back is the same file, whatever the lines look like; a file of every octet, over more than one of its pieces.
test_hex_and_back() {
    awk 'BEGIN { for (k = 0; k < 3; k++) for (i = 0; i < 256; i++) printf "%02x%s", i, i % 40 ? "" : "\n" }' >"$work/room/lines"
    input=$work/room/lines
    expect "t24-hex to, every octet" 0 "" "" "$hex" to all.bin
    input=/dev/null
    expect "t24-hex to, every octet, their number" 0 "768" "" sh -c 'wc -c <all.bin'
    for words in "" --state --memory --sheet "--trace 8" "--trace 64"; do
        # shellcheck disable=SC2016 # the inner shell's words
        expect "t24-hex there and back $words" 0 "" "" \
            sh -c '"$0" from all.bin $1 | "$0" to back.bin && cmp all.bin back.bin' "$hex" "$words"
    done
}
