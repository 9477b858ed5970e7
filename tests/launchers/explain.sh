# Sourced by run: what t24-explain has to do when it is called by hand, and what replayer says with it. The kit is in $work/dist, and the commands run
# in $work/room.
# shellcheck shell=sh disable=SC2154 # work is set by run

EXPLAIN_USAGE="usage: t24-explain sheet SHEET
       t24-explain [--progress] trace SHEET STATE MEMORY TRACE"

test_explain_calls() {
    cp "$repository/kit/launchers/t24-explain" "$work/dist/bin/t24-explain"
    explain=$work/dist/bin/t24-explain
    expect "t24-explain --help" 0 "$EXPLAIN_USAGE..." "" "$explain" --help
    expect "t24-explain -h" 0 "$EXPLAIN_USAGE..." "" "$explain" -h
    expect "t24-explain alone" 2 "" "t24-explain: sheet or trace?
$EXPLAIN_USAGE" "$explain"
    expect "t24-explain with an unknown word" 2 "" "t24-explain: unknown word memory
$EXPLAIN_USAGE" "$explain" memory memory.bin
    expect "t24-explain with an unknown option" 2 "" "t24-explain: unknown option --sheet
$EXPLAIN_USAGE" "$explain" --sheet sheet.bin
    expect "t24-explain with two sheets" 2 "" "t24-explain: a word too many: faulty.bin
$EXPLAIN_USAGE" "$explain" sheet sheet.bin faulty.bin
    expect "t24-explain with a trace alone" 2 "" "t24-explain: trace needs 4 files, not 1
$EXPLAIN_USAGE" "$explain" trace trace.bin
    test_words
    test_bodies
    rm "$work/dist/bin/t24-explain"
}

# Each refusal with the words that the kit has for it.
test_words() {
    expect "words for a sheet" 2 "" "refused: 11, at octet 32 of the sheet
t24-explain: faulty.bin: 11 at octet 32: no end record" "$replayer" faulty.bin state.bin memory.bin trace.bin
    expect "words for a state record" 2 "" "refused: 1
t24-explain: memory.bin: 1: state record of wrong length or not valid: it has not 11 octets" \
        "$replayer" sheet.bin memory.bin memory.bin trace.bin
    expect "words for a memory" 2 "" "refused: 2
t24-explain: state.bin: 2: memory length is not the sum of the regions: 11, not 8" \
        "$replayer" sheet.bin state.bin state.bin trace.bin
    expect "words for a slave that is Disabled" 2 "" "refused: 5
t24-explain: disabled.bin: 5: exchange or replay while Disabled: octet 1 of the state record, the link, is 0" \
        "$replayer" sheet.bin disabled.bin memory.bin trace.bin
    expect "words for an old state record" 2 "" "refused: 1
t24-explain: ten-l.bin: 1: state record of wrong length or not valid: octet 2, L, is not the sheet's" \
        "$replayer" sheet.bin ten-l.bin memory.bin trace.bin
    expect "words for a memory beside an old state record" 2 "" "ten.bin: a state record of release 1, turned
refused: 2
t24-explain: state.bin: 2: memory length is not the sum of the regions: 11, not 8" \
        "$replayer" sheet.bin ten.bin state.bin trace.bin
    expect "words for a kind" 2 "" "refused: 31, at octet 33 of the trace
t24-explain: form.bin: 31 at octet 33: record 1: kind 26 is unknown: a record begins with 21 to 25" \
        "$replayer" sheet.bin state.bin memory.bin form.bin
    expect "words for a kind of another length" 2 "" "refused: 32, at octet 0 of the trace
t24-explain: other.bin: 32 at octet 0: record 0: kind 21 has L 8, the sheet 16" \
        "$replayer" sheet.bin state.bin memory.bin other.bin
    expect "words for a cut record" 2 "" "refused: 33, at octet 33 of the trace
t24-explain: short.bin: 33 at octet 33: record 1: 26 of its 33 octets are missing" \
        "$replayer" sheet.bin state.bin memory.bin short.bin
}

# A read of 5 octets is refused at L 16, and a reply that has data nevertheless differs there.
test_bodies() {
    echo 22 1D000000001105000010000000000000 1D0005090000000000000000AA000000 >"$work/room/lines"
    input=$work/room/lines
    expect "a trace with a body too many" 0 "" "" "$work/dist/bin/t24-hex" to body.bin
    input=/dev/null
    # shellcheck disable=SC2016 # the inner shell's words
    expect "replayer on a refused command" 1 "ours is refused: alarm 9 at octet 6, count: 0, or with its element more than L - 12 octets" "" \
        sh -c '"$@" >told; ended=$?; grep "^ours is" told; exit $ended' sh "$replayer" sheet.bin state.bin memory.bin body.bin
    # shellcheck disable=SC2016 # the inner shell's words
    expect "replayer on a body of a refused command" 1 "octet 12: the body of a refused or not executed command is zero" "" \
        sh -c '"$@" >told; ended=$?; grep "^octet" told; exit $ended' sh "$replayer" sheet.bin state.bin memory.bin body.bin
    test_lost_cycle
}

# In step with last MN 3 and RSN 5 a NOP with MN 4 and SN 7 is not executed.
test_lost_cycle() {
    printf '\022\003\020\000\001\001\003\005\000\000\000' >"$work/room/in-step.bin"
    echo 22 00740000000000000000000000000000 00000000000000000000000000000000 >"$work/room/lines"
    input=$work/room/lines
    expect "a trace with another SN" 0 "" "" "$work/dist/bin/t24-hex" to unread.bin
    input=/dev/null
    # shellcheck disable=SC2016 # the inner shell's words
    expect "replayer on a lost cycle" 1 "ours failed the watchdog: MN 4 expected, 4 seen; SN 5 expected, 7 seen" "" \
        sh -c '"$@" >told; ended=$?; grep "^ours failed" told; exit $ended' sh "$replayer" sheet.bin in-step.bin memory.bin unread.bin
    test_tolerated_cycle
}

# The same on a sheet that tolerates one lost cycle in a row, and a trace that has it.
test_tolerated_cycle() {
    # shellcheck disable=SC2016 # the inner shell's words
    expect "replayer on a tolerated lost cycle" 1 \
        "ours failed the watchdog: tolerated, 1 of 1 in a row: MN 4 expected, 4 seen; SN 5 expected, 7 seen" "" \
        sh -c '"$@" >told; ended=$?; grep "^ours failed" told; exit $ended' sh "$replayer" tolerant.bin in-step.bin memory.bin unread.bin
    echo 22 00740000000000000000000000000000 00640600000000000000000000000000 >"$work/room/lines"
    input=$work/room/lines
    expect "a trace with a tolerated lost cycle" 0 "" "" "$work/dist/bin/t24-hex" to lost.bin
    input=/dev/null
    expect "replayer where all agree, one lost cycle tolerated" 0 "all agree: 1 record
lost:   1 cycle, tolerated
after:  link 3 SyncConnected, last MN 4, RSN 6, 1 lost cycle in a row, command latch 0, communication latch 0
memory: 0 of 8 octets changed" "" "$replayer" tolerant.bin in-step.bin memory.bin lost.bin
    expect "replayer from an old state record" 0 "ten.bin: a state record of release 1, turned
all agree: 15 records
after:  link 2 AsyncConnected, command latch 0, communication latch 12
memory: 4 of 8 octets changed" "" "$replayer" sheet.bin ten.bin memory.bin trace.bin
    test_short
}

# The same drive with the short type: parameter 7 is set, and an alarm of the trace stands where the enhanced type has it.
test_short() {
    {
        echo 22 02000000070002B40100000000000004 02000400070002B40100000000000000
        echo 22 1D000000001101000010000000000000 1D080500000000000000000000000000
    } >"$work/room/lines"
    input=$work/room/lines
    expect "a trace of the short type" 0 "" "" "$work/dist/bin/t24-hex" to short-agrees.bin
    echo 22 1D000000001101000010000000000000 1D000508000000000000000000000000 >"$work/room/lines"
    expect "a trace with an alarm in its status" 0 "" "" "$work/dist/bin/t24-hex" to short-differs.bin
    input=/dev/null
    expect "replayer on a short trace that agrees" 0 "all agree: 2 records
after:  link 2 AsyncConnected, command latch 8, communication latch 0
memory: 2 of 8 octets changed" "" "$replayer" short-sheet.bin state.bin memory.bin short-agrees.bin
    expect "replayer on a short trace that differs" 1 "record 0, at octet 0 of the trace, differs at octet 1 of its reply
command: 1D unknown code; MN 0, SN 0
before:  link 2 AsyncConnected, command latch 0, communication latch 0
ours is refused: alarm 8, unknown command code
ours:  1D080500000000000000000000000000
trace: 1D000508000000000000000000000000
         ^^  ^^
octet 1: the command's alarm
ours:  alarm 8, unknown command code; a latch is set
trace: accepted; a latch is set; bits 8 to 11 are not 0" "" "$replayer" short-sheet.bin state.bin memory.bin short-differs.bin
    expect "words for a short sheet of another L" 2 "" "refused: 14, at octet 0 of the sheet
t24-explain: short-l.bin: 14 at octet 0: short link record, L 32: only 16" "$replayer" short-l.bin state.bin memory.bin trace.bin
    expect "t24-explain on a short sheet" 0 "sheet: valid, short type, L 16, 8 octets of memory, 2 regions, 1 parameter, 0 ID items" "" \
        "$explain" sheet short-sheet.bin
}
