# Sourced by steps.sh: what t24-explain says of sheets and traces of the short type, in $work/explain.
# shellcheck shell=sh disable=SC2154 # set by test-kit

# Sheet P's drive with the short type, which tolerates two lost cycles in a row; in step it has last MN 3 and RSN 5.
make_short() {
    hex short-sheet.bin "05103000 02001000000400000003 02041000000400000006 0307000210000002 0602 00"
    hex short-l.bin "05083000 00"
    hex get.bin "22 01000000070002000000000000000003 01000400070002AABB00000000000000"
    hex set-to.bin "22 02FFFFFF070002B401FFFFFFFFFFFF04 02000400070002B40100000000000000" # octets not looked at are FF
    hex short-lost.bin "22 00000000000000000000000000000053 00000600000000000000000000000063"
    hex in-status.bin "22 1D000000001101000010000000000000 1D000508000000000000000000000000" # the alarm in the status
    hex at-1.bin "22 00000000000000000000000000000054 00640400000000000000000000000000" # RWDT at octet 1
    hex one.bin "22 01000000070001000000000000000000 01000400070001AA0000000000000000" # the drive took size 1
    hex zeros.bin "22 00000000000000000000000000000072 00000000000000000000000000000000" # MN 2, SN 7
    cat get.bin set-to.bin >short-agree.bin
}

explain_short() {
    explained 0 stdout sheet short-sheet.bin <<'END'
sheet: valid, short type, L 16, 8 octets of memory, 2 regions, 1 parameter, 0 ID items, tolerates 2 lost cycles in a row
END
    explained 2 stderr sheet short-l.bin <<'END'
sheet: 14 at octet 0: short link record, L 8: only 16
END
    explained 0 stdout trace short-sheet.bin state.bin memory.bin short-agree.bin <<'END'
all agree: 2 records
after:  link 2 AsyncConnected, command latch 0, communication latch 0
memory: 2 of 8 octets changed
END
    explained 0 stdout trace short-sheet.bin in-step.bin memory.bin short-lost.bin <<'END'
all agree: 1 record
lost:   1 cycle, tolerated
after:  link 3 SyncConnected, last MN 3, RSN 6, 1 lost cycle in a row, command latch 0, communication latch 0
memory: 0 of 8 octets changed
END
    explain_short_differences
    explain_short_lost
}

# An alarm where the enhanced type has it, and a size that this slave refuses.
explain_short_differences() {
    explained 1 stdout trace short-sheet.bin state.bin memory.bin in-status.bin <<'END'
record 0, at octet 0 of the trace, differs at octet 1 of its reply
command: 1D unknown code; MN 0, SN 0
before:  link 2 AsyncConnected, command latch 0, communication latch 0
ours is refused: alarm 8, unknown command code
ours:  1D080500000000000000000000000000
trace: 1D000508000000000000000000000000
         ^^  ^^
octet 1: the command's alarm
ours:  alarm 8, unknown command code; a latch is set
trace: accepted; a latch is set; bits 8 to 11 are not 0
END
    explained 1 stdout trace short-sheet.bin state.bin memory.bin one.bin <<'END'
record 0, at octet 0 of the trace, differs at octet 1 of its reply
command: 01 PRM_RD number 7, 1 octet; MN 0, SN 0
before:  link 2 AsyncConnected, command latch 0, communication latch 0
ours is refused: alarm 9 at octet 6, size: not the parameter's, or more than 8
ours:  01090500000000000000000000000000
trace: 01000400070001AA0000000000000000
         ^^^^  ^^  ^^^^
octet 1: the command's alarm
ours:  alarm 9, an octet of the command is wrong; a latch is set
trace: accepted
END
}

# RWDT where the enhanced type has it, behind a lost cycle; and a lost cycle that the drive did not tolerate.
explain_short_lost() {
    explained 1 stdout trace short-sheet.bin in-step.bin memory.bin at-1.bin <<'END'
record 0, at octet 0 of the trace, differs at octet 1 of its reply
command: 00 NOP; MN 4, SN 5
before:  link 3 SyncConnected, last MN 3, RSN 5, command latch 0, communication latch 0
ours:  00000400000000000000000000000064
trace: 00640400000000000000000000000000
         ^^                          ^^
octet 1: the command's alarm
ours:  accepted
trace: alarm 100, not an alarm of this library
END
    explained 1 stdout trace short-sheet.bin in-step.bin memory.bin zeros.bin <<'END'
record 0, at octet 0 of the trace, differs at octet 2 of its reply
command: 00 NOP; MN 2, SN 7
before:  link 3 SyncConnected, last MN 3, RSN 5, command latch 0, communication latch 0
ours failed the watchdog: tolerated, 1 of 2 in a row: MN 4 expected, 2 seen; SN 5 expected, 7 seen
ours:  00000600000000000000000000000062
trace: 00000000000000000000000000000000
           ^^                        ^^
octet 2: status, low octet
ours:  not executed, a lost cycle was tolerated
trace: accepted; bit 2 is 0, must be 1
END
}
