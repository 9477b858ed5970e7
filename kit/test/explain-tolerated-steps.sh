# Sourced by steps.sh: what t24-explain says of lost cycles that the sheet tolerates, and of a state record of release 1, in $work/explain.
# shellcheck shell=sh disable=SC2154 # set by test-kit

# Sheet P that tolerates two lost cycles in a row, and the same drive in a row of none, one and two.
make_tolerated() {
    hex tolerant.bin "01103000 02001000000400000003 02041000000400000006 0307000210000002 0602 00"
    hex row-1.bin 1203100001010305000001
    hex row-2.bin 1203100001010305000002
    hex again-1.bin "22 1D530000002101000210000000000000 1D630600000000000000000000000000" # MN 3 again
    hex again-2.bin "22 00730000000000000000000000000000 00730600000000000000000000000000" # and SN 7 for 6
    hex kept.bin "22 00740000000000000000000000000000 00840400000000000000000000000000"
    cat again-1.bin again-2.bin kept.bin >tolerated.bin
    hex stored.bin "22 1D530000002101000210000000000000 1D6304000021010002100000AABB0000" # the drive executed it
    hex old.bin 11021000010000000000
    hex old-in-step.bin 11031000010103050000
    hex old-l.bin 11022000010000000000
    hex old-kind.bin 12021000010000000000
    hex old-disabled.bin 11001000000000000000
}

explain_tolerated() {
    explained 0 stdout sheet tolerant.bin <<'END'
sheet: valid, L 16, 8 octets of memory, 2 regions, 1 parameter, 0 ID items, tolerates 2 lost cycles in a row
END
    explained 0 stdout trace tolerant.bin in-step.bin memory.bin tolerated.bin <<'END'
all agree: 3 records
lost:   2 cycles, tolerated
after:  link 3 SyncConnected, last MN 4, RSN 8, command latch 0, communication latch 0
memory: 0 of 8 octets changed
END
    explained 0 stdout trace tolerant.bin row-1.bin memory.bin again-1.bin <<'END'
all agree: 1 record
lost:   1 cycle, tolerated
after:  link 3 SyncConnected, last MN 3, RSN 6, 2 lost cycles in a row, command latch 0, communication latch 0
memory: 0 of 8 octets changed
END
    explained 1 stdout trace tolerant.bin row-1.bin memory.bin stored.bin <<'END'
record 0, at octet 0 of the trace, differs at octet 2 of its reply
command: 1D MEM_RD address 00001002, 2 octets; MN 3, SN 5
before:  link 3 SyncConnected, last MN 3, RSN 5, 1 lost cycle in a row, command latch 0, communication latch 0
ours failed the watchdog: tolerated, 2 of 2 in a row: MN 4 expected, 3 seen; SN 5 expected, 5 seen
ours:  1D630600000000000000000000000000
trace: 1D6304000021010002100000AABB0000
           ^^    ^^^^  ^^^^    ^^^^
octet 2: status, low octet, with the command's identity
ours:  not executed, a lost cycle was tolerated
trace: accepted
END
    explain_one_more
}

# One more than the sheet tolerates leaves link 3, and so does the first on a sheet that tolerates none.
explain_one_more() {
    explained 1 stdout trace tolerant.bin row-2.bin memory.bin again-1.bin <<'END'
record 0, at octet 0 of the trace, differs at octet 1 of its reply
command: 1D MEM_RD address 00001002, 2 octets; MN 3, SN 5
before:  link 3 SyncConnected, last MN 3, RSN 5, 2 lost cycles in a row, command latch 0, communication latch 0
ours failed the watchdog: the 3rd in a row, 2 are tolerated: MN 4 expected, 3 seen; SN 5 expected, 5 seen
ours:  1D0005C0000000000000000000000000
trace: 1D630600000000000000000000000000
         ^^^^^^
octet 1: RWDT
ours:  alarm 0, none; communication latch 12, a cycle was lost: MN did not follow, or SN was not RSN; a latch is set
trace: not executed, a lost cycle was tolerated
END
    refused_trace "row-1.bin: 1: state record of wrong length or not valid: octet 10, lost cycles in a row, is more than the sheet tolerates" \
        sheet.bin row-1.bin memory.bin agree.bin
}

# A record of ten octets is turned, and a line says so before the verdict; what is refused has no such line.
explain_turned() {
    explained 0 stdout trace sheet.bin old.bin memory.bin agree.bin <<'END'
old.bin: a state record of release 1, turned
all agree: 2 records
after:  link 2 AsyncConnected, command latch 0, communication latch 0
memory: 2 of 8 octets changed
END
    explained 0 stdout trace tolerant.bin old-in-step.bin memory.bin empty.bin <<'END'
old-in-step.bin: a state record of release 1, turned
nothing to replay: the trace has no record
END
    explained 1 stdout trace tolerant.bin old-in-step.bin memory.bin stored.bin <<'END'
old-in-step.bin: a state record of release 1, turned
record 0, at octet 0 of the trace, differs at octet 2 of its reply
command: 1D MEM_RD address 00001002, 2 octets; MN 3, SN 5
before:  link 3 SyncConnected, last MN 3, RSN 5, command latch 0, communication latch 0
ours failed the watchdog: tolerated, 1 of 2 in a row: MN 4 expected, 3 seen; SN 5 expected, 5 seen
ours:  1D630600000000000000000000000000
trace: 1D6304000021010002100000AABB0000
           ^^    ^^^^  ^^^^    ^^^^
octet 2: status, low octet, with the command's identity
ours:  not executed, a lost cycle was tolerated
trace: accepted
END
    refused_trace "old-l.bin: 1: state record of wrong length or not valid: octet 2, L, is not the sheet's" \
        sheet.bin old-l.bin memory.bin agree.bin
    refused_trace "old-kind.bin: 1: state record of wrong length or not valid: octet 0 is not 11 hex" \
        sheet.bin old-kind.bin memory.bin agree.bin
    refused_trace "rights.bin: 14 at octet 4: region 1, rights 09: only bits 0 to 2 may be set" \
        rights.bin old-l.bin memory.bin agree.bin
    refused_trace "old-disabled.bin: 5: exchange or replay while Disabled: octet 1 of the state record, the link, is 0" \
        sheet.bin old-disabled.bin memory.bin agree.bin
    refused_trace "cut.bin: 33 at octet 33: record 1: 3 of its 33 octets are missing" \
        sheet.bin old.bin memory.bin cut.bin
}
