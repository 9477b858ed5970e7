# Sourced by steps.sh: what t24-explain says of sheets with a rule release record, and of commands with a reserved octet that is not zero, in $work/explain.
# shellcheck shell=sh disable=SC2154 # set by test-kit

# Sheet P's drive under release 2 of the drive rules, of both types; traces of a drive that goes by release 1 and takes each command.
make_rules() {
    hex rules.bin "01103000 02001000000400000003 02041000000400000006 0307000210000002 0702 00"
    hex short-rules.bin "05103000 02001000000400000003 02041000000400000006 0307000210000002 0602 0702 00"
    hex rules-1.bin "01103000 02001000000400000003 02041000000400000006 0307000210000002 0701 00"
    hex rules-3.bin "01103000 0703 00"
    hex rules-early.bin "01103000 0702 0601 00"
    hex octet-7.bin "22 01000000070002FF0000000000000000 0100040007000200AABB000000000000"
    hex octet-2.bin "22 00008100000000000000000000000000 00008400000000000000000000000000"
    hex behind.bin "22 02000000070002000102030000000000 02000400070002000102000000000000"
    hex unreadable.bin "22 1D000000011101000410000000000000 1D000400001101000410000000000000" # 1004 may not be read
    hex short-octet-1.bin "22 01FF0000070002000000000000000003 01000400070002AABB00000000000000"
    hex by-rules.bin "22 01000000070002FF0000000000000000 01000509000000000000000000000000"
}

# by_rules SHEET TRACE WORDS: the line that says why ours is refused; under release 1 the same trace agrees.
by_rules() {
    got=0
    (cd "$work/explain" && $EXPLAIN trace "$1" state.bin memory.bin "$2" >"$work/stdout" 2>"$work/stderr") || got=$?
    [ "$got" = 1 ] || { cat "$work/stdout" "$work/stderr"; fail "$2: exit status $got, wanted 1"; }
    grep -qxF "ours is refused: $3" "$work/stdout" || { cat "$work/stdout"; fail "$2: not said: $3"; }
    unsaid stderr
}

explain_rules() {
    explained 0 stdout sheet rules.bin <<'END'
sheet: valid, L 16, 8 octets of memory, 2 regions, 1 parameter, 0 ID items, rule release 2
END
    explained 0 stdout sheet short-rules.bin <<'END'
sheet: valid, short type, L 16, 8 octets of memory, 2 regions, 1 parameter, 0 ID items, tolerates 2 lost cycles in a row, rule release 2
END
    explained 2 stderr sheet rules-3.bin <<'END'
sheet: 14 at octet 4: rule release record, rule release 3: only 1 or 2
END
    explained 2 stderr sheet rules-early.bin <<'END'
sheet: 13 at octet 6: tolerance record after the rule release record: that comes last before the end record
END
    by_rules rules.bin octet-7.bin "alarm 9: octet 7 must be zero"
    by_rules rules.bin octet-2.bin "alarm 9: bits 0 to 5 of octet 2 must be zero"
    by_rules rules.bin behind.bin "alarm 9: octet 10 must be zero"
    by_rules rules.bin unreadable.bin "alarm 9: octet 4 must be zero"
    by_rules rules-1.bin unreadable.bin "alarm 10: octet 0 of the span, at address 00001004, lacks the right to be read"
    by_rules short-rules.bin short-octet-1.bin "alarm 9: octet 1 must be zero"
    explain_both_rules
}

# A trace tells by which of the two a drive goes.
explain_both_rules() {
    explained 0 stdout trace rules-1.bin state.bin memory.bin octet-7.bin <<'END'
all agree: 1 record
after:  link 2 AsyncConnected, command latch 0, communication latch 0
memory: 0 of 8 octets changed
END
    explained 0 stdout trace rules.bin state.bin memory.bin by-rules.bin <<'END'
all agree: 1 record
after:  link 2 AsyncConnected, command latch 9, communication latch 0
memory: 0 of 8 octets changed
END
    explained 1 stdout trace rules.bin state.bin memory.bin octet-7.bin <<'END'
record 0, at octet 0 of the trace, differs at octet 2 of its reply
command: 01 PRM_RD number 7, 2 octets; MN 0, SN 0
before:  link 2 AsyncConnected, command latch 0, communication latch 0
ours is refused: alarm 9: octet 7 must be zero
ours:  01000509000000000000000000000000
trace: 0100040007000200AABB000000000000
           ^^^^^^  ^^  ^^^^
octet 2: status, low octet, with the command's identity
ours:  alarm 9, an octet of the command is wrong; a latch is set
trace: accepted
END
}
