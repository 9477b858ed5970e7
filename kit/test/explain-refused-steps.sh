# Sourced by steps.sh: what t24-explain says where the slave refuses the command of the record that differs, in $work/explain.
# shellcheck shell=sh disable=SC2154 # set by test-kit

# The body of a command that was refused, or not executed, is no data.
explain_bodies() {
    explained 1 stdout trace sheet.bin state.bin memory.bin refused.bin <<'END'
record 0, at octet 0 of the trace, differs at octet 12 of its reply
command: 1D MEM_RD address 00001002, 6 octets; MN 0, SN 0
before:  link 2 AsyncConnected, command latch 0, communication latch 0
ours is refused: alarm 9 at octet 6, count: 0, or with its element more than L - 12 octets
ours:  1D000509000000000000000000000000
trace: 1D0005090000000000000000AABB0000
                               ^^^^
octet 12: the body of a refused or not executed command is zero
ours:  alarm 9, an octet of the command is wrong; a latch is set
trace: alarm 9, an octet of the command is wrong; a latch is set
END
    explained 1 stdout trace sheet.bin in-step.bin memory.bin lost.bin <<'END'
record 0, at octet 0 of the trace, differs at octet 12 of its reply
command: 1D MEM_RD address 00001002, 2 octets; MN 3, SN 5
before:  link 3 SyncConnected, last MN 3, RSN 5, command latch 0, communication latch 0
ours failed the watchdog: MN 4 expected, 3 seen; SN 5 expected, 5 seen
ours:  1D0005C0000000000000000000000000
trace: 1D0005C00000000000000000AABB0000
                               ^^^^
octet 12: the body of a refused or not executed command is zero
ours:  alarm 0, none; communication latch 12, a cycle was lost: MN did not follow, or SN was not RSN; a latch is set
trace: alarm 0, none; communication latch 12, a cycle was lost: MN did not follow, or SN was not RSN; a latch is set
END
    explained 1 stdout trace sheet.bin in-step.bin memory.bin unread.bin <<'END'
record 0, at octet 0 of the trace, differs at octet 1 of its reply
command: 1D MEM_RD address 00001002, 2 octets; MN 4, SN 7
before:  link 3 SyncConnected, last MN 3, RSN 5, command latch 0, communication latch 0
ours failed the watchdog: MN 4 expected, 4 seen; SN 5 expected, 7 seen
ours:  1D0005C0000000000000000000000000
trace: 1D6404000021010002100000AABB0000
         ^^^^^^  ^^^^  ^^^^    ^^^^
octet 1: RWDT
ours:  alarm 0, none; communication latch 12, a cycle was lost: MN did not follow, or SN was not RSN; a latch is set
trace: accepted
END
}

# Each trace has one record, whose command the drive took and ours refuses.
make_refused_traces() {
    hex unknown.bin "22 20000000000000000000000000000000 20000400000000000000000000000000"
    hex connect.bin "22 0E000000300001000000000000000000 0E000400300001000000000000000000" # in link 2
    hex number.bin "22 01000000080002000000000000000000 01000400080002000000000000000000"
    hex lacking.bin "22 1D000000002102000210000000000000 1D0004000021020002100000AABB0E0F" # 1004 may not be read
    hex set.bin "22 0254000007000200B400000000000000 0264040007000200B400000000000000"     # in link 3, MN 4, SN 5
}

# refused_command STATE TRACE WORDS: the line that says why ours is refused, and the only one.
refused_command() {
    got=0
    (cd "$work/explain" && $EXPLAIN trace sheet.bin "$1" memory.bin "$2" >"$work/stdout" 2>"$work/stderr") || got=$?
    [ "$got" = 1 ] || { cat "$work/stdout" "$work/stderr"; fail "$2: exit status $got, wanted 1"; }
    echo "ours is refused: $3" >"$work/want"
    grep "is refused" "$work/stdout" >"$work/lines" || fail "$2: not said: $3"
    diff "$work/want" "$work/lines" || fail "$2: other words"
    unsaid stderr
}

explain_refused() {
    refused_command state.bin unknown.bin "alarm 8, unknown command code"
    refused_command state.bin connect.bin "alarm 12, command not allowed in this link"
    refused_command state.bin number.bin "alarm 9 at octet 4, parameter number: not in the sheet"
    refused_command state.bin lacking.bin "alarm 10: octet 2 of the span, at address 00001004, lacks the right to be read"
    refused_command in-step.bin set.bin "alarm 10: octet 0 of the span, at address 00001002, lacks the right to be written in step"
}
