# Sourced by steps.sh: t24-explain on sheets and traces, in $work/explain.
# shellcheck shell=sh disable=SC2086,SC2154 # several words, set by test-kit

# hex FILE HEX: writes the octets of a line of hex.
hex() {
    # shellcheck disable=SC2046 # a word for each octet
    octets $(printf %s "$2" | tr -d ' ' | sed 's/../& /g') >"$1"
}

make_slaves() {
    hex sheet.bin "01103000 02001000000400000003 02041000000400000006 0307000210000002 00"
    hex rights.bin "01103000 02001000000400000009 00"
    hex state.bin 1202100001000000000000
    hex latched.bin 1202100001000000090000
    hex disabled.bin 1200100000000000000000
    hex in-step.bin 1203100001010305000000 # last MN 3, RSN 5
    cp sheet.bin ./-sheet.bin
    hex short.bin 110210
    hex memory.bin 0A0BAABB0E0F1011
    : >empty.bin
}

# On sheet P: a read and a write of 2 octets, a wrong reply, and NOP many times.
make_traces() {
    hex read.bin "22 1D030000002101000210000000000000 1D0004000021010002100000AABB0000"
    hex write.bin "22 1E040000002101000010000000B40000 1E000400002101000010000000B40000"
    hex odd.bin "22 1E0400000021010000100000B4000000 1E0005190021010000100000B5000000"
    hex nop.bin "22 00000000000000000000000000000000 00000400000000000000000000000000"
    hex first.bin "22 1D004000002101000210000000000000 1D0044000021010002100000AABB0000"
    hex again.bin "22 1D008000002101000210000000000000 1D0044000021010002100000AABB0000" # the first reply once more
    hex refused.bin "22 1D000000002103000210000000000000 1D0005090000000000000000AABB0000" # 6 octets are too many
    hex lost.bin "22 1D530000002101000210000000000000 1D0005C00000000000000000AABB0000"    # MN 3 again
    hex unread.bin "22 1D740000002101000210000000000000 1D6404000021010002100000AABB0000"  # SN 7, and the drive took it
    hex kind.bin 77
    hex other-l.bin 21
    cat read.bin write.bin >agree.bin
    cat read.bin write.bin odd.bin nop.bin >differ.bin
    cat first.bin again.bin >repeated.bin
    cat nop.bin kind.bin >bad-kind.bin
    cat odd.bin other-l.bin >bad-l.bin
    head -c 63 agree.bin >cut.bin
    cp nop.bin long.bin
    for _ in 1 2 3 4 5 6 7 8 9 10 11 12 13 14; do
        cat long.bin long.bin >longer.bin
        mv longer.bin long.bin
    done
    cat long.bin differ.bin >long-differs.bin
}

# explained STATUS STREAM ARGUMENT...: what must be written there is the input.
explained() {
    wanted=$1 stream=$2 got=0
    shift 2
    cat >"$work/want"
    (cd "$work/explain" && $EXPLAIN "$@" >"$work/stdout" 2>"$work/stderr") || got=$?
    [ "$got" = "$wanted" ] || {
        cat "$work/stdout" "$work/stderr"
        fail "t24-explain $*: exit status $got, wanted $wanted"
    }
    diff "$work/want" "$work/$stream" || fail "t24-explain $*: other words"
}

# unsaid STREAM: the last run has written nothing there.
unsaid() {
    [ ! -s "$work/$1" ] || fail "t24-explain wrote to $1"
}

explain_sheets() {
    explained 0 stdout sheet sheet.bin <<'END'
sheet: valid, L 16, 8 octets of memory, 2 regions, 1 parameter, 0 ID items
END
    unsaid stderr
    explained 2 stderr sheet rights.bin <<'END'
sheet: 14 at octet 4: region 1, rights 09: only bits 0 to 2 may be set
END
    unsaid stdout
    explained 2 stderr sheet empty.bin <<'END'
sheet: 11 at octet 0: the sheet is empty
END
    explained 2 stderr sheet long.bin <<'END'
sheet: 11 at octet 0: the sheet is over 2048 octets
END
    explained 2 stderr sheet folder <<'END'
t24-explain: folder: Is a directory
END
    explained 2 stderr sheet none.bin <<'END'
t24-explain: none.bin: No such file or directory
END
}

explain_agreement() {
    explained 0 stdout trace sheet.bin state.bin memory.bin agree.bin <<'END'
all agree: 2 records
after:  link 2 AsyncConnected, command latch 0, communication latch 0
memory: 2 of 8 octets changed
END
    unsaid stderr
    explained 0 stdout trace sheet.bin state.bin memory.bin empty.bin <<'END'
nothing to replay: the trace has no record
END
    explained 0 stdout trace sheet.bin state.bin memory.bin long.bin <<'END'
all agree: 16384 records
after:  link 2 AsyncConnected, command latch 0, communication latch 0
memory: 0 of 8 octets changed
END
    unsaid stderr
}

# differing RECORD PLACE TRACE: the wrong reply, told with its number and place.
differing() {
    explained 1 stdout trace sheet.bin state.bin memory.bin "$3" <<END
record $1, at octet $2 of the trace, differs at octet 2 of its reply
command: 1E MEM_WR address 00001000, 2 octets; MN 4, SN 0
before:  link 2 AsyncConnected, command latch 0, communication latch 0
ours:  1E0004000021010000100000B4000000
trace: 1E0005190021010000100000B5000000
           ^^^^                ^^
octet 2: status, low octet, with the command's identity
ours:  accepted
trace: alarm 9, an octet of the command is wrong; communication latch 1, not an alarm of this library; a latch is set
END
    unsaid stderr
}

explain_differences() {
    differing 2 66 differ.bin
    differing 16386 540738 long-differs.bin # in a later piece
    explained 1 stdout trace sheet.bin latched.bin memory.bin read.bin <<'END'
record 0, at octet 0 of the trace, differs at octet 2 of its reply
command: 1D MEM_RD address 00001002, 2 octets; MN 3, SN 0
before:  link 2 AsyncConnected, command latch 9, communication latch 0
ours:  1D0005000021010002100000AABB0000
trace: 1D0004000021010002100000AABB0000
           ^^
octet 2: status, low octet, with the command's identity
ours:  accepted; a latch is set
trace: accepted
END
    explained 1 stdout trace sheet.bin state.bin memory.bin repeated.bin <<'END'
record 1, at octet 33 of the trace, differs at octet 2 of its reply
command: 1D MEM_RD address 00001002, 2 octets; MN 0, SN 0, identity 2
before:  link 2 AsyncConnected, command latch 0, communication latch 0
ours:  1D0084000021010002100000AABB0000
trace: 1D0044000021010002100000AABB0000
           ^^
octet 2: status, low octet, with the command's identity
ours:  accepted; identity 2
trace: accepted; identity 1
END
}

# refused_trace WORDS SHEET STATE MEMORY TRACE
refused_trace() {
    words=$1
    shift
    echo "t24-explain: $words" >"$work/words"
    explained 2 stderr trace "$@" <"$work/words"
    unsaid stdout
}

explain_refusals() {
    refused_trace "rights.bin: 14 at octet 4: region 1, rights 09: only bits 0 to 2 may be set" \
        rights.bin short.bin empty.bin bad-kind.bin
    refused_trace "short.bin: 1: state record of wrong length or not valid: it has not 11 octets" \
        sheet.bin short.bin memory.bin agree.bin
    refused_trace "disabled.bin: 5: exchange or replay while Disabled: octet 1 of the state record, the link, is 0" \
        sheet.bin disabled.bin memory.bin empty.bin
    refused_trace "empty.bin: 2: memory length is not the sum of the regions: 0, not 8" \
        sheet.bin state.bin empty.bin agree.bin
    refused_trace "bad-kind.bin: 31 at octet 33: record 1: kind 77 is unknown: a record begins with 21 to 25" \
        sheet.bin state.bin memory.bin bad-kind.bin
    # The form goes before a reply that differs.
    refused_trace "bad-l.bin: 32 at octet 33: record 1: kind 21 has L 8, the sheet 16" \
        sheet.bin state.bin memory.bin bad-l.bin
    refused_trace "cut.bin: 33 at octet 33: record 1: 3 of its 33 octets are missing" \
        sheet.bin state.bin memory.bin cut.bin
    refused_trace "folder: Is a directory" sheet.bin state.bin memory.bin folder
    explained 2 stderr trace none.bin state.bin folder agree.bin <<'END'
t24-explain: none.bin: No such file or directory
t24-explain: folder: Is a directory
END
}

# misused WORDS ARGUMENT...: said with the usage, on standard error.
misused() {
    words=$1
    shift
    { echo "t24-explain: $words" && head -n 2 "$work/help"; } >"$work/usage"
    explained 2 stderr "$@" <"$work/usage"
    unsaid stdout
}

explain_usage() {
    $EXPLAIN --help >"$work/help" || fail "--help"
    grep -qx "usage: t24-explain sheet SHEET" "$work/help" || fail "no usage"
    explained 0 stdout -h <"$work/help"
    unsaid stderr
    explained 0 stdout trace a --help <"$work/help"
    misused "sheet or trace?"
    misused "sheet needs 1 file, not 0" sheet
    misused "a word too many: b" sheet a b
    misused "trace needs 4 files, not 3" trace a b c
    misused "a word too many: e" trace a b c d e
    misused "unknown word word" word a
    misused "unknown option --sheet" --sheet a
    misused "unknown option -x" trace sheet.bin state.bin memory.bin -x
    explained 0 stdout sheet -- -sheet.bin <<'END'
sheet: valid, L 16, 8 octets of memory, 2 regions, 1 parameter, 0 ID items
END
}

# A pipe is read once, and a full device cannot take the words.
explain_streams() {
    cd "$work/explain"
    cat agree.bin | $EXPLAIN trace sheet.bin state.bin memory.bin /dev/stdin >"$work/stdout" \
        || fail "a trace through a pipe"
    grep -qx "all agree: 2 records" "$work/stdout" || fail "a trace through a pipe"
    if $EXPLAIN sheet sheet.bin >/dev/full 2>"$work/stderr"; then
        fail "t24-explain took a full device for written"
    fi
    grep -q "standard output" "$work/stderr" || fail "a full device is not said"
    $EXPLAIN --progress trace sheet.bin state.bin memory.bin long.bin \
        >"$work/stdout" 2>"$work/stderr" || fail "with progress"
    tr '\r' '\n' <"$work/stderr" >"$work/percents"
    for percent in "  0 %" " 48 %" "100 %"; do
        grep -qx "$percent" "$work/percents" || fail "progress lacks $percent"
    done
    cd "$kit/test"
}

# explain_all NAME PROGRAM: every case with it.
explain_all() {
    say "t24-explain, $1"
    EXPLAIN=$2
    explain_sheets
    explain_agreement
    explain_differences
    explain_bodies
    explain_tolerated
    explain_turned
    explain_short
    explain_rules
    explain_refused
    explain_refusals
    explain_usage
    explain_streams
    echo "sheets, agreement, differences, bodies, tolerated, turned, short, rules, refused commands, refusals, usage, streams: ok"
}

test_explain() {
    mkdir -p "$work/explain/folder"
    cd "$work/explain"
    make_slaves
    make_traces
    make_refused_traces
    make_tolerated
    make_short
    make_rules
    cd "$kit/test"
    explain_all "as installed" "run $dist/x86_64/libexec/t24-explain"
    $CPP "$dist/example/explain.c" $LIB -o "$work/t24-explain"
    explain_all "C++11" "run $work/t24-explain"
    [ -n "$at_hand" ] || return 0
    checked="gcc -std=c99 -O2 -g $WARN -I$dist/include $dist/example/explain.c"
    $checked "$work/at-hand.a" -o "$work/explain-valgrind"
    explain_all "valgrind" "$CHECKED --leak-check=full $work/explain-valgrind"
    $checked $UNDEFINED -fsanitize=address "$work/at-hand.a" -o "$work/explain-address"
    # Leaks are found by valgrind, above; to look for them at each end here would take minutes on some processors.
    explain_all "address and undefined sanitizers" "env ASAN_OPTIONS=detect_leaks=0 $work/explain-address"
}
