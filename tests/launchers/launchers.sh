# Sourced by run: what bench and replayer have to do. The kit is in $work/dist, and the commands run in $work/room.
# shellcheck shell=sh disable=SC2154 # work and dist are set by run

TAKEN="replayer: taking sheet sheet.bin, state state.bin, memory memory.bin, trace trace.bin"
BENCH_USAGE="usage: bench [--hex] [SHEET] <COMMANDS"
REPLAYER_USAGE="usage: replayer [SHEET [STATE [MEMORY [TRACE]]]]"
REPLIES="00000400000000000000000000000000
0E000400300001000000000000000000"
DIFFERENCE="record 4 differs at octet 14
command: MEM_RD address 00001000, 4 octets
ours:  1D00050000110400001000000A0B0102
trace: 1D00050000110400001000000A0B4102
                                   ^^"

test_bench() {
    bench=$work/dist/bin/bench
    expect "bench --help" 0 "$BENCH_USAGE..." "" "$bench" --help
    expect "bench -h" 0 "$BENCH_USAGE..." "" "$bench" -h
    expect "bench with an unknown option" 2 "" "bench: unknown option --hexx
$BENCH_USAGE" "$bench" --hexx
    expect "bench with two files" 2 "" "bench: one sheet, so other.bin is too many
$BENCH_USAGE" "$bench" sheet.bin other.bin
    expect "bench with an option behind the sheet" 2 "" "bench: options come before the sheet: --hex
$BENCH_USAGE" "$bench" sheet.bin --hex
    test_bench_runs
    test_bench_files
    test_bench_sheet
    test_bench_hex
}

test_bench_runs() {
    input=$work/room/commands
    expect "bench with its default" 0 "$REPLIES" "bench: no sheet named: taking sheet.bin" "$bench"
    expect "bench with an empty name" 0 "$REPLIES" "bench: no sheet named: taking sheet.bin" "$bench" ""
    expect "bench with a sheet" 0 "$REPLIES" "" "$bench" sheet.bin
    cp "$work/room/sheet.bin" "$work/room/-x"
    expect "bench with a sheet behind --" 0 "$REPLIES" "" "$bench" -- -x
    ln -sf "$bench" "$work/room/linked"
    expect "bench by a link" 0 "$REPLIES" "" ./linked sheet.bin
    input=$work/room/cut
    expect "bench with a cut command" 2 "00000400000000000000000000000000
CUT" "bench: the last command is cut: it has fewer octets than the sheet's L" "$bench" sheet.bin
    input=/dev/null
    expect "bench without a command" 0 "" "" "$bench" sheet.bin
}

test_bench_files() {
    expect "bench with a missing sheet" 2 "" "bench: none.bin: no such file" "$bench" none.bin
    expect "bench with a directory" 2 "" "bench: folder: is a directory" "$bench" folder
    expect "bench with a pipe" 2 "" "bench: pipe: is a pipe, can't be read twice" "$bench" pipe
    expect "bench with a device" 2 "" "bench: /dev/null: is not a file, can't be read twice" "$bench" /dev/null
}

test_bench_sheet() {
    expect "bench with a refused sheet" 2 "SHEET 11 32" "bench: faulty.bin: the sheet is refused" "$bench" faulty.bin
    stand_in 2
    expect "bench with a refused sheet, explained" 2 "SHEET 11 32" "bench: faulty.bin: the sheet is refused
explain sheet
of faulty.bin" "$bench" faulty.bin
    stand_in 0
    expect "bench where t24-explain disagrees" 2 "SHEET 11 32" "bench: faulty.bin: the sheet is refused
explain sheet
of faulty.bin
bench: t24-explain ended with 0, expected 2" "$bench" faulty.bin
    rm "$work/dist/bin/t24-explain"
}

test_bench_hex() {
    input=$work/room/hex
    printf '# NOP\n00 00 00 00 0000000000000000 00000000\n\n0e000000 30000100 00000000 00000000 # CONNECT' >"$input"
    expect "bench --hex" 0 "$REPLIES" "" "$bench" --hex sheet.bin
    printf '%032d\n0\n' 0 >"$input"
    expect "bench --hex with an odd digit" 2 "" "t24-hex: line 2: an odd digit in 0" "$bench" --hex sheet.bin
    printf '%032d\n# NOP\n%030d\n%034d\n' 0 0 0 >"$input"
    expect "bench --hex with a short line" 2 "" "t24-hex: line 3: 15 octets, not 16" "$bench" --hex sheet.bin
    printf '0e00000030020100%016d\n0000%028d\n0000%028d\n0000%028d\n' 0 0 0 0 >"$input"
    expect "bench --hex with lost cycles" 0 "0E000400300201000000000000000000
00100400000000000000000000000000
00200600000000000000000000000000
000005C0000000000000000000000000" "" "$bench" --hex tolerant.bin
    # The short type: PRM_RD of parameter 7, MEM_RD, which it has not, and a NOP, with WDT 01, 12 and 23 last in each.
    printf '0e00000030020177%016d\n01000000070002%016d01\n1d%028d12\n00%028d23\n' 0 0 0 0 >"$input"
    expect "bench --hex with a short sheet" 0 "0E000400300201000000000000000000
01000400070002000000000000000011
1D080500000000000000000000000022
00000500000000000000000000000033" "" "$bench" --hex short-sheet.bin
    expect "bench --hex with a short sheet of another L" 2 "SHEET 14 0" "bench: short-l.bin: the sheet is refused" \
        "$bench" --hex short-l.bin
    printf '%064d\n' 0 >"$input"
    expect "bench --hex with two commands on a line" 2 "" "t24-hex: line 1: 32 octets, not 16" "$bench" --hex sheet.bin
    expect "bench --hex with a refused sheet" 2 "SHEET 11 32" "bench: faulty.bin: the sheet is refused" "$bench" --hex faulty.bin
    input=/dev/null
    expect "bench --hex without a command" 0 "" "" "$bench" --hex sheet.bin
}

test_replayer() {
    replayer=$work/dist/bin/replayer
    expect "replayer --help" 0 "$REPLAYER_USAGE..." "" "$replayer" --help
    expect "replayer -h" 0 "$REPLAYER_USAGE..." "" "$replayer" -h
    expect "replayer with an unknown option" 2 "" "replayer: unknown option --verbose
$REPLAYER_USAGE" "$replayer" --verbose
    expect "replayer with five files" 2 "" "replayer: at most four files, so five.bin is too many
$REPLAYER_USAGE" "$replayer" sheet.bin state.bin memory.bin trace.bin five.bin
    expect "replayer with an option behind a file" 2 "" "replayer: options come before the files: --help
$REPLAYER_USAGE" "$replayer" sheet.bin --help
    expect "replayer with its defaults" 0 "all agree: 15 records" "$TAKEN" "$replayer"
    expect "replayer with two names" 0 "all agree: 15 records" "$TAKEN" "$replayer" sheet.bin state.bin
    expect "replayer with four names" 0 "all agree: 15 records" "" "$replayer" sheet.bin state.bin memory.bin trace.bin
    expect "replayer with names behind --" 0 "all agree: 15 records" "" "$replayer" -- -x state.bin memory.bin trace.bin
    expect "replayer with an old state record" 0 "ten.bin: a state record of release 1, turned
all agree: 15 records" "" "$replayer" sheet.bin ten.bin memory.bin trace.bin
    expect "replayer with a bad old state record" 2 "" "refused: 1" "$replayer" sheet.bin ten-l.bin memory.bin trace.bin
    # shellcheck disable=SC2016 # the inner shell's words
    expect "replayer with nothing to replay" 0 "nothing to replay: the trace has no record" "" \
        sh -c '"$@" >told; ended=$?; tail -n 1 told; exit $ended' sh "$replayer" sheet.bin state.bin memory.bin empty.bin
    expect "replayer with a wrong form" 2 "" "refused: 31, at octet 33 of the trace" \
        "$replayer" sheet.bin state.bin memory.bin form.bin
    test_replayer_files
    test_replayer_explained
}

test_replayer_files() {
    expect "replayer with missing files" 2 "" "replayer: none.bin: no such file
replayer: no trace: no such file" "$replayer" sheet.bin none.bin memory.bin "no trace"
    expect "replayer with a directory" 2 "" "replayer: folder: is a directory" "$replayer" folder state.bin memory.bin trace.bin
    expect "replayer with a pipe" 2 "" "replayer: pipe: is a pipe, can't be read twice" \
        "$replayer" sheet.bin state.bin memory.bin pipe
    expect "replayer with an empty state" 2 "" "empty.bin: empty
refused: 1" "$replayer" sheet.bin empty.bin memory.bin trace.bin
}

test_replayer_explained() {
    expect "replayer where a record differs" 1 "$DIFFERENCE" "" "$replayer" sheet.bin state.bin memory.bin changed.bin
    refusal="refused: 11, at octet 32 of the sheet"
    expect "replayer with a refused sheet" 2 "" "$refusal" "$replayer" faulty.bin state.bin memory.bin trace.bin
    stand_in 1
    expect "replayer where a record differs, explained" 1 "explain trace" "of sheet.bin state.bin memory.bin changed.bin" \
        "$replayer" sheet.bin state.bin memory.bin changed.bin
    expect "replayer where t24-explain disagrees" 2 "" "$refusal
explain trace
of faulty.bin state.bin memory.bin trace.bin
replayer: t24-explain ended with 1, expected 2" "$replayer" faulty.bin state.bin memory.bin trace.bin
    stand_in 2
    test_replayer_refused
    expect "replayer where t24-explain finds no difference" 1 "$DIFFERENCE" "of sheet.bin state.bin memory.bin changed.bin
replayer: t24-explain ended with 2, expected 1" "$replayer" sheet.bin state.bin memory.bin changed.bin
    stand_in 0
    expect "replayer where all agree, explained" 0 "explain trace" "of sheet.bin state.bin memory.bin trace.bin" \
        "$replayer" sheet.bin state.bin memory.bin trace.bin
    rm "$work/dist/bin/t24-explain"
}

# Whatever the number, the words of t24-explain follow; but not where there is no number.
test_replayer_refused() {
    refused_by "a sheet" "$refusal" faulty.bin state.bin memory.bin trace.bin
    refused_by "a state record" "refused: 1" sheet.bin memory.bin memory.bin trace.bin
    refused_by "a memory" "refused: 2" sheet.bin state.bin state.bin trace.bin
    refused_by "a slave that is Disabled" "refused: 5" sheet.bin disabled.bin memory.bin trace.bin
    refused_by "a kind" "refused: 31, at octet 33 of the trace" sheet.bin state.bin memory.bin form.bin
    refused_by "a kind of another length" "refused: 32, at octet 0 of the trace" sheet.bin state.bin memory.bin other.bin
    refused_by "a cut record" "refused: 33, at octet 33 of the trace" sheet.bin state.bin memory.bin short.bin
}

# refused_by WHAT LINE SHEET STATE MEMORY TRACE
refused_by() {
    what=$1 line=$2
    shift 2
    expect "replayer that refuses $what, explained" 2 "" "$line
explain trace
of $*" "$replayer" "$@"
}

# The launcher that finds t24-explain's program for the processor at hand.
test_explain() {
    cp "$repository/kit/launchers/t24-explain" "$work/dist/bin/t24-explain"
    mkdir -p "$work/dist/z80/libexec"
    printf '#!/bin/sh\necho "run $*"\nexit 2\n' >"$work/dist/z80/libexec/t24-explain"
    mkdir -p "$work/tools"
    printf '#!/bin/sh\nexec sh "$@"\n' >"$work/tools/qemu-z80"
    chmod 755 "$work/tools/qemu-z80"
    expect "t24-explain for a processor" 2 "run sheet faulty.bin" "" \
        env T24_MACHINE=z80 "PATH=$work/tools:$PATH" "$work/dist/bin/t24-explain" sheet faulty.bin
    rm -r "$work/dist/z80" "$work/tools" "$work/dist/bin/t24-explain"
}

# A processor that nobody has, and a program that cannot be run.
test_other_processor() {
    expect "bench for a processor that the kit has not" 2 "" "bench: the kit has no program at $work/dist/z80/libexec/bench" \
        env T24_MACHINE=z80 "$bench" sheet.bin
    mkdir -p "$work/dist/z80/libexec" "$work/tools"
    cp "$work/dist/x86_64/libexec/bench" "$work/dist/z80/libexec/bench"
    expect "bench without an emulator" 2 "" "bench: $work/dist/z80/libexec/bench is for z80, this is $(uname -m), and there is no \
qemu-z80 (Debian: qemu-user)" env T24_MACHINE=z80 "$bench" sheet.bin
    printf '#!/bin/sh\necho "emulated $*"\n' >"$work/tools/qemu-z80"
    chmod 755 "$work/tools/qemu-z80"
    expect "bench with an emulator" 0 "emulated $work/dist/z80/libexec/bench" "" \
        env T24_MACHINE=z80 "PATH=$work/tools:$PATH" "$bench" sheet.bin
    printf '#!/bin/sh\nexit 7\n' >"$work/tools/qemu-z80"
    expect "bench whose program fails" 2 "" "bench: the program ended with 7" \
        env T24_MACHINE=z80 "PATH=$work/tools:$PATH" "$bench" sheet.bin
    rm -r "$work/dist/z80" "$work/tools"
    test_without_own_programs
}

# On a machine for which the kit has no programs, those for x86-64 are emulated.
test_without_own_programs() {
    mkdir "$work/tools"
    printf '#!/bin/sh\necho z80\n' >"$work/tools/uname"
    printf '#!/bin/sh\nfor word in "$@"; do last=$word; done\necho "emulated $last"\n' >"$work/tools/qemu-x86_64"
    chmod 755 "$work/tools/uname" "$work/tools/qemu-x86_64"
    expect "bench where the kit has no program of the processor" 0 "emulated $work/dist/x86_64/libexec/bench" "" \
        env -u T24_MACHINE "PATH=$work/tools:$PATH" "$bench" sheet.bin
    rm -r "$work/tools"
}
