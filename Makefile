# Each target only calls the thing that does the work.
.PHONY: run test kit measure soak fuzz mutants

# The bench program of document 01: proved, run on sheet P and two commands, compared with crates/bench/stdout, and shown.
run:
	@tools/prove bench
	@cd crates/bench/data && ../../../target/bin/bench <../stdin >../../../target/log/bench.stdout
	@cmp target/log/bench.stdout crates/bench/stdout
	@cat target/log/bench.stdout

# The gate: everything is proved, refused and run from nothing.
test:
	.ci/run

# The header kit, in dist/: the product for x86-64. For aarch64 beside: make kit T24_MACHINE=aarch64
kit:
	@kit/make-dist dist

# Our engine beside the plain one on the same inputs, for the processor at hand: times, instructions, stack, size.
measure:
	peer/figures/run

# Both engines on random sequences, as long as one wants, on the processor at hand: make soak EXCHANGES=1000000000 SEED=7
soak:
	@echo "soak: $${EXCHANGES:-1000000000} exchanges; the default, 1000000000, takes about an hour of one processor"
	@NATIVE=1 peer/run compare "$${EXCHANGES:-1000000000}" "$${SEED:-24}" --progress

# Both engines on octets that a fuzzer makes up, for so many seconds: make fuzz FUZZ_SECONDS=3600
fuzz:
	@peer/fuzz/run "$${FUZZ_SECONDS:-60}"

# Wrong rules in code and definition together: the law must refuse each. One of them: tests/mutants/run NAME
mutants:
	tests/mutants/run
