# Tockfeather: the targets are listed by `make help`.
# What is built stands below target/, the prover's own work in crates/*/out/; nothing is downloaded.

ORACLE = target/oracle/release
WARNINGS = -std=c11 -O2 -Wall -Wextra -Werror
# How long `make fuzz` runs.
SECONDS_TO_RUN ?= 60
export CARGO_TARGET_DIR = $(CURDIR)/target/oracle
export TOCKFEATHER_LIB_DIR = $(CURDIR)/target/staticlib
# The prover's own files, in memory where there is room.
export TMPDIR := $(shell tools/scratch)
# Scripts leave no compiled files beside them.
export PYTHONDONTWRITEBYTECODE = 1
# Proves and builds programs and static libraries. Behind a run of `rt ci` that passed, what it built is taken: PASSED names the file that
# was touched when it began (tests/gate).
PASSED =
BUILD = tools/build $(if $(PASSED),--passed $(PASSED))

.PHONY: help day replay capture test programs library host trial oracle outside fuzz clean

help:
	@echo 'make day         a sample bench day: report on standard output, picture in target/day/day.svg'
	@echo 'make replay      a sample day recorded and replayed: its answers are those of the console'
	@echo 'make capture     the capture of that recorded day, for Wireshark: target/day/recorded-day.pcap'
	@echo 'make test        prove every crate, try every must-fail edit, run all tests: the gate'
	@echo 'make programs    prove and build target/bin/: bench, the console; record, replay, export_capture, import_capture; verdict'
	@echo 'make library     prove and build target/staticlib/libtockfeather.a, for include/tockfeather.h'
	@echo 'make host        build the C bench host, target/host/host'
	@echo 'make oracle      build the independent model below $(ORACLE)/'
	@echo 'make outside     the tests outside the prover alone, on what is built'
	@echo 'make fuzz        random scripts, traces, days, captures and counters with fresh seeds against the independent model; SECONDS_TO_RUN=60'
	@echo 'make benchmark   checks and frames a second against a plain C model and an earlier commit (docs/PERFORMANCE.md)'
	@echo 'make benchmark-traces   its part about traces alone: reading and writing against plain C, replay against direct calls'
	@echo 'make benchmark-captures   its part about captures alone: export and import against plain C'
	@echo 'make clean       remove target/ and the prover'"'"'s work in crates/*/out/'

day:
	@echo 'Proving and building the console; the first time half a minute or more for each crate.'
	@$(BUILD) bench
	@mkdir -p target/day
	@target/bin/bench < examples/day.txt > target/day/day.out
	@tools/report examples/day.txt target/day/day.out --svg target/day/day.svg
	@echo
	@echo 'The picture of the day is target/day/day.svg, the console'"'"'s own output target/day/day.out.'

replay:
	@echo 'Proving and building the console and the programs; the first time half a minute or more for each crate.'
	@$(BUILD) bench record replay
	@tools/recorded-day examples/recorded-day.txt target/replay

# The day is recorded anew: its trace, its memory image and its capture lie side by side. A program that fails says so in its first
# line, and its exit status does not.
capture:
	@echo 'Proving and building the programs; the first time half a minute or more for each crate.'
	@$(BUILD) record export_capture
	@mkdir -p target/day
	@target/bin/record target/day/recorded-day.trace target/day/recorded-day.memory < examples/recorded-day.txt | grep '^recorded '
	@target/bin/export_capture target/day/recorded-day.trace target/day/recorded-day.memory target/day/recorded-day.pcap | grep '^exported '
	@echo 'The capture is target/day/recorded-day.pcap.'

# The gate. Its last line is the prover's own verdict, `N passed, 0 failed`; any failure before or after it fails the run.
test:
	@tests/gate

programs:
	@$(BUILD) bench verdict record replay export_capture import_capture

library:
	@$(BUILD) tockfeather

host: library
	mkdir -p target/host
	gcc $(WARNINGS) -Iinclude host/host.c target/staticlib/libtockfeather.a -o target/host/host

# The functions on traces, captures and counters for the independent model and the benchmark to call.
trial:
	@$(BUILD) trace_trial pcap_trial counter_trial

oracle: library trial
	cd oracle && cargo build --release --offline --quiet --features library,trace-library,capture-library,counter-library

# What is not proved is compared with programs that share no code with the model: two tests at a time, the longest first.
outside: programs host oracle
	@$(MAKE) --no-print-directory -j2 --output-sync=target $(OUTSIDE)

OUTSIDE = outside-console outside-trace outside-captures outside-replay outside-model outside-frames outside-histories outside-verdict outside-host outside-report outside-examples outside-capture outside-counters outside-block outside-file outside-day
.PHONY: $(OUTSIDE)

outside-console:
	@echo '== the console against the independent model'
	$(ORACLE)/compare-console target/bin/bench

outside-trace:
	@echo '== reading, writing and replay of traces against the independent model'
	$(ORACLE)/compare-trace

outside-replay:
	@echo '== the programs record and replay against the independent model'
	$(ORACLE)/compare-replay target/bin/record target/bin/replay

outside-capture:
	@echo '== export and import of captures against the independent model'
	$(ORACLE)/compare-capture

outside-counters:
	@echo '== counters that start near their stop against the independent model'
	$(ORACLE)/compare-counters

outside-captures:
	@echo '== the programs export_capture and import_capture against the independent model'
	$(ORACLE)/compare-captures target/bin/export_capture target/bin/import_capture

outside-model:
	@echo '== the independent model by itself'
	cd oracle && cargo test --release --offline --quiet

outside-frames:
	@echo '== the C functions and the verdict program against the independent model'
	$(ORACLE)/compare-frames target/bin/verdict

outside-histories:
	@echo '== the claims on histories, by the independent model alone'
	$(ORACLE)/histories

outside-verdict:
	@echo '== the verdict program'
	python3 tests/verdict.py target/bin/verdict

outside-host:
	@echo '== the C bench host'
	python3 tests/host.py target/host/host

outside-report:
	@echo '== the report of the sample day'
	python3 tests/report.py target/bin/bench

outside-examples:
	@echo '== the examples of docs/CONSOLE.md'
	python3 tests/examples.py target/bin/bench

outside-block:
	@echo '== the worked block of docs/TRACE.md'
	python3 tests/trace.py target/bin/record target/bin/replay

outside-file:
	@echo '== docs/CAPTURE.md: the worked file, a small day, the recorded day'
	python3 tests/capture.py target/bin/record target/bin/export_capture target/bin/import_capture target/bin/replay

outside-day:
	@echo '== a sample day, recorded and replayed'
	@tools/recorded-day examples/recorded-day.txt target/replay

fuzz: programs oracle
	$(ORACLE)/fuzz target/bin/bench $(SECONDS_TO_RUN)
	$(ORACLE)/compare-trace --seconds $(SECONDS_TO_RUN)
	$(ORACLE)/compare-replay target/bin/record target/bin/replay --seconds $(SECONDS_TO_RUN)
	$(ORACLE)/compare-capture --seconds $(SECONDS_TO_RUN)
	$(ORACLE)/compare-counters --seconds $(SECONDS_TO_RUN)
	$(ORACLE)/compare-captures target/bin/export_capture target/bin/import_capture --seconds $(SECONDS_TO_RUN)

clean:
	rm -rf target crates/*/out

include benchmark/benchmark.mk
