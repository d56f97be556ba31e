# The benchmark (docs/PERFORMANCE.md). zlib, clang and the code of an earlier commit are opponents where they are there.
BENCHMARK = target/benchmark
# The commit whose proved code is measured beside this one's: the last with the check sequence bit by bit. Empty: none. One that is
# written for an older Rattle, as that one is, is left out.
BEFORE ?= 6ea528f

# The proved libraries that a target measures.
prove = @tools/build $(PROVED)

.PHONY: benchmark benchmark-traces benchmark-captures

benchmark: PROVED = speed burst_speed tockfeather trace_trial pcap_trial
benchmark-traces: PROVED = speed trace_trial
benchmark-captures: PROVED = pcap_trial

benchmark:
	$(prove)
	benchmark/build $(BENCHMARK) '$(BEFORE)' $(WARNINGS)
	$(BENCHMARK)/benchmark

# What is about traces or captures alone, without the earlier commit.
benchmark-traces benchmark-captures: benchmark-%:
	$(prove)
	benchmark/build-part $(BENCHMARK) $* $(WARNINGS)
	$(BENCHMARK)/$*
