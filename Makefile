# A word for each thing that people do here. The scripts do the work, and say more.
.PHONY: help check lib rehearsal rehearsals firmware agreement bench

help:
	@echo "make rehearsal   builds the rehearsal and plays document 01's example (docs/REHEARSAL.md)"
	@echo "make lib         target/staticlib/libchinchor.a, for C on x86-64 (include/chinchor.h)"
	@echo "make firmware    the C programs over that library (firmware/)"
	@echo "make rehearsals  every rehearsal input beside its output (rehearsals/)"
	@echo "make agreement   the library beside an independent twin (twin/)"
	@echo "make bench       speed and stack beside the twin (docs/SPEED.md)"
	@echo "make check       the whole gate, .ci/run"

check:
	.ci/run

# What is proved already isn't proved again: a second call takes seconds.
lib:
	tools/build

rehearsal: lib
	rehearsals/rehearse <rehearsals/example.in

rehearsals: lib
	rehearsals/run

firmware: lib
	firmware/run

agreement: lib
	twin/agreement

bench: lib
	twin/benchmark
