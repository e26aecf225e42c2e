# make run    prove and build the library, and run the main job: a plotter's day
# make test   every test; its last line is the prover's own 'N passed, 0 failed'
# make reading    write the one page to read, target/reading.md: definitions, contracts of the public calls, claims
# make vectors    write anew what the test programs read and have to print, from the independent program and the requirements
# make library    prove and build the static library
# make install    header, library and pkg-config file to PREFIX (/usr/local), after make library
# make hosts  the static library and the programs over it, built and run
# make bench  times, side by side with plain C, the independent program and other ciphers; no test
# make stack  how much stack the checks of grants and the calls on the roll and on pages take, painted; no test
# make instructions    how many instructions the engine, a list, a walk, a stage and the calls on pages take, and the diffusion on small processors; no test

.PHONY: run library install test checks reading vectors reference hosts bench stack instructions

PREFIX ?= /usr/local

run:
	tools/run

library:
	tools/library

install:
	tools/install $(PREFIX)

test:
	tools/setup
	$(MAKE) --no-print-directory -j 2 reference checks
	tools/vectors check
	tools/known-answers
	tools/known-answers --shams
	tools/gate

# Checks of sources and documents that need neither the prover nor the independent program.
checks:
	tools/check-docs
	tools/check-docs --shams
	tools/reading --check
	tools/reading --shams
	tools/check-crates
	tools/check-crates --shams
	tools/check-edits
	tools/check-edits --shams

reference:
	+cd reference && cargo test --release --offline --quiet

reading:
	tools/reading

vectors:
	tools/vectors write

hosts:
	tools/hosts

# The proved library beside plain C, the independent program and other ciphers, in one run.
bench: library
	cd bench && cargo run --release --offline

# The stack of the checks of grants and of the calls on the roll and on pages.
stack: library
	gcc -O2 -Iinclude bench/stack.c target/staticlib/libcapi.a -o target/stack
	target/stack

# The instructions of the engine, of preparing a list, of a walk, of a stage and of the calls on pages, of the library or of the archive that is
# named; and those of the diffusion on small processors.
instructions: $(if $(GORDZILA_ARCHIVE),,library)
	bench/count-instructions
	bench/count-diffusion
