# make run: proves and runs the programs `examples`, `life`, `recoveries` and `key`; make test: the merge gate; make fmt: lays every file out.
SHELL := /bin/bash
.SHELLFLAGS := -o pipefail -c
.PHONY: run test fmt staticlib key oracle compare fuzz bench mutants

run:
	@for it in examples life recoveries; do .ci/program $$it </dev/null || exit; done
	@.ci/program key < papers/example.paper
	@echo "papers/belt.txt, each event beside its line of ./target/bin/key < papers/belt.paper:"
	@./target/bin/key < papers/belt.paper | paste <(sed '/^#/d; s/ *#.*//' papers/belt.txt) - | expand -t 46

test:
	.ci/run

fmt:
	@for it in crates/*/; do (cd "$$it" && rt fmt) || exit; done
	cd host && cargo fmt

# Proves the port and writes target/staticlib/libtapewoad.a.
staticlib:
	.ci/library

# Proves the key program and writes target/bin/key.
key:
	.ci/program key < papers/example.paper > /dev/null

# Builds the unchanged Rust and runs it over the recorded scripts.
oracle:
	$(MAKE) --no-print-directory -C host oracle

# Runs the unchanged Rust and the port on some millions of generated calls, and the key program on papers of some millions of events.
compare: staticlib key
	$(MAKE) --no-print-directory -C host compare

# Throws bad words, sessions and slices at the library for SECONDS seconds (180 without it).
fuzz: staticlib
	$(MAKE) --no-print-directory -C host fuzz

# Times the Rust, the library and the crate beside each other, and writes docs/bench.md.
bench: staticlib
	$(MAKE) --no-print-directory -C host bench

# Tries every small change of host/mutants on the port, compiled without proof, and writes docs/mutants.md.
mutants:
	$(MAKE) --no-print-directory -C host mutants
