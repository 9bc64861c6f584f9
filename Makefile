.PHONY: help test edits run library install uninstall fuzz bench costs check-times

# What a bare `make` prints: a line for each target, from the words after '##' below. Times are for two cores, measured
# with an older kit.
help:
	@awk -F ' *## *' '/^[a-z-]+:.*##/ { sub(/:.*/, "", $$1); printf "make %-12s %s\n", $$1, $$2 }' $(firstword $(MAKEFILE_LIST))

# Proves every crate, from nothing where this machine has not proved it yet, tries the must-fail edits, runs the programs and the scripts of tests/.
test: ## prove every crate, try the must-fail edits, run the tests: about 25 minutes
	@sh tests/run

# Every must-fail edit, those that the gate has no time for too.
edits: ## try every must-fail edit, those too that make test has no time for: about 35 minutes
	@sh tests/edits

# Document 01's three lines (README.md says what document 01 is). Minutes the first time, seconds after that.
run: ## prove and run the diary program: about 6 minutes, then seconds
	@sh tests/diary

# The public calls as one archive, for include/gukoremo.h and host/gukoremo.
library: ## prove the public calls and write the archive for C and Rust: about 12 minutes, then seconds
	@sh host/library

# Under PREFIX=/usr/local or another folder, with DESTDIR=.. in front of it. The command is built with cargo over Debian's crates.
export PREFIX ?= /usr/local
export DESTDIR
install: library ## install the command and what C needs under PREFIX=..: about a minute after make library
	@sh host/packages && cargo build --release --offline --target-dir target/host --manifest-path host/gukoremo-cli/Cargo.toml
	@sh host/install

uninstall: ## remove what make install put under PREFIX
	@sh host/install remove

# Random calls and damaged tables, 100,000 of each or N=..; from the clock's seed or from SEED=.. A difference is
# printed as the smallest list of calls that shows it.
fuzz: library ## play N=100000 random calls and damaged tables: about a minute after make library
	@sh host/packages && cargo build --release --offline --quiet --target-dir target/host --manifest-path host/differ/Cargo.toml
	@target/host/release/differ fuzz $(or $(N),100000) $(SEED)

# The tables of docs/BENCHMARKS.md, measured here.
bench: library ## measure calls and lists, as ratios (docs/BENCHMARKS.md): a few minutes after make library
	@sh host/packages && cargo build --release --offline --quiet --target-dir target/host --manifest-path host/differ/Cargo.toml
	@target/host/release/differ bench

# The table of docs/CHECK-TIMES.md, 'What a call costs beyond the check', measured here.
costs: library ## measure what each call costs beyond the check: about a minute after make library
	@sh host/packages && cargo build --release --offline --quiet --target-dir target/host --manifest-path host/differ/Cargo.toml
	@target/host/release/differ costs

# The table of docs/CHECK-TIMES.md, 'What a check costs', measured here.
check-times: library ## measure what a check costs on ten contents: about a minute after make library
	@sh host/packages && cargo build --release --offline --quiet --target-dir target/host --manifest-path host/differ/Cargo.toml
	@target/host/release/differ check-times
