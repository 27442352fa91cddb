# `make run` shows a validator that catches up; `make test` proves and tests all of it; `make bench` measures; `make install`
# puts the command, the archive and its C header below PREFIX. Each does its own set-up. docs/WORKING.md has what is useful
# while something is changed.
.PHONY: run test lib bench compare fuzz install check edit edits costs samples stack tools

PREFIX ?= /usr/local

# A sample station of 1,024 rows and a validator that is 120 rows short.
run: lib
	@bash host/desk/show

install: lib
	@bash host/desk/install "$(PREFIX)"

test:
	@bash .ci/test

# The library's times beside the crate's. Nothing depends on them.
bench: lib
	@bash host/bench/run

# Every comparison with the crate and the model: make compare SECONDS=120, or ROUNDS=5; SEED=1 makes it run again.
compare: lib
	@bash host/compare/run $(if $(ROUNDS),--rounds $(ROUNDS),--seconds $(or $(SECONDS),120)) $(if $(SEED),--seed $(SEED)) $(if $(KIND),'$(KIND)')

# The comparisons with inputs that libFuzzer makes: make fuzz TARGET=message SECONDS=600. Nothing depends on it.
fuzz: lib
	@bash host/fuzz/run '$(TARGET)' $(or $(SECONDS),600)

# The proved library as an archive that Rust and C link.
lib: tools
	@bash .ci/lib

tools:
	@bash .ci/need rt cargo

# The stored samples of the crate's answers, written anew.
samples: lib
	@cd host && cargo run --offline --release --package compare --bin samples -- write

# Bytes of stack that each exported call takes, beside what docs/ABI.md promises.
stack: lib
	@cd host && cargo run --offline --release --package compare --bin stack

# One crate and what it is built on: make check CRATE=wire.
check:
	@bash .ci/check $(CRATE)

# One edit that the prover must refuse: make edit CRATE=wire EDIT=the-edits-name.
edit:
	@bash .ci/edit $(CRATE) $(EDIT)

# docs/EDITS.md anew, from what the gate's last run left in target/, or from another output of `rt ci`: make edits LOG=FILE.
edits: tools
	@cd host && cargo run --offline --release --package house --bin edits -- '$(abspath $(or $(LOG),target/gate/rt))'

# The table of costs in docs/WORKING.md anew: make costs LOG=FILE, with the output of `make test`; without LOG its seconds stay.
costs: tools
	@cd host && cargo run --offline --release --package house --bin costs -- $(if $(LOG),'$(abspath $(LOG))')
