# `make` lists what there is to make. The README's two: `make demo` runs the main job, `make test` passes the tests.

.PHONY: help test checks links toolchain edits edits-test clean

# Every target under a line with two hash marks; then the single checks, which have three.
## this list
help:
	@awk '/^##+ / { marks = length($$1); text = substr($$0, marks + 2); next } \
	    text && sub(/:.*/, "") { list[marks] = list[marks] sprintf("  make %-13s %s\n", $$0, text) } \
	    { text = "" } \
	    END { printf "%s\nSingle checks:\n\n%s", list[2], list[3] }' \
	    $(filter host/%,$(MAKEFILE_LIST)) $(filter-out host/%,$(MAKEFILE_LIST))

## all checks; then every crate proved from nothing and every must-fail edit refused
test: toolchain checks
	@tools/gate

# Proving the library keeps one processor busy for most of its time; the wrong headers and programs are tried on the other.
## all single checks
checks: links edits-test prototypes header
	@tools/beside '$(MAKE) -s archive' 'nice $(MAKE) -s spoilt planted'
	@$(MAKE) -s agree agree-fast demo-test inspect-test example install-test

### every relative link of every page leads to a file of the repository
links:
	@tools/links

toolchain:
	@command -v rt >/dev/null || { echo 'make: rt, the command of the Rattle toolchain, is not on the PATH' >&2; exit 1; }

## docs/EDITS.md, written from what the must-fail edits say of themselves
edits: target/EDITS.md
	@cp target/EDITS.md docs

### docs/EDITS.md is what the edits say
edits-test: target/EDITS.md
	@diff docs/EDITS.md target/EDITS.md || { echo 'edits-test: make edits' >&2; exit 1; }
	@echo 'edits-test: docs/EDITS.md is what the edits say'

target/EDITS.md: tools/edits crates.txt crates/*/must-fail $(wildcard crates/*/must-fail/*.edit)
	@mkdir -p target
	@tools/edits >$@ || { rm $@; exit 1; }

## removes all that was built, the proofs too
clean:
	@rm -rf target bench/out crates/*/out
	@echo 'clean: removed target, bench/out and crates/*/out'

include tools/compilers.mk
include second/second.mk
include host/programs.mk
include bench/bench.mk
