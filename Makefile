# The targets; docs/MAKE.txt, which `make help` prints, says what each does and costs.

PROGRAM = crates/bactool/out/bactool
SOURCES := $(shell find crates -name out -prune -o \( -name '*.rt' -o -name '*.antt' \) -print) crates.txt

.PHONY: help try demo check test test-tools test-bacsite gate examples forget program documents reading kit

help:
	@sed '' docs/MAKE.txt

program: $(PROGRAM)

$(PROGRAM): $(SOURCES)
	@./build.py

try:
	@echo "The script examples/first.trace, run as the sources stand. Nothing is proved yet; this takes a minute or two."
	@cd crates/bactool && rt try -- bactrace <../../examples/first.trace

demo: program
	@python3 tests/tree.py examples/demo.sh $(PROGRAM)

check:
	rt all check

test: program
	@tests/suite.py test

gate:
	@tests/suite.py gate

examples: test-tools test-bacsite

test-tools: program guide
	@python3 tests/tree.py examples/demo.sh $(PROGRAM) | sed -E 's/(--port |127\.0\.0\.1:)[0-9]+/\147808/' | \
	    diff - examples/demo.out
	@echo "examples/demo.sh: as it is to be"
	@tests/program/sockets.py $(PROGRAM)
	@tests/program/rows.py $(PROGRAM)
	@tests/program/runs.py $(PROGRAM)
	@tests/program/fault_injection.py $(PROGRAM)

test-bacsite: program
	@tests/site/run.py $(PROGRAM)

forget:
	rm -rf crates/*/out/incremental crates/*/out/rlib

documents:
	@tests/documents/documents.py
	@tests/documents/reading.py

reading:
	@tests/documents/reading.py --write

try check test gate bench: kit

kit:
	@command -v rt >/dev/null || ./build.py  # which says so, and where it comes from

include packaging.mk measuring.mk
