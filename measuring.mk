# What measures and tries the built program from outside, none of it in the gate. docs/SPEED.md has what was measured.

DATAGRAMS ?= 1000000
LINES ?= 10000000
RUNS ?= 1000
ANSWERS ?= 50000
JOBS ?= 1

.PHONY: bench soak interop survivors

bench: program
	@bench/measure.py

soak: program
	@bench/soak.py device $(DATAGRAMS)
	@bench/soak.py script $(LINES)
	@bench/soak.py runs $(RUNS)
	@bench/soak.py readers $(ANSWERS)

interop: program
	@tests/site/monitors.py
	@tests/program/interop.py

survivors:
	@tests/bodies/survivors.py $(JOBS)
