# The commands of this repository; README.md explains them.

.PHONY: run build try rows examples test sweep strength

# The prover's allocator (mimalloc) reuses freed memory instead of returning it; that saves about a hundredth of the time of a proof.
export MIMALLOC_PURGE_DELAY := -1

# Runs the dosing pump over a real retain file, cold and then warm, with out/plant if it is built; otherwise compiles out/plant-unproved.
run:
	@tools/run.sh

# Proves the program and builds it as out/plant.
build:
	@tools/build.sh

# For changes: runs the scripts of the gate over out/plant-unproved. Nothing is proved.
try:
	@tools/try.sh

# For changes: compiles the programs of tests, and asks their rows and calls. Nothing is proved.
rows:
	@tests/programs.sh

# Runs each example on the built program: prints its description and its report, and checks the report.
examples:
	@tools/examples.sh

# The gate: every proof from scratch, edits, tests, and the built program over real files. Its last line is 'N passed, 0 failed'.
test:
	@tests/gate.sh

# Refuses each request for memory of out/plant, also for large texts, and feeds it a million rows as lines: all of tests/refusals.py and
# tests/live.py, of which the gate runs a part.
sweep:
	@tests/refusals.py out/plant --all
	@tests/live.py out/plant 1000000

# Tries wrong bodies that the prover must refuse, for each crate or for CRATE='NAME ..'.
strength:
	@tools/strength.sh $(CRATE)
