# example: proves and builds the program, and runs it on the half adder.
# test: the gate: proves every crate, tries the must-fail edits, runs the programs and the tests.
# cases: writes the cases of crosscheck and storecheck anew, from the rules.
.PHONY: example test cases

example:
	cd crates/rectify && rt run > /dev/null
	cd examples/half_adder && ../../crates/rectify/out/rectify

test:
	bash .ci/run

cases:
	python3 tools/cases.py
	python3 tools/store_cases.py
