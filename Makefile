# make run: proves and builds the program, and runs it on the example. make test: the gate.
.PHONY: run test

run:
	tests/examples

test:
	.ci/run
