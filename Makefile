# demo: proves and builds the relay and shows what it answers to one CREATE_FAST cell.
# try: shows the same with nothing proved.
# test: the merge gate. It looks whether all that the documents name stands in the tree and whether the tests read the
# example of the settings, then proves every crate and runs every test and program, and then plays the built relay to each
# of its ends.
# memory: has each growth of memory in a test of the switch refused, one a run. It is no part of the gate.
.PHONY: demo try test memory

test:
	.ci/check_names
	.ci/check_example
	rt ci
	examples/ends

demo:
	examples/demo

try:
	examples/demo unproved

memory:
	.ci/check_memory
