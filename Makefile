# `make try` is a first look, in two minutes: the program as it is built with run-time checks and no proof answers and
# shows the samples. `make demo` proves and builds the program, answers and shows a whole table and a part of a netCDF
# file, and serves that part on a port and fetches it back. The first time every crate below the program is proved; where
# nothing has changed all of it takes a few minutes.
#
#     make try
#     make demo [PORT=8764]

PORT ?= 8764
BEGAN := $(shell date +%s)

.PHONY: demo
demo: bin/dap2
	cd examples && ../bin/dap2 answer buoys.csv.dods | ../bin/dap2 show
	cd examples && ../bin/dap2 answer 'sea.nc.dods?sst[0:1][1:2][0:3:3]' | ../bin/dap2 show
	cd examples && { ../bin/dap2 serve $(PORT) 1 1 & sleep 1; \
		../bin/dap2 fetch http://127.0.0.1:$(PORT)/sea.nc dods 'sst[0:1][1:2][0:3:3]' && wait $$! || { kill $$! 2> /dev/null; exit 1; }; }
	@echo "make demo took $$(( $$(date +%s) - $(BEGAN) )) seconds"

# A program that an earlier build left is removed first, so that a failed one leaves nothing to run.
bin/dap2: FORCE
	@echo "rt proves what has changed below the program, as many crates side by side as .ci/lanes says"
	rm -f bin/dap2
	.ci/program

# Each file in examples/try that has no ending is the standard input of one run, the words are those in NAME.args.
.PHONY: try
try:
	@echo "rt builds the program with run-time checks: a minute or two"
	@cd crates/dap2 && rt try --data buoys.csv=../../examples/buoys.csv --data sea.nc=../../examples/sea.nc --cases ../../examples/try
	@echo "make try took $$(( $$(date +%s) - $(BEGAN) )) seconds. Nothing was proved: make demo proves the program and builds bin/dap2"

.PHONY: FORCE
FORCE:
