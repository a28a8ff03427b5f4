# The commands of the README: `make test`, `make run` (`make run FILE=x` runs an order file of yours), `make mutants`, `make differential`
# (CASES=, ORDERS= and SEED= choose how many cases and order files, and which), `make wrong-rules`, `make wireshark`, `make bench`,
# `make stored` and `make abort-codes`.
.PHONY: test run mutants differential wrong-rules wireshark bench stored abort-codes

test:
	@tools/test

run:
	@tools/build order
	@tools/run-orders $(FILE)

mutants:
	@tools/mutants

differential:
	@tools/differential $(if $(CASES),--cases $(CASES)) $(if $(ORDERS),--orders $(ORDERS)) $(if $(SEED),--seed $(SEED))

wrong-rules:
	@tools/wrong-rules

wireshark:
	@tools/wireshark/run

bench:
	@tools/build --objects order
	@tools/bench

stored:
	@tools/stored

abort-codes:
	@tools/abort-codes
