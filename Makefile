# Two commands do everything: `make route` runs the route program on a sample network, `make test` passes the tests.
.PHONY: route test hosts checks library programs compare bench clean

ROUTE = crates/route/out/route
NORMALISE = crates/normalise/out/normalise

# The sample: document 01's network and enquiries.
route:
	cd crates/route && rt run < /dev/null > /dev/null
	cd crates/route/data && ../out/route < ../stdin

# rt ci proves everything, so it comes first, and the C side is built over what it proved: .ci/library builds the archive, and the programs
# are those that it left. Its verdict is said again as the last line.
test:
	.ci/prove
	.ci/library
	$(MAKE) --no-print-directory checks
	@tail -n 1 .ci/verdict

# The C side by itself.
hosts: library programs
	$(MAKE) --no-print-directory checks

# Of the library and the programs as they were built last: header, examples, benchmark (built only), and the comparison with the second program.
checks:
	tools/check-header
	tools/check-header --seeded
	examples/run
	bench/build
	second/build
	target/second/driver --self
	target/second/driver --named $(ROUTE) $(NORMALISE)
	target/second/driver 3000 1 $(ROUTE) $(NORMALISE)

# crates/mpakirovu/out/libmpakirovu.a
library:
	cd crates/mpakirovu && rt lib

# rt run builds a program and runs it; what it says of no network at all is not looked at here.
programs:
	cd crates/route && rt run < /dev/null > /dev/null
	cd crates/normalise && rt run < /dev/null > /dev/null

# Any number of cases by hand: make compare CASES=100000 SEED=7
CASES = 10000
SEED = 1
compare: library programs
	second/build
	target/second/driver $(CASES) $(SEED) $(ROUTE) $(NORMALISE)

# A table of times beside plain C; nothing is timed against a bar.
bench: library
	bench/run

clean:
	rm -rf target
