.PHONY: run install test soak peers bench

BOOK ?= examples/coach.cnf
PREFIX ?= /usr/local

# Proves and builds shrink, and runs it on a book: make run, or make run BOOK=file.
run:
	@tools/prove shrink
	@tools/run-shrink < "$(BOOK)"

# Puts shrink, the library's archive, its header and its pkg-config file into a folder: make install PREFIX=dir.
install:
	@tools/install "$(DESTDIR)$(PREFIX)"

# Everything: proofs, must-fail edits, programs, the comparison with the second program.
test:
	bash .ci/run

# The comparison's random groups with fresh seeds, until it is stopped.
soak:
	tools/prove shrink
	tools/run-test compare soak tools/run-shrink

# The comparison with CaDiCaL.
peers:
	tools/peers

# The measurements of docs/BENCHMARKS.md.
bench:
	tools/bench
