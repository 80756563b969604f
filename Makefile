# make test               proves every crate, tries every must-fail edit and runs every test
# make plan               prints the plan of a sample week
# make lib                proves the C interface and writes its archive, target/staticlib/libelurkantza.a
# make example            builds examples/two_desks.c against it, and runs it on a sample week
# make plan WEEK=path, make example WEEK=path    on another block file
# make bench              prints what solve costs, beside a plain C program of the same search and beside CaDiCaL (docs/performance.md)
# make test-long SEED=..  holds the library against the second program for longer: ten times the weeks, histories and files
.PHONY: test test-long plan lib example bench
WEEK ?= weeks/f_10.blk

test:
	@tests/run

SEED ?= 1
test-long:
	@bin/lib && SEED=$(SEED) WEEKS=300000 HISTORIES=30000 FILES=30000 tests/outside

plan:
	@bin/plan "$(WEEK)"

lib:
	@bin/lib

example:
	@bin/example "$(WEEK)"

bench:
	@bench/run
