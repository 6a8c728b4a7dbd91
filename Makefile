# Needs the toolchain's `rt` on the PATH. `make help` lists the targets.
PROGRAM = crates/summarystore/out/summarystore
BENCH = crates/bench_calls/out/bench_calls
PREFIX = /usr/local

# The processor that packages are for, amd64 or arm64.
ARCH = $(shell dpkg --print-architecture)

.PHONY: build demo fleet-demo test faults python install lib arm64 deb deb-test archive release reproduce bench help

build: ## proves and builds the program
	@tools/build summarystore

demo: ## shows sessions by the released program, or where none is of this tree, the first, proves and builds, and shows all
	@packaging/demo

fleet-demo: ## brings up a broker, edges, shards and a gateway on this machine, and asks them: python/README.md
	@test -x $(PROGRAM) || $(MAKE) build
	@examples/fleet-demo $(PROGRAM)

test: ## runs the whole gate: proofs, tests, must-fail edits, program runs
	.ci/run

faults: ## tries the program that was built last on files while something goes wrong: faults/README.md
	@test -x $(PROGRAM) || $(MAKE) build
	@faults/foreign $(PROGRAM)
	@faults/refuse $(PROGRAM)
	@faults/kill $(PROGRAM)
	@faults/frames $(PROGRAM)
	@faults/images $(PROGRAM)
	@faults/flips $(PROGRAM)
	@faults/damage $(PROGRAM) 10000
	@faults/bits $(PROGRAM) 100
	@faults/memory $(PROGRAM)
	@test -e out/lib/libsummarystore.a || $(MAKE) lib
	@faults/library $(PROGRAM)

python: ## tries the Python package over the program that was built last: python/README.md
	@test -x $(PROGRAM) || $(MAKE) build
	@.ci/python $(PROGRAM)

install: ## installs the released program, or where none is of this tree or with PROVE=1 a proved one: PREFIX=/usr/local
	@packaging/install $(DESTDIR)$(PREFIX)

lib: ## proves and builds the library for C, in out/lib; for ARCH=arm64 in out/arm64/lib: docs/GUIDE.md, "From C"
	@ARCH=$(ARCH) packaging/library

arm64: ## proves and builds the program for aarch64, in out/arm64: packaging/README.md
	@packaging/arm64

deb: ## builds Debian's packages for ARCH=amd64 or arm64, in out/deb: packaging/README.md
	@test $(ARCH) != amd64 || test -x $(PROGRAM) || $(MAKE) build
	@test $(ARCH) != arm64 || test -x out/arm64/summarystore || $(MAKE) arm64
	@ARCH=$(ARCH) packaging/build

deb-test: ## builds them for ARCH, and installs, upgrades and removes them in a new root of Debian 12, as root
	@test $(ARCH) != amd64 || test -x $(PROGRAM) || $(MAKE) build
	@test $(ARCH) != arm64 || test -x out/arm64/summarystore || $(MAKE) arm64
	@ARCH=$(ARCH) packaging/test

archive: ## makes a folder that apt reads, out/archive, of the packages of dist/, or of those that were built last
	@packaging/archive

release: ## makes dist/ of what was proved last, from this commit; LOG=FILE is what the gate wrote then
	@packaging/release $(LOG)

reproduce: ## builds the commit of the release anew, and says whether the bytes are the same
	@tools/reproduce

bench: ## times the programs that were built last: bench/README.md
	@test -x $(PROGRAM) || $(MAKE) build
	@test -x $(BENCH) || tools/build bench_calls
	@bench/durable $(PROGRAM)
	@bench/appends $(PROGRAM)
	@bench/drops $(PROGRAM)
	@bench/checked $(PROGRAM)
	@bench/queries $(PROGRAM)
	@bench/presence $(PROGRAM)
	@bench/guesses $(PROGRAM)
	@bench/sessions $(PROGRAM)
	@bench/frames $(PROGRAM)
	@bench/python $(PROGRAM)
	@bench/commits $(BENCH)
	@bench/records $(BENCH)
	@bench/targets $(BENCH)
	@bench/landmarks $(BENCH)

help: ## lists the targets
	@awk -F ':.*## ' '/^[a-z0-9-]+:.*## / { printf "make %-10s  %s\n", $$1, $$2 }' Makefile
