# Targets of this repository. All but `make run`, `make install`, `make uninstall` and `make rows` need the Rattle toolchain (its command `rt`); `make bench`
# and `make faults` also need rustc.

RT ?= rt
PREFIX ?= /usr/local

.DEFAULT_GOAL := help
.PHONY: help run install uninstall build rows library ports page test library-test ports-test page-test bench faults wrong-bodies manual figures release verify

# The scripts of rows, tests/NAME.sh, that the gate runs the built program through. Those that take longest come first.
ROWS = many_trees saving checkers looks volumes icheck scripts checks archives release calls explaining examples manual mkfs builds cat changes trees folders syncs plays migrations repairs words \
    identify packs resizes editions fields diffs traces rescue salvage lessons progress failures bodies readme simh serve mount
PROGRAM = ./unixvol
PARTS = counts rows

help:
	@echo 'Without the Rattle toolchain:'
	@echo 'make run                      prints the file in samples/hello.v6, by ./unixvol where it was built, else by the program in dist/'
	@echo 'make install PREFIX=FOLDER    copies programs, manual pages, completions and the library for C, Python and Rust to FOLDER/bin, lib, include and share, or'
	@echo '                              to those of /usr/local: what was built here, else what is in dist/; DESTDIR=ROOT puts FOLDER below ROOT'
	@echo 'make uninstall PREFIX=FOLDER  removes what was installed there'
	@echo 'With it:'
	@echo 'make build                    proves and builds the program, and leaves it as ./unixvol'
	@echo 'make rows                     runs the built program from the shell, and says of each row that fails where it is and what came; ROWS="looks plays" runs'
	@echo '                              only tests/looks.sh and tests/plays.sh, PROGRAM=FILE runs another program'
	@echo 'make library                  proves and builds the library for C, Python and Rust, and leaves it in bindings/out'
	@echo 'make ports                    builds the program from the proved crates for Linux on aarch64, riscv64 and any x86-64, and the library for aarch64, and leaves'
	@echo '                              them in ports/out; a machine whose compiler is missing is skipped aloud'
	@echo 'make page                     builds the program from the proved crates for WebAssembly, and leaves it in page/out: the page unixvol.html, for any browser,'
	@echo '                              and the command unixvol.mjs, for Node'
	@echo 'make test                     the whole gate: every proof and test from nothing, then the built program from the shell, and library-test, ports-test and'
	@echo '                              page-test if these were built; then it compares what was built with dist/, if that is of the same sources'
	@echo 'make library-test             tests that library, as two compilers make it, from each of the three; a tool that is missing is skipped aloud'
	@echo 'make ports-test               runs rows of the tests through the programs for other machines, by qemu-user; what is missing is skipped aloud'
	@echo 'make page-test                runs rows of the tests through the program for WebAssembly, compares it with ./unixvol in 2,000 runs, and drives the page;'
	@echo '                              what is missing is skipped aloud'
	@echo 'make bench                    times the program against one in plain Rust that does the same; needs rustc, and some minutes'
	@echo 'make faults                   refuses each allocation in turn, of the libraries and of the program, and runs the program thousands of times where memory, the'
	@echo '                              stack, the disk or a descriptor fails it, or a signal ends it; needs rustc, and some minutes'
	@echo 'make wrong-bodies             tries the wrong bodies that the gate leaves out, on a copy: the prover has to refuse each; CRATES="NAME .." tries those of'
	@echo '                              some crates'
	@echo 'make manual                   builds the program, and makes the manual page and the completions anew from what it says of itself'
	@echo 'make figures                  writes what is counted and measured into docs/FIGURES.md: the counts and the rows; PARTS="gate commands .." measures other'
	@echo '                              parts, as tools/figures.sh says'
	@echo 'make release                  packs what was built, the program and the library, with those for other machines and the page, into dist/'
	@echo 'make verify                   proves and builds all of these, and compares them with those in dist/, byte for byte'

run:
	tools/run.sh

install:
	tools/install.sh "$(PREFIX)"

uninstall:
	tools/remove.sh "$(PREFIX)"

# The program is built only when it is proved.
build:
	RT=$(RT) tools/build.sh

# The gate leaves the program that it proved and built in out/.
test:
	RT=$(RT) tools/gate.sh
	cp -f crates/unixvol/out/unixvol unixvol
	RT=$(RT) tools/sources.sh > crates/unixvol/out/sources
	RT=$(RT) tests/run.sh ./unixvol $(ROWS)
	@# The gate proves the library's crate, but builds no archive: rt would prove all crates below it once more for that.
	@if [ -e bindings/out/libunixvol.a ]; then $(MAKE) library-test; else echo 'library-test: skipped, since `make library` has built no library here'; fi
	@if [ -d ports/out ]; then $(MAKE) ports-test; else echo 'ports-test: skipped, since `make ports` has built nothing here'; fi
	@if [ -d page/out ]; then $(MAKE) page-test; else echo 'page-test: skipped, since `make page` has built nothing here'; fi
	@RT=$(RT) tools/compare.sh

rows:
	RT=$(RT) tests/run.sh "$(PROGRAM)" $(ROWS)

library:
	RT=$(RT) tools/library.sh

# The crates are proved for x86-64 by `make build` or the gate; here what these proofs kept is taken, or they are made anew.
ports:
	RT=$(RT) tools/ports.sh

ports-test:
	RT=$(RT) tests/ports.sh ports/out

# The same for WebAssembly.
page:
	RT=$(RT) tools/page.sh

page-test:
	RT=$(RT) tests/page.sh page/out

library-test: library
	tests/library.sh bindings/out
	BACKEND=rattle OUT=bindings/out/second RT=$(RT) tools/library.sh
	tests/library.sh bindings/out/second

bench: build
	cd crates/library_runs && $(RT) run -- calls 0 0 create + checks 6 icheck 1 1 + views view 0 1 400 5 < stdin
	bench/run.sh ./unixvol crates/library_runs/out/library_runs

# The gate runs the program `library_runs` once with nothing refused.
faults: build
	cd crates/library_runs && $(RT) run -- refused volume < stdin
	tests/refused.sh crates/library_runs/out/library_runs
	tests/faults.sh ./unixvol

# They are kept outside the crates, since the gate tries all wrong bodies in must-fail.
wrong-bodies:
	RT=$(RT) tools/wrong_bodies.sh $(CRATES)

# The generated files are committed, and the gate compares them with the program's help.
manual: build
	manual/make.sh ./unixvol manual

figures:
	tools/figures.sh $(PARTS)

# A release is made from what the gate has passed.
release:
	RT=$(RT) tools/release.sh

# The sources are compared first, since the proofs take long.
verify:
	@RT=$(RT) tools/compare.sh sources
	$(MAKE) build library ports page
	@RT=$(RT) tools/compare.sh all
