# The calls that one needs from day to day. `make help` prints them with what follows `##`.
PREFIX = /usr/local
DESTDIR =
CRATE =
SECONDS = 600
PROGRAMS = uefi_list uefi_boot uefi_audit
TO = $(DESTDIR)$(PREFIX)
MADE = out/install
.PHONY: all check test try edits install dist fuzz plant bench rust help $(PROGRAMS:%=build-%)

all: $(PROGRAMS:%=build-%)  ## the programs, proved and built; until then ./uefi_list, ./uefi_boot and ./uefi_audit run their source, unproved

$(PROGRAMS:%=build-%): build-%:
	@tools/prove $*

check:  ## the one test command: every proof and test from scratch
	@./check

test:  ## what needs no toolchain: the packages' tests, the programs by cargo, pages. CRATE=uefi_path: a crate's tests and rows, proved
	@$(if $(CRATE),tools/run_tests prove '$(CRATE)',rust/checks/cargo_tests.py && tools/pages && tools/standards)

try:  ## CRATE=uefi_path: a crate's tests and rows, run without a proof
	@tools/run_tests try '$(CRATE)'

edits:  ## CRATE=uefi_path: mistakes in a crate, which the prover has to refuse
	@rt must-fail $(CRATE) && tests/edits/run $(CRATE)

install: all  ## PREFIX=/usr/local DESTDIR=: programs, manual pages, completions, the library for C
	@rm -rf $(MADE) && mkdir -p $(MADE)/bin
	tools/build_c $(MADE)
	sed -i 's|^prefix=.*|prefix=$(PREFIX)|' $(MADE)/lib/pkgconfig/*.pc
	tools/manual $(MADE)/share
	install -m 755 $(foreach it,$(PROGRAMS),crates/$(it)/out/$(it)) $(MADE)/bin
	mkdir -p '$(TO)' && cp -R $(MADE)/. '$(TO)' && rm -rf $(MADE)

dist:  ## the files of a release, in out/dist: `tools/dist` says which, and how to try it without a proof
	@tools/dist out/dist

fuzz:  ## SECONDS=600: mutated inputs, by the programs and by plain Rust
	@tests/outside/fuzz $(SECONDS)

plant:  ## CRATE=: mutants of each function of a crate, or of all crates
	@tests/outside/plant $(CRATE)

bench:  ## bench/RESULTS.md: the readers beside plain Rust
	@bench/run

rust:  ## the cargo package in rust/, written again and tested
	@rust/tools/erase/run && rust/checks/package

help:  ## this list
	@sed -n 's/^\([a-z]*\):.*  ## \(.*\)/make \1\t\2/p' Makefile | expand -t 16
