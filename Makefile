# Short names for what is done here. Every recipe is a command or two of the Rattle kit, of tools/, tests/ or bench/.
.PHONY: help demo edges test outside mutants check lib install uninstall bench count vectors fmt kit

TARGET ?= x86_64
PREFIX ?= /usr/local
DESTDIR ?=
export DESTDIR

help:
	@echo 'make demo             the ten records of the manual, and the lines that the program prints for them'
	@echo 'make edges            the cases at the edges, and what each gives'
	@echo 'make test             the gate: layout of the files, everything proved, the must-fail edits, the programs, then the tests outside the prover'
	@echo 'make outside          the tests outside the prover alone (CALLS=n TRAYS=n SEED=n VECTORS='"'"'folder ..'"'"')'
	@echo 'make mutants          shows that the outside tests see each of the bugs planted in their model'
	@echo 'make check CRATE=x    one crate and what it stands on'
	@echo 'make lib              target/chip: libchip.a and chip.h, for C or Rust on x86-64 to link; TARGET=aarch64 for that machine'
	@echo 'make install          the archive, the header and a file for pkg-config below PREFIX (/usr/local); DESTDIR and TARGET are heeded'
	@echo 'make uninstall        removes them again'
	@echo 'make bench            times beside plain C, as in docs/BENCH.md'
	@echo 'make count            instructions of each call beside the C, on x86-64'
	@echo 'make vectors DIR=x    the program on each NAME.bin of a folder, compared with its NAME.txt'
	@echo 'make fmt              lay the files out'

kit:
	@command -v rt >/dev/null || { echo 'the Rattle kit is not here: no command rt' >&2; exit 1; }

demo: kit
	@tools/prove reader
	@tools/reader <crates/reader/stdin

edges: kit
	@tools/prove edges
	@crates/edges/out/edges

test: kit
	@.ci/run

outside: kit
	tests/run

mutants: kit
	tests/mutants

check: kit
	@[ -n "$(CRATE)" ] || { echo 'which crate? make check CRATE=words (crates.txt lists them)' >&2; exit 2; }
	@tools/prove $(CRATE)

lib: kit
	@tools/lib $(TARGET)

install: lib
	@tools/install "$(PREFIX)" $(TARGET)

uninstall:
	@tools/install --remove "$(PREFIX)"

bench: kit
	bench/run

count: kit
	bench/run count

vectors: kit
	@[ -n "$(DIR)" ] || { echo 'which folder? make vectors DIR=path' >&2; exit 2; }
	@tools/prove reader
	tools/vectors $(DIR)

fmt: kit
	@for crate in crates/*; do (cd $$crate && rt fmt) || exit 1; done
