# Thin: each target is one command or two. A line that begins with '#:' is what bare make prints.
.PHONY: help demo load test edits lib install example attack linked differential bench

#: make demo           a day on the farm: two controllers of valves, two servers, the sums
#:                     needs the Rattle kit (rt on the PATH); some seconds
#: make load           reports of made-up gradients, their checksum and time; SEED, REPORTS and the inputs (docs/LOAD.md)
#:                     needs the kit; about 2 minutes from nothing, seconds where all is proved
#: make test           the gate: proves every crate from nothing, tries the edits that must fail, runs the programs
#:                     needs the kit; about 40 minutes on two processors
#: make edits          tries the edits that the gate leaves out (tests/edits); CRATES names some
#:                     needs the kit; about 40 minutes where all is proved
#: make lib            build/libpine_c.a, proved, with pine.h beside it; code for any x86-64
#:                     needs the kit; about 10 minutes from nothing, seconds where all is proved
#: make install        copies both, and a file for pkg-config, under PREFIX (/usr/local); DESTDIR goes before that
#:                     needs make lib, once; at once
#: make example        make lib, then builds the C example with gcc and with g++, and runs it
#:                     needs the kit, gcc and g++; seconds after make lib
#: make attack         make lib, then calls every function of the archive with arbitrary arguments, SEED=1 COUNT=1000000
#:                     needs the kit, gcc, and valgrind for its last part; ten seconds after make lib
#: make linked         make lib, then all checks of what people link: header, examples, arguments, stack, Rust
#:                     needs the kit, and skips what gcc, g++, valgrind, pkg-config or cargo is missing for; a
#:                     minute after make lib
#: make differential   every call of the archive beside the original Rust, in both of its profiles; SEED, COUNT
#:                     needs the kit, cargo, and ORACLE, see oracle/README.md; about 2 minutes after make lib
#: make bench          times beside the original's and those of Rust by hand; WRITE=docs/BENCHMARKS.md writes that
#:                     needs the kit, cargo, Python and ORACLE; about 3 minutes after make lib
help:
	@sed -n 's/^#: \{0,1\}//p' Makefile

# the kit is there, and it is the one that the file kit names, or a warning has both names
kit = @command -v rt >/dev/null || { echo "rt is not on the PATH: install the Rattle kit ($$(cat kit))" >&2; exit 1; }; \
	[ "$$(rt version)" = "$$(cat kit)" ] || \
	echo "warning: the proofs were written for '$$(cat kit)'; installed is '$$(rt version)'" >&2

# rt try runs the program with no proof, as two compilers make it, and shows what it writes
demo:
	$(kit)
	cd crates/demo && rt try

load:
	$(kit)
	@mkdir -p build
	@(cd crates/load && rt run <stdin) >build/load.log 2>&1 || { tail -n 40 build/load.log >&2; echo "not proved: build/load.log has it whole" >&2; exit 1; }
	@SEED='$(SEED)' REPORTS='$(REPORTS)' N='$(N)' D='$(D)' F='$(F)' C='$(C)' E='$(E)' T='$(T)' K='$(K)' NUM='$(NUM)' DEN='$(DEN)' \
		RULE='$(RULE)' SWITCH='$(SWITCH)' examples/load/run

# .ci/run runs this
test:
	$(kit)
	rt ci

# those beside crates/*/must-fail, which the gate tries
edits:
	$(kit)
	tests/edits/run $(CRATES)

lib:
	$(kit)
	@mkdir -p build
	@echo "proving the calls and all that they stand on: about 10 minutes from nothing, seconds where all is proved;" \
		"build/lib.log has the prover's notes"
	@(cd crates/pine_c && rt lib --cpu=x86-64) >build/lib.log 2>&1 || \
		{ tail -n 40 build/lib.log >&2; echo "not proved: build/lib.log has it whole" >&2; exit 1; }
	@cp crates/pine_c/out/libpine_c.a include/pine.h build/
	@echo "build/libpine_c.a and build/pine.h"

PREFIX = /usr/local
lib_dir = $(or $(PINE_LIB_DIR),build)
version = $(shell awk '/define PINE_VERSION_/ { v = v dot $$3; dot = "." } END { print v }' include/pine.h)

install:
	@[ -f '$(lib_dir)/libpine_c.a' ] || { echo "$(lib_dir)/libpine_c.a is missing: run 'make lib' first" >&2; exit 1; }
	@case '$(PREFIX)' in /*) ;; *) echo "PREFIX=$(PREFIX) is not absolute" >&2; exit 1 ;; esac
	install -d '$(DESTDIR)$(PREFIX)/include' '$(DESTDIR)$(PREFIX)/lib/pkgconfig'
	install -m 644 include/pine.h '$(DESTDIR)$(PREFIX)/include/'
	install -m 644 '$(lib_dir)/libpine_c.a' '$(DESTDIR)$(PREFIX)/lib/'
	sed 's|@PREFIX@|$(PREFIX)|; s|@VERSION@|$(version)|' include/pine.pc.in >'$(DESTDIR)$(PREFIX)/lib/pkgconfig/pine.pc'

example: lib
	PINE_LIB_DIR= examples/c/run

attack: lib
	PINE_LIB_DIR= tests/attack/run $(or $(SEED),1) $(or $(COUNT),1000000)

linked: lib
	tests/linked build

differential:
	$(kit)
	oracle/differential/run
	PINE_LIB_DIR=$(CURDIR)/crates/pine_c/out oracle/files/run

bench:
	$(kit)
	oracle/bench/run $(if $(WRITE),--write $(WRITE))
