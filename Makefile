# make library builds the library for C and Rust, and make python the one that bindings/python loads; make carolsedge
# the command over it; make install PREFIX=.. puts the command and the library in place, with man pages and the rule,
# and make install-python the module; make programs builds the proved programs; make demo measures a stored sample and
# shows its record; make test runs the gate, and nothing else; make bench prints speeds.
.PHONY: library python carolsedge install install-python programs demo test bench

archive = target/staticlib/libcarolsedge.a
shared = target/staticlib/libcarolsedge.so
calls = c_sample c_survey c_record c_shelf c_beside
archives = $(foreach crate,$(calls),crates/$(crate)/out/lib$(crate).a)
programs = $(addprefix target/bin/,show sheet measure replay_main busiest)
sources = crates.txt $(shell find crates -name '*.rt')
version = $(shell sed -n 's/^version = "\(.*\)"/\1/p' command/Cargo.toml)
PREFIX ?= /usr/local
place = $(DESTDIR)$(abspath $(PREFIX))
prefixed = s|@PREFIX@|$(abspath $(PREFIX))|

carolsedge: $(archive)
	@CARGO_TARGET_DIR=$(CURDIR)/target/cargo CAROLSEDGE_LIB_DIR=$(CURDIR)/target/staticlib \
	  cargo build --quiet --release --offline --manifest-path command/Cargo.toml
	@install -D -m 755 target/cargo/release/carolsedge target/bin/carolsedge

library: $(archive)

# The library is built only once it is proved, which takes some minutes on a fresh clone; what the toolchain prints is
# shown where that fails. Each crate of C functions gives an archive with one object; the library has the objects of
# all.
$(archive): $(sources)
	@echo 'The library is built once it is proved: some minutes on a fresh clone (target/library.log).'
	@mkdir -p target/staticlib
	@printf '%s\n' $(calls) | xargs -P 3 -I CRATE sh -c 'cd crates/CRATE && rt lib CRATE' >target/library.log 2>&1 || \
	  { cat target/library.log >&2; exit 1; }
	@{ echo create $@; printf 'addlib %s\n' $(archives); echo save; echo end; } | ar -M

programs: $(programs)

# A program is built only once it is proved, which takes some minutes on a fresh clone; rt run builds it, and runs it on
# nothing. The gate puts here what rt ci has built.
$(programs): target/bin/%: $(sources)
	@echo 'The program $* is built once it is proved: some minutes on a fresh clone (target/$*.log).'
	@mkdir -p target/bin
	@rm -f crates/$*/out/$*
	@(cd crates/$* && rt run) </dev/null >target/$*.log 2>&1; \
	  [ -x crates/$*/out/$* ] || { cat target/$*.log >&2; exit 1; }
	@install -m 755 crates/$*/out/$* $@

python: $(shared)

# The archive's code is position independent, so that its objects make a shared library as they are.
$(shared): $(archive)
	@cc -shared -Wl,-z,defs,-z,relro,-z,now,-z,noexecstack -Wl,--whole-archive $(archive) -Wl,--no-whole-archive -o $@

install: carolsedge
	@install -D -m 755 target/bin/carolsedge $(place)/bin/carolsedge
	@install -D -m 644 include/carolsedge.h $(place)/include/carolsedge.h
	@install -D -m 644 $(archive) $(place)/lib/libcarolsedge.a
	@install -d $(place)/lib/pkgconfig
	@sed '$(prefixed); s|@VERSION@|$(version)|' command/carolsedge.pc.in >$(place)/lib/pkgconfig/carolsedge.pc
	@install -D -m 644 -t $(place)/share/man/man1 command/man/*.1
	@sed '$(prefixed)' command/man/carolsedge.1 >$(place)/share/man/man1/carolsedge.1
	@install -D -m 644 -t $(place)/share/doc/carolsedge docs/RULE.md docs/PROMISES.md
	@echo 'Installed in $(place): bin, include, lib, share/man and share/doc/carolsedge.'

install-python: $(shared)
	@install -D -m 755 $(shared) $(place)/lib/carolsedge/libcarolsedge.so
	@install -D -m 644 bindings/python/carolsedge.py $(place)/lib/carolsedge/carolsedge.py
	@echo 'Installed in $(place): lib/carolsedge.'

demo: target/bin/measure target/bin/show
	rm -f target/clip.record
	target/bin/measure 64 48 40000 256 tests/streams/clip.pcap tests/streams/clip.y target/clip.record 4
	@echo 'sample: W, H, d, PID, pictures, frames, skipped, bad packets, the bits of the index'
	@echo 'unit: number, least and greatest time, size, packets, lost'
	@echo 'scene: number, first, pictures, repeated, longest run, cut scores, greatest, changes (docs/RULE.md, 16)'
	target/bin/show < target/clip.record

test:
	.ci/run

# The library, beside the independent program, a wide sum of bytes and memcpy. A figure is worth something on a quiet
# machine only.
bench: $(archive)
	mkdir -p target/tests
	rustc --edition 2021 -O tests/bench/main.rs -L target/staticlib -l static=carolsedge -o target/tests/bench
	target/tests/bench
