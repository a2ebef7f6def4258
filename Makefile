# Rofteluvi for C programmers.
#
#   make                 the archive and the program `patcher` (proved and compiled by the Rattle kit, rt)
#   make test            the archive against an independent C implementation, the program on the frames of tests/frames, and the lines
#                        of crates/meaning/proofs/Types.antt against those that `make types` prints
#   make example         builds and runs host/example.c and host/address.c
#   make bench           instructions per record and per word of a run, code size and stack, beside plain C; fails where a mix is above
#                        1.1 times plain C, or a word of a run above 25
#   make bench-program   instructions of the program on full buffers, beside plain C that does the same
#   make install         header, archive, program (as rofteluvi-patcher) and pkg-config file, under PREFIX (and DESTDIR)
#   make clean           removes what the C side built; what rt proved and compiled stays (make distclean removes it too)
#
#   make test SEED=7 CALLS=500000      another random run, a longer one
#   make test-plain      bench's plain C against the independent implementation
#   make test-sanitize   the tests built with -fsanitize=address,undefined
#   make test-broken     breaks bench's plain C on purpose, many ways: the tests must find each
#   make types           a call for every type, and the bytes that the independent implementation leaves, as Types.antt has them
#
# The archive is made for x86-64. Elsewhere the C side is cross-compiled and run under an emulator; scripts/setup installs what
# is missing. ARCHIVE=file links another archive.

RT      ?= rt
PREFIX  ?= /usr/local
DESTDIR ?=
SEED    ?= 1
CALLS   ?= 100000
VERSION := 1.0

LIBRARY := target/staticlib/librofteluvi.a
ARCHIVE ?= $(LIBRARY)
PROGRAM := target/bin/patcher
OUT     := target/host

ifneq ($(filter $(shell uname -m),x86_64 amd64),)
  ifeq ($(origin CC),default)
    CC := gcc
  endif
  LINK :=
else
  ifeq ($(origin CC),default)
    CC := x86_64-linux-gnu-gcc
  endif
  LINK := -static
endif
CFLAGS  ?= -O2
WARN    := -Wall -Wextra -Wpedantic -Werror
COMPILE  = $(CC) -std=c11 $(CFLAGS) $(WARN) -Iinclude
RUN     := RT=$(RT) scripts/host-run

TEST_C  := $(wildcard tests/host/*.c)
TEST_H  := $(wildcard tests/host/*.h) include/rofteluvi.h
TYPES_C := tests/types/types.c tests/host/reference.c tests/host/draft.c
# plain.c under the archive's names, to be tested in its place
AS_ARCHIVE := -Dplain_patch=rofteluvi_patch -Dplain_read_back=rofteluvi_read_back -Dplain_run=rofteluvi_run

.PHONY: all test test-host test-frames types test-types test-plain test-sanitize test-broken example bench bench-program install clean distclean compiler FORCE
.DELETE_ON_ERROR:

all: $(ARCHIVE) $(PROGRAM)

# rt proves again only what has changed. Two calls of rt never run beside each other, since both would write to the out/ of the same crates.
# Under `make -j2` the archive is tested while the program is proved.
$(LIBRARY): FORCE
	cd crates/rofteluvi_c && $(RT) lib
	@mkdir -p $(@D)
	@cmp -s crates/rofteluvi_c/out/librofteluvi_c.a $@ || cp crates/rofteluvi_c/out/librofteluvi_c.a $@

# rt builds a program when it runs it: here on no input.
$(PROGRAM): $(LIBRARY)
	cd crates/patcher && $(RT) run </dev/null >/dev/null
	@mkdir -p $(@D)
	@cmp -s crates/patcher/out/patcher $@ || cp crates/patcher/out/patcher $@

FORCE:

compiler:
	@command -v $(CC) >/dev/null || { echo "make: no compiler $(CC); scripts/setup installs it, or give CC=" >&2; exit 2; }

$(OUT):
	mkdir -p $@

# Changes when another archive or compiler is named, so that all is linked anew.
$(OUT)/linked-with: FORCE | $(OUT)
	@echo '$(COMPILE) $(ARCHIVE)' | cmp -s - $@ || echo '$(COMPILE) $(ARCHIVE)' >$@

# ---- Tests ----

$(OUT)/host_test: $(TEST_C) $(TEST_H) $(ARCHIVE) $(OUT)/linked-with | compiler $(OUT)
	$(COMPILE) $(TEST_C) $(ARCHIVE) $(LINK) -o $@

test: test-host test-frames test-types

test-host: $(OUT)/host_test
	$(RUN) $(OUT)/host_test $(SEED) $(CALLS)

test-frames: $(PROGRAM)
	tests/frames/run

$(OUT)/types: $(TYPES_C) $(TEST_H) $(OUT)/linked-with | compiler $(OUT)
	$(COMPILE) -Itests/host $(TYPES_C) $(LINK) -o $@

types: $(OUT)/types
	@$(RUN) $(OUT)/types

# What stands between the file's two marks must be what is printed.
test-types: $(OUT)/types
	$(RUN) $(OUT)/types >$(OUT)/types.printed
	sed '1,/^-- ---- from here as/d; /^-- ---- to here/,$$d' crates/meaning/proofs/Types.antt | diff - $(OUT)/types.printed

$(OUT)/plain_test: $(TEST_C) $(TEST_H) bench/plain.c bench/plain.h $(OUT)/linked-with | compiler $(OUT)
	$(COMPILE) $(AS_ARCHIVE) $(TEST_C) bench/plain.c $(LINK) -o $@

test-plain: $(OUT)/plain_test
	$(RUN) $(OUT)/plain_test $(SEED) $(CALLS)

$(OUT)/host_test_sanitized: $(TEST_C) $(TEST_H) $(ARCHIVE) $(OUT)/linked-with | compiler $(OUT)
	$(COMPILE) -g -fsanitize=address,undefined -fno-sanitize-recover=all $(TEST_C) $(ARCHIVE) -o $@

test-sanitize: $(OUT)/host_test_sanitized
	$(RUN) $(OUT)/host_test_sanitized $(SEED) $(CALLS)

test-broken: | compiler $(OUT)
	CC="$(CC)" LINK="$(LINK)" RT=$(RT) tests/host/broken

# ---- Example ----

$(OUT)/example $(OUT)/address: $(OUT)/%: host/%.c include/rofteluvi.h $(ARCHIVE) $(OUT)/linked-with | compiler $(OUT)
	$(COMPILE) $< $(ARCHIVE) $(LINK) -o $@

example: $(OUT)/example $(OUT)/address
	$(RUN) $(OUT)/example
	$(RUN) $(OUT)/address

# ---- Benchmark ----

$(OUT)/plain.o: bench/plain.c bench/plain.h include/rofteluvi.h $(OUT)/linked-with | compiler $(OUT)
	$(COMPILE) -c bench/plain.c -o $@

$(OUT)/bench: bench/bench.c bench/counted.h bench/plain.h $(OUT)/plain.o $(ARCHIVE) $(OUT)/linked-with | compiler $(OUT)
	$(COMPILE) bench/bench.c $(OUT)/plain.o $(ARCHIVE) $(LINK) -o $@

bench: test-plain $(OUT)/bench
	RT=$(RT) bench/run $(OUT)/bench $(ARCHIVE) $(OUT)/plain.o

$(OUT)/frames: bench/frames.c bench/counted.h bench/plain.h $(OUT)/plain.o $(ARCHIVE) $(OUT)/linked-with | compiler $(OUT)
	$(COMPILE) bench/frames.c $(OUT)/plain.o $(ARCHIVE) $(LINK) -o $@

bench-program: $(PROGRAM) $(OUT)/frames
	PATCHER=$(OUT)/frames tests/frames/run plain
	RT=$(RT) bench/program $(PROGRAM) $(OUT)/frames

# ---- Installation ----

install: all
	install -d $(DESTDIR)$(PREFIX)/include $(DESTDIR)$(PREFIX)/lib/pkgconfig
	install -m 644 include/rofteluvi.h $(DESTDIR)$(PREFIX)/include/rofteluvi.h
	install -m 644 $(ARCHIVE) $(DESTDIR)$(PREFIX)/lib/librofteluvi.a
	printf '%s\n' 'prefix=$(PREFIX)' 'includedir=$${prefix}/include' 'libdir=$${prefix}/lib' '' \
	    'Name: rofteluvi' 'Description: patches LoongArch ELF relocation records; every answer is proved' \
	    'Version: $(VERSION)' 'Cflags: -I$${includedir}' 'Libs: -L$${libdir} -lrofteluvi' \
	    >$(DESTDIR)$(PREFIX)/lib/pkgconfig/rofteluvi.pc
	chmod 644 $(DESTDIR)$(PREFIX)/lib/pkgconfig/rofteluvi.pc
	install -d $(DESTDIR)$(PREFIX)/bin
	install -m 755 $(PROGRAM) $(DESTDIR)$(PREFIX)/bin/rofteluvi-patcher

clean:
	rm -rf $(OUT)

distclean:
	rm -rf target crates/*/out
