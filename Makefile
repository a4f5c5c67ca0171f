# `make test` is the gate; `make list` proves and runs the listing on a sample store.
#
#   make lib          proves the library and writes its archive
#   make mvstore      builds the command of cli/
#   make plotter      builds the example of examples/
#   make install      header, archive, pkg-config file, command and man pages, to $(DESTDIR)$(PREFIX)
#   make bench        times the library
#   make fuzz         fuzzes the library's C exports for SECONDS=60; needs clang's libFuzzer or AFL++
#   make version      prints the version that is installed
#
# LIB=FILE takes an archive that is already made, and LDLIBS what it needs; then nothing is proved.
PREFIX = /usr/local
DESTDIR =
LIB = target/staticlib/libmvstore.a
# The header says the version.
VERSION := $(shell sed -n 's/^.define MVSTORE_VERSION "\(.*\)"$$/\1/p' include/mvstore.h)
CFLAGS = -O2
WARNINGS = -std=c11 -Wall -Wextra -Wpedantic
INSTALL = install
SECONDS = 60

.PHONY: list test lib mvstore plotter install bench fuzz version

# rt is asked each time, and proves again only what has changed; not where LIB is given, though it
# be the same file. It makes a crate's archive or program in the crate's folder out/.
ifeq ($(origin LIB), file)
.PHONY: target/staticlib/libmvstore.a
endif

# The listing takes edition 1 only. Its sample is tests/stores/bridge.mv, which H2 wrote, with the sums
# of that edition.
list:
	cd crates/listing && rt run < stdin

test:
	.ci/run

lib: target/staticlib/libmvstore.a

target/staticlib/libmvstore.a:
	cd crates/mvstore && rt lib
	$(INSTALL) -D -p -m 644 crates/mvstore/out/libmvstore.a target/staticlib/libmvstore.a

mvstore: target/mvstore

target/mvstore: $(wildcard cli/*.c cli/*.h) include/mvstore.h $(LIB)
	mkdir -p target
	$(CC) $(WARNINGS) $(CFLAGS) -Iinclude -o $@ $(wildcard cli/*.c) $(LIB) $(LDLIBS)

plotter: target/plotter

target/plotter: examples/plotter.c include/mvstore.h $(LIB)
	mkdir -p target
	$(CC) $(WARNINGS) $(CFLAGS) -Iinclude -o $@ examples/plotter.c $(LIB) $(LDLIBS)

install: $(LIB) target/mvstore
	$(INSTALL) -d $(DESTDIR)$(PREFIX)/include $(DESTDIR)$(PREFIX)/lib/pkgconfig \
		$(DESTDIR)$(PREFIX)/bin $(DESTDIR)$(PREFIX)/share/man/man1 \
		$(DESTDIR)$(PREFIX)/share/man/man3
	$(INSTALL) -m 644 include/mvstore.h $(DESTDIR)$(PREFIX)/include/mvstore.h
	$(INSTALL) -m 644 $(LIB) $(DESTDIR)$(PREFIX)/lib/libmvstore.a
	sed -e 's|@PREFIX@|$(PREFIX)|' -e 's|@VERSION@|$(VERSION)|' mvstore.pc.in \
		> $(DESTDIR)$(PREFIX)/lib/pkgconfig/mvstore.pc
	chmod 644 $(DESTDIR)$(PREFIX)/lib/pkgconfig/mvstore.pc
	$(INSTALL) -m 755 target/mvstore $(DESTDIR)$(PREFIX)/bin/mvstore
	$(INSTALL) -m 644 man/mvstore.1 $(DESTDIR)$(PREFIX)/share/man/man1/mvstore.1
	$(INSTALL) -m 644 man/mvstore.3 $(DESTDIR)$(PREFIX)/share/man/man3/mvstore.3

bench:
	tests/run --bench $(PLAIN) $(STORES)

fuzz: $(LIB)
	tests/fuzz/run $(SECONDS) $(LIB)

version:
	@echo $(VERSION)
