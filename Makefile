# `make` proves the library and the programs and builds them into build/; `make install PREFIX=..` installs them.
# Needs the Rattle kit (rt), a C compiler and, for the bench tool and the tests, Python 3. On x86-64 Linux.
# `make clean` keeps crates/*/out/, in which rt has what it has proved, and build/bench and build/fuzz.
VERSION := 0.12.0
SONAME := libchoduljin.so.0

PREFIX ?= /usr/local
DESTDIR ?=
CC ?= cc
CFLAGS ?= -O2 -Wall -Wextra
INSTALL ?= install

# rt proves again what has changed, and nothing else; the folders tell of files that are gone.
SOURCES := crates.txt $(shell find crates/*/src crates/*/specs crates/*/proofs -type d -o -name '*.rt' -o -name '*.antt')
BUILT := build/libchoduljin.a build/libchoduljin.so build/$(SONAME) build/ubilist build/attach build/build

.DELETE_ON_ERROR:
.PHONY: all test install clean
all: $(BUILT)

build:
	mkdir -p $@

build/libchoduljin.a: $(SOURCES) | build
	cd crates/capi && rt lib
	cp crates/capi/out/libcapi.a $@

build/libchoduljin.so: build/libchoduljin.a tools/exports.map Makefile
	$(CC) -shared $(LDFLAGS) -Wl,-soname,$(SONAME) -Wl,--version-script=tools/exports.map -Wl,--no-undefined \
	    -o $@ -Wl,--whole-archive $< -Wl,--no-whole-archive

build/$(SONAME): build/libchoduljin.so
	ln -sf libchoduljin.so $@

# After the library: of two rt at once one would wait for the other. `rt run` leaves the program that it ran, here on
# empty input.
build/ubilist: $(SOURCES) | build build/libchoduljin.a
	cd crates/ubilist && rt run < /dev/null > /dev/null
	cp crates/ubilist/out/ubilist $@

build/attach build/build: build/%: examples/%.c include/choduljin.h build/libchoduljin.a
	$(CC) -std=c99 $(CFLAGS) -Iinclude $(LDFLAGS) -o $@ $< build/libchoduljin.a

test: all
	python3 -m unittest discover -s tests -t tests

LIB = $(DESTDIR)$(PREFIX)/lib
BIN = $(DESTDIR)$(PREFIX)/bin
SHARE = $(DESTDIR)$(PREFIX)/share
install: all
	$(INSTALL) -d "$(LIB)/pkgconfig" "$(DESTDIR)$(PREFIX)/include" "$(BIN)" "$(SHARE)/man/man1"
	$(INSTALL) -m 644 build/libchoduljin.a "$(LIB)/libchoduljin.a"
	$(INSTALL) -m 755 build/libchoduljin.so "$(LIB)/libchoduljin.so.$(VERSION)"
	ln -sf libchoduljin.so.$(VERSION) "$(LIB)/$(SONAME)"
	ln -sf $(SONAME) "$(LIB)/libchoduljin.so"
	sed -e 's|@PREFIX@|$(PREFIX)|' -e 's|@VERSION@|$(VERSION)|' tools/choduljin.pc.in > "$(LIB)/pkgconfig/choduljin.pc"
	$(INSTALL) -m 644 include/choduljin.h "$(DESTDIR)$(PREFIX)/include/choduljin.h"
	$(INSTALL) -m 755 build/ubilist ubibench "$(BIN)"
	rm -rf "$(SHARE)/choduljin/benchtool"
	$(INSTALL) -d "$(SHARE)/choduljin/benchtool" "$(SHARE)/bash-completion/completions"
	$(INSTALL) -m 644 benchtool/*.py "$(SHARE)/choduljin/benchtool"
	$(INSTALL) -m 644 docs/*.1 "$(SHARE)/man/man1"
	$(INSTALL) -m 644 tools/ubibench.bash "$(SHARE)/bash-completion/completions/ubibench"

clean:
	rm -f $(BUILT)
