# The library for C and Rust programs, in the usual words:
#
#     make            build/libaspeyruni.a, build/libaspeyruni.so.VERSION and build/aspeyruni.pc; proves first, which takes minutes once
#     make install    header, libraries, aspeyruni.pc and licence, to PREFIX (/usr/local unless given) below DESTDIR; make uninstall
#     make check      installs to build/stage, builds the examples over that by pkg-config, and holds what they write against the program's
#     make clean      removes build/; what is proved stays in crates/*/out/
#
# MACHINE is the processor that the library is for, as `uname -m` names it. For another than this one give CC a compiler for it, and RUN what
# runs its programs: make check MACHINE=aarch64 CC=aarch64-linux-gnu-gcc RUN='qemu-aarch64 -L /usr/aarch64-linux-gnu'
MACHINE ?= $(shell uname -m)
RUN ?=
PREFIX ?= /usr/local
INCLUDEDIR ?= $(PREFIX)/include
LIBDIR ?= $(PREFIX)/lib
DOCDIR ?= $(PREFIX)/share/doc/aspeyruni
CFLAGS ?= -O2
RUSTC ?= rustc
PKG_CONFIG ?= pkg-config
INSTALL ?= install

version := $(shell sed -n 's/^.define ASPEYRUNI_VERSION "\(.*\)"$$/\1/p' include/aspeyruni.h)
# Before 1.0.0 a minor version may change the structs that cross, so the name that programs ask for has the minor version in it.
soname := libaspeyruni.so.$(shell echo $(version) | cut -d . -f 1,2)
so := libaspeyruni.so.$(version)
# The examples see what is installed here, and nothing else of this repository.
stage := build/stage
staged = PKG_CONFIG_PATH=$(stage)/lib/pkgconfig $(PKG_CONFIG)
c_example = $(CC) -std=c99 -Wall -Wextra -Wpedantic $(CFLAGS) $$($(staged) --cflags aspeyruni) -o $@ $<
# PREFIX may be given from this folder on. The stage's stays so: pkg-config escapes a space in a whole path, where the shell then splits.
whole := realpath -ms
pc = sed -e "s|@prefix@|$$($(whole) '$(PREFIX)')|" -e "s|@includedir@|$$($(whole) '$(INCLUDEDIR)')|" \
	-e "s|@libdir@|$$($(whole) '$(LIBDIR)')|" -e 's|@version@|$(version)|' aspeyruni.pc.in

.PHONY: all install uninstall examples check clean FORCE
all: build/libaspeyruni.a build/$(so) build/aspeyruni.pc

# bin/build looks itself whether a source has changed.
build/libaspeyruni.a: FORCE
	@MACHINE=$(MACHINE) bin/build capi

build/$(so): build/libaspeyruni.a
	$(CC) -shared -Wl,-soname,$(soname) -Wl,--whole-archive $< -Wl,--no-whole-archive -o $@

# Written anew each time: it names PREFIX.
build/aspeyruni.pc: FORCE
	@$(pc) >$@

install: build/libaspeyruni.a build/$(so)
	$(INSTALL) -d '$(DESTDIR)$(INCLUDEDIR)' '$(DESTDIR)$(LIBDIR)/pkgconfig' '$(DESTDIR)$(DOCDIR)'
	$(INSTALL) -m 644 include/aspeyruni.h '$(DESTDIR)$(INCLUDEDIR)'
	$(INSTALL) -m 644 build/libaspeyruni.a '$(DESTDIR)$(LIBDIR)'
	$(INSTALL) -m 755 build/$(so) '$(DESTDIR)$(LIBDIR)'
	ln -sf $(so) '$(DESTDIR)$(LIBDIR)/$(soname)'
	ln -sf $(soname) '$(DESTDIR)$(LIBDIR)/libaspeyruni.so'
	$(pc) >'$(DESTDIR)$(LIBDIR)/pkgconfig/aspeyruni.pc'
	$(INSTALL) -m 644 LICENSE NOTICE '$(DESTDIR)$(DOCDIR)'

uninstall:
	rm -f '$(DESTDIR)$(INCLUDEDIR)/aspeyruni.h' '$(DESTDIR)$(LIBDIR)/pkgconfig/aspeyruni.pc'
	for file in libaspeyruni.a libaspeyruni.so $(soname) $(so); do rm -f '$(DESTDIR)$(LIBDIR)'/$$file; done
	rm -rf '$(DESTDIR)$(DOCDIR)'

$(stage)/.installed: build/libaspeyruni.a build/$(so) include/aspeyruni.h aspeyruni.pc.in LICENSE NOTICE
	@$(MAKE) -s install DESTDIR= PREFIX=$(stage) INCLUDEDIR=$(stage)/include LIBDIR=$(stage)/lib DOCDIR=$(stage)/doc whole=echo
	@touch $@

# One C program over the shared library, one over the archive, the frames' host, the one that records its calls with its reader, and one in
# Rust where there is rustc for this processor.
examples: build/examples/echo_shared build/examples/echo_static build/examples/frames build/examples/box build/examples/unbox \
	build/examples/echo_rs

build/examples/echo_shared: examples/echo.c $(stage)/.installed
	@mkdir -p $(@D)
	$(c_example) $$($(staged) --libs aspeyruni) -Wl,-rpath,'$(CURDIR)/$(stage)/lib'

build/examples/echo_static: examples/echo.c $(stage)/.installed
	@mkdir -p $(@D)
	$(c_example) $(stage)/lib/libaspeyruni.a

build/examples/frames: examples/frames.c $(stage)/.installed
	@mkdir -p $(@D)
	$(c_example) $(stage)/lib/libaspeyruni.a -lm

build/examples/box build/examples/unbox: build/examples/%: examples/%.c $(stage)/.installed
	@mkdir -p $(@D)
	$(c_example) $(stage)/lib/libaspeyruni.a

build/examples/echo_rs: examples/echo.rs include/aspeyruni.rs $(stage)/.installed
	@mkdir -p $(@D)
	@if [ $(MACHINE) = $$(uname -m) ] && command -v $(RUSTC) >/dev/null; then \
	    set -x; $(RUSTC) --edition 2021 -O -L native=$(stage)/lib -l static=aspeyruni -o $@ $<; \
	else rm -f $@; echo 'make: no $(RUSTC) for $(MACHINE) here: the Rust example is left out'; fi

build/tests/pcm16: tests/pcm16.c
	@mkdir -p $(@D)
	cc -std=c99 -Wall -Wextra -Wpedantic $(CFLAGS) -o $@ $< -lm

check: examples build/tests/pcm16
	tests/header $(stage)/include
	RUN='$(RUN)' examples/run crates/aec/stdin
	RUN='$(RUN)' tests/frames

clean:
	rm -rf build
