# Builds, tests and installs the program spv and the library spvk.
#
#   make                              proves and builds both (./build), and links the shared library
#   make check                        the tests of what was built (tests/run); what is not there is skipped, and named
#   make install PREFIX=/usr/local    installs what was built; DESTDIR=FOLDER puts it all below a folder
#   make installcheck                 the tests of the program, run on the installed one
#   make uninstall                    takes away what install put there, by the same variables
#   make dist                         the packages of a release, in dist/ (install/dist)
#
# BINDIR, LIBDIR, INCLUDEDIR, DATADIR and MANDIR are folders of their own where they are given. CC, CFLAGS and LDFLAGS
# are for the shared library: the toolchain alone compiles and links the program, and compiles what is in the archive.
# A name may have spaces.

PREFIX = /usr/local
BINDIR = $(PREFIX)/bin
LIBDIR = $(PREFIX)/lib
INCLUDEDIR = $(PREFIX)/include
DATADIR = $(PREFIX)/share
MANDIR = $(DATADIR)/man
DESTDIR =
CC = cc
CFLAGS = -O2
LDFLAGS =
INSTALL = install

version := $(shell sed -n 's/^.define SPVK_VERSION "\(.*\)"/\1/p' include/spvk.h)
major := $(firstword $(subst ., ,$(version)))
sources := crates.txt HANDLES $(shell find crates \( -name out -o -name must-fail \) -prune -o -type f -print)
program := crates/spv/out/spv
archive := out/libspvk.a
object := out/spvk.o
shared := out/libspvk.so.$(version)
places = BINDIR='$(BINDIR)' LIBDIR='$(LIBDIR)' INCLUDEDIR='$(INCLUDEDIR)' DATADIR='$(DATADIR)' MANDIR='$(MANDIR)' \
	PREFIX='$(PREFIX)' DESTDIR='$(DESTDIR)' INSTALL='$(INSTALL)' VERSION='$(version)'

.PHONY: all check install installcheck uninstall dist

all: $(program) $(archive) $(shared)

$(program) $(archive) $(object) &: $(sources)
	./build program library

$(shared): $(object) install/spvk.c install/spvk.map include/spvk.h
	$(CC) -std=c99 -Wall -Wextra $(CFLAGS) -fPIC -shared $(LDFLAGS) -o $@ install/spvk.c $(object) \
		-Wl,-soname,libspvk.so.$(major) -Wl,--version-script=install/spvk.map -Wl,-Bsymbolic-functions \
		-Wl,-z,defs -Wl,-z,relro -Wl,-z,now -Wl,-z,noexecstack

check: all
	tests/run

install uninstall:
	$(places) install/place $@ $(program) $(archive) $(shared)

installcheck:
	tests/run --program '$(DESTDIR)$(BINDIR)/spv' --without library --without tests --without rt

dist: all
	install/dist
