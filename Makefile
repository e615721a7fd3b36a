# Program and C library: make; the Python package: make wheel; the whole test: make check. What each target does: make help.

VERSION := $(shell cat VERSION)
MAJOR := $(firstword $(subst ., ,$(VERSION)))

PREFIX ?= /usr/local
bindir ?= $(PREFIX)/bin
libdir ?= $(PREFIX)/lib
libexecdir ?= $(PREFIX)/libexec
includedir ?= $(PREFIX)/include
datadir ?= $(PREFIX)/share
docdir ?= $(datadir)/doc/bidigrid
DESTDIR ?=
CC ?= cc
CFLAGS ?= -O2
LDFLAGS ?=
# The program that check-c compares the library with; where another is named, none is proved for it.
BIDIGRID ?= build/bin/bidigrid
# Debian's own Python, which has cffi, pytest and the others of make deps.
PYTHON ?= /usr/bin/python3
# So sudo make install leaves nothing of root's beside the sources.
export PYTHONDONTWRITEBYTECODE = 1

PROGRAM = build/bin/bidigrid
LIB = build/lib
ARCHIVE = $(LIB)/libbidigrid.a
SHARED = libbidigrid.so.$(VERSION)
SONAME = libbidigrid.so.$(MAJOR)
DIST = build/bidigrid-$(VERSION).tar.gz
MAN = build/bidigrid.1
# What is installed beside the library; MORE_PAGES are those of the tarball.
PAGES = docs/C.md docs/C_REFERENCE.md docs/FORMATS.md $(MORE_PAGES)
NOTICE = data/unicode-15.0/README.md

# The parts of the whole test, each a target.
PARTS = check-gate check-c check-python check-edit

# Packages of Debian 12: of the gate and the C library, of the Python package, of the editor.
DEPS = binutils clang g++ gcc libc6-dev libclang-rt-14-dev make pkg-config python3 util-linux valgrind xxd \
    mypy python3-bidi python3-cffi python3-dev python3-pip python3-pytest python3-setuptools python3-venv python3-wheel \
    python3-redis redis-server tmux

.DELETE_ON_ERROR:
.PHONY: all both help program lib check-symbols check check-gate check-c check-python check-edit wheel install install-program \
    install-lib uninstall dist deps clean FORCE

all: both program lib

# What the two stand on is proved side by side.
both:
	@tools/make/build-proved replay_cli $(PROGRAM) bidigrid_c build/proved/libbidigrid_c.a

help:
	@echo 'make             proves the core and builds the program, build/bin/bidigrid, and the C library, build/lib;'
	@echo '                 make program and make lib do one of the two'
	@echo 'make check       is the whole test: $(strip $(PARTS)), one after the other;'
	@echo '                 a part that lacks a package is left out, and told'
	@echo 'make check-gate  compares the pages with the tree, and proves and tests every crate'
	@echo 'make check-c     tries the library from C; with BIDIGRID=FILE it compares with that program, and proves no program'
	@echo 'make wheel       builds the Python package with the library in it, build/bidigrid-$(VERSION)-*.whl'
	@echo 'make check-python, make check-edit'
	@echo '                 try the package, and the editor in terminals and over Redis; BIDIGRID=FILE as there'
	@echo 'make install     copies program and library below PREFIX ($(PREFIX)), or below DESTDIR where it is set;'
	@echo '                 install-program and install-lib copy one of the two; bindir, libdir, libexecdir, includedir,'
	@echo '                 datadir and docdir can be set too'
	@echo 'make uninstall   removes what make install copied'
	@echo 'make dist        packs both as $(DIST), which needs no rt'
	@echo 'make deps        installs the packages of Debian that these need'
	@echo 'make clean       removes build/'

program: $(PROGRAM)

lib: $(LIB)/$(SHARED) $(LIB)/libbidigrid.so check-symbols

# What is proved is built anew where the contents of its sources changed.
$(PROGRAM): FORCE
	@tools/make/build-proved replay_cli $@

build/proved/libbidigrid_c.a: FORCE
	@tools/make/build-proved bidigrid_c $@

# The archive is one object, in which only the calls of the header can be named from outside.
$(ARCHIVE): build/proved/libbidigrid_c.a include/bidigrid.h tools/make/c-archive tools/make/c-entries
	CC='$(CC)' CFLAGS='$(CFLAGS)' tools/make/c-archive $@ $<

$(LIB)/$(SHARED): $(ARCHIVE) c/bidigrid.map VERSION
	$(CC) $(CFLAGS) $(LDFLAGS) -shared -o $@ -Wl,--whole-archive $< -Wl,--no-whole-archive \
	    -Wl,--version-script=c/bidigrid.map -Wl,-soname,$(SONAME) -Wl,-z,defs

$(LIB)/libbidigrid.so: $(LIB)/$(SHARED)
	ln -sf $(SHARED) $(LIB)/$(SONAME)
	ln -sf $(SONAME) $@

check-symbols: $(ARCHIVE) $(LIB)/$(SHARED) include/bidigrid.h
	@tools/check/symbols $(ARCHIVE) $(LIB)/$(SHARED)

check:
	@tools/check/all $(PARTS)

check-gate:
	tools/check/gate

check-c: lib $(BIDIGRID)
	BIDIGRID='$(abspath $(BIDIGRID))' c/check

wheel: $(ARCHIVE)
	PYTHON='$(PYTHON)' tools/make/wheel $(ARCHIVE) build

check-python: wheel $(BIDIGRID)
	PYTHON='$(PYTHON)' BIDIGRID='$(abspath $(BIDIGRID))' python/check build/bidigrid-$(VERSION)-*.whl

check-edit: wheel $(BIDIGRID)
	PYTHON='$(PYTHON)' BIDIGRID='$(abspath $(BIDIGRID))' python/check-edit build/bidigrid-$(VERSION)-*.whl

$(MAN): $(PROGRAM) tools/make/man-page
	tools/make/man-page $< >$@

install: install-program install-lib

install-program: $(PROGRAM) $(MAN)
	install -d '$(DESTDIR)$(bindir)' '$(DESTDIR)$(libexecdir)' '$(DESTDIR)$(datadir)/bidigrid/unicode-15.0' \
	    '$(DESTDIR)$(datadir)/man/man1'
	sed 's|@LIBEXECDIR@|$(libexecdir)|; s|@DATADIR@|$(datadir)|' tools/make/installed-bidigrid >'$(DESTDIR)$(bindir)/bidigrid'
	chmod 755 '$(DESTDIR)$(bindir)/bidigrid'
	install -m 755 $(PROGRAM) '$(DESTDIR)$(libexecdir)/bidigrid'
	install -m 644 data/unicode-15.0/* '$(DESTDIR)$(datadir)/bidigrid/unicode-15.0'
	install -m 644 $(MAN) '$(DESTDIR)$(datadir)/man/man1'

install-lib: lib
	install -d '$(DESTDIR)$(includedir)' '$(DESTDIR)$(libdir)/pkgconfig' '$(DESTDIR)$(docdir)'
	install -m 644 include/bidigrid.h '$(DESTDIR)$(includedir)'
	install -m 644 $(ARCHIVE) '$(DESTDIR)$(libdir)'
	install -m 755 $(LIB)/$(SHARED) '$(DESTDIR)$(libdir)'
	ln -sf $(SHARED) '$(DESTDIR)$(libdir)/$(SONAME)'
	ln -sf $(SONAME) '$(DESTDIR)$(libdir)/libbidigrid.so'
	sed -e 's|@PREFIX@|$(PREFIX)|; s|@VERSION@|$(VERSION)|; s|@LIBDIR@|$(libdir:$(PREFIX)/%=$${prefix}/%)|' \
	    -e 's|@INCLUDEDIR@|$(includedir:$(PREFIX)/%=$${prefix}/%)|' c/bidigrid.pc.in \
	    >'$(DESTDIR)$(libdir)/pkgconfig/bidigrid.pc'
	chmod 644 '$(DESTDIR)$(libdir)/pkgconfig/bidigrid.pc'
	install -m 644 $(NOTICE) '$(DESTDIR)$(docdir)/UNICODE_DATA.md'
	for page in $(PAGES); do \
	    tools/make/installed-page $$page $(PAGES) $(NOTICE)=UNICODE_DATA.md >'$(DESTDIR)$(docdir)'/$${page##*/} && \
	    chmod 644 '$(DESTDIR)$(docdir)'/$${page##*/} || exit; \
	done

uninstall:
	rm -f '$(DESTDIR)$(bindir)/bidigrid' '$(DESTDIR)$(libexecdir)/bidigrid' '$(DESTDIR)$(datadir)/man/man1/bidigrid.1'
	rm -rf '$(DESTDIR)$(datadir)/bidigrid/unicode-15.0'
	rm -f '$(DESTDIR)$(includedir)/bidigrid.h' '$(DESTDIR)$(libdir)/libbidigrid.a' '$(DESTDIR)$(libdir)/$(SHARED)' \
	    '$(DESTDIR)$(libdir)/$(SONAME)' '$(DESTDIR)$(libdir)/libbidigrid.so' \
	    '$(DESTDIR)$(libdir)/pkgconfig/bidigrid.pc'
	rm -f $(patsubst %,'$(DESTDIR)$(docdir)/%',$(notdir $(PAGES)) UNICODE_DATA.md)
	for folder in '$(DESTDIR)$(datadir)/bidigrid' '$(DESTDIR)$(docdir)'; do \
	    [ ! -d "$$folder" ] || rmdir --ignore-fail-on-non-empty "$$folder"; \
	done

dist: program lib
	tools/make/dist $(DIST)
	c/try-dist $(DIST)

deps:
	apt-get update
	apt-get install -y --no-install-recommends $(DEPS)

clean:
	rm -rf build
