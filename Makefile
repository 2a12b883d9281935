# make help says what there is. The version stands in include/helvidrane.h alone.
SHELL := bash

PREFIX ?= /usr/local
DESTDIR ?=
bindir ?= $(PREFIX)/bin
includedir ?= $(PREFIX)/include
libdir ?= $(PREFIX)/lib
pkgconfigdir ?= $(libdir)/pkgconfig
mandir ?= $(PREFIX)/share/man
docdir ?= $(PREFIX)/share/doc/helvidrane

version_of = $(shell sed -n 's/^\#define HV_VERSION_$(1) //p' include/helvidrane.h)
MAJOR := $(call version_of,MAJOR)
VERSION := $(MAJOR).$(call version_of,MINOR).$(call version_of,PATCH)

NAME := libhelvidrane.so
SONAME := $(NAME).$(MAJOR)
SHARED := $(NAME).$(VERSION)
ARCHIVE := target/lib/libhelvidrane.a
PAPERS := README.md docs/RULES.md docs/GUIDE.md CHANGELOG.md LICENSE

# A folder below the prefix, as pkg-config has it.
below_prefix = $(patsubst $(PREFIX)/%,$${prefix}/%,$(1))

# What the scripts say begins with make.
all install: export HELVIDRANE_SAYS := make

.PHONY: all install uninstall check clean help FORCE

all: target/lib/$(SHARED) target/bin/hv

# tools/archive and tools/build see themselves what is up to date.
$(ARCHIVE): FORCE
	@tools/archive

target/bin/hv: $(ARCHIVE) FORCE
	@. tools/functions; hv_is_current || { need cc "to compile hv"; tools/build; }

# Its other names are no symbolic links, which rt ci takes nowhere in the repository.
target/lib/$(SHARED): $(ARCHIVE) library/helvidrane.map Makefile
	@. tools/functions; need cc "to link the shared library"
	cc -shared -Wl,-soname,$(SONAME) -Wl,--version-script=library/helvidrane.map \
	    -Wl,-z,defs -Wl,-z,text -Wl,-z,noexecstack -Wl,-z,relro -Wl,-z,now \
	    -Wl,--whole-archive $(ARCHIVE) -Wl,--no-whole-archive -o $@
	ln -f $@ target/lib/$(SONAME)
	ln -f $@ target/lib/$(NAME)

install: all
	install -d "$(DESTDIR)$(bindir)" "$(DESTDIR)$(includedir)" "$(DESTDIR)$(libdir)" "$(DESTDIR)$(pkgconfigdir)" \
	    "$(DESTDIR)$(mandir)/man1" "$(DESTDIR)$(docdir)"
	install -m 755 target/bin/hv "$(DESTDIR)$(bindir)/hv"
	install -m 644 include/helvidrane.h "$(DESTDIR)$(includedir)/helvidrane.h"
	install -m 644 $(ARCHIVE) "$(DESTDIR)$(libdir)/libhelvidrane.a"
	install -m 755 target/lib/$(SHARED) "$(DESTDIR)$(libdir)/$(SHARED)"
	ln -sf $(SHARED) "$(DESTDIR)$(libdir)/$(SONAME)"
	ln -sf $(SONAME) "$(DESTDIR)$(libdir)/$(NAME)"
	sed -e 's|@PREFIX@|$(PREFIX)|' -e 's|@libdir@|$(call below_prefix,$(libdir))|' \
	    -e 's|@includedir@|$(call below_prefix,$(includedir))|' -e 's|@VERSION@|$(VERSION)|' \
	    library/helvidrane.pc.in >"$(DESTDIR)$(pkgconfigdir)/helvidrane.pc"
	sed 's|@VERSION@|$(VERSION)|' tools/hv.1 >"$(DESTDIR)$(mandir)/man1/hv.1"
	chmod 644 "$(DESTDIR)$(pkgconfigdir)/helvidrane.pc" "$(DESTDIR)$(mandir)/man1/hv.1"
	install -m 644 $(PAPERS) "$(DESTDIR)$(docdir)"

# The folders that other packages use too stay.
uninstall:
	rm -f "$(DESTDIR)$(bindir)/hv" "$(DESTDIR)$(includedir)/helvidrane.h" "$(DESTDIR)$(libdir)/libhelvidrane.a" \
	    "$(DESTDIR)$(libdir)/$(SHARED)" "$(DESTDIR)$(libdir)/$(SONAME)" "$(DESTDIR)$(libdir)/$(NAME)" \
	    "$(DESTDIR)$(pkgconfigdir)/helvidrane.pc" "$(DESTDIR)$(mandir)/man1/hv.1"
	rm -f $(foreach paper,$(notdir $(PAPERS)),"$(DESTDIR)$(docdir)/$(paper)")
	if [ -d "$(DESTDIR)$(docdir)" ]; then rmdir --ignore-fail-on-non-empty "$(DESTDIR)$(docdir)"; fi

check:
	tests/run

clean:
	rm -rf target crates/*/out

help:
	@echo "make            proves and builds the libraries and hv, in target/"
	@echo "make install    puts them, the header, the man page and the papers below PREFIX, now $(PREFIX); DESTDIR, if given,"
	@echo "                goes before it. Also bindir, includedir, libdir, pkgconfigdir, mandir and docdir may be given"
	@echo "make uninstall  removes what make install put there; give it the same variables"
	@echo "make check      runs all tests, as tests/run does"
	@echo "make clean      removes target/ and crates/*/out/, and with them what was proved"
