# Builds tilde into build/ and installs it; `make help` says how. GNU make on x86-64 Linux, with gcc or clang. The
# proved archives come from rt, which is called only where they are older than their sources.

define HELP
make             the libraries, the programs and the man pages, in build/; proves what is not proved
make check       tests/run: rt ci, and every test; CONTRIBUTING.md says how long that takes
make quick       builds, and runs the tests of what is in build/ alone
make install     installs it; as root for the folders below
make uninstall   removes the files that make install put there; folders that others use stay
make clean       removes build/; what is proved stays in crates/*/out

Set on the command line, as in `make install PREFIX=$$HOME/tilde`; what holds now:
  PREFIX      $(PREFIX)
  BINDIR      $(BINDIR): tilde, tilde-jobs
  LIBDIR      $(LIBDIR): libtilde.a, libtilde.so, pkgconfig/tilde.pc
  INCLUDEDIR  $(INCLUDEDIR): tilde.h, tilde_table.h
  MANDIR      $(MANDIR): man1, man3, man7
  DATADIR     $(DATADIR): tilde/tilde.py, tilde/tilde.f90
  DESTDIR     stands before all of these, for packages: $(DESTDIR)
  CC          $(CC); and CFLAGS, CPPFLAGS, LDFLAGS: $(CFLAGS) $(CPPFLAGS) $(LDFLAGS)
endef

ifeq ($(origin CC),default)
CC := gcc
endif
CFLAGS ?= -O2
PREFIX ?= /usr/local
BINDIR ?= $(PREFIX)/bin
LIBDIR ?= $(PREFIX)/lib
INCLUDEDIR ?= $(PREFIX)/include
DATADIR ?= $(PREFIX)/share
MANDIR ?= $(DATADIR)/man

# The header alone says it; the name of the shared library follows.
override VERSION := $(shell sed -n 's/^.define TILDE_VERSION "\(.*\)"$$/\1/p' include/tilde.h)
SONAME := libtilde.so.$(firstword $(subst ., ,$(VERSION)))
SHARED := libtilde.so.$(VERSION)
# When the manual was last changed.
DATE := 2026-11-17

# What is installed. A manual page of section 3 has a link for each other name in its NAME.
PROGRAMS := build/tilde build/tilde-jobs
LIBRARIES := build/libtilde.a build/$(SHARED)
LINKS := build/$(SONAME) build/libtilde.so
HEADERS := include/tilde.h include/tilde_table.h
BINDINGS := bindings/tilde.py bindings/tilde.f90
PAGES := $(patsubst man/%,build/man/%,$(wildcard man/*.1 man/*.3))
NAMES := $(shell sed -n '/^\.SH NAME/{n;s/ .-.*//;s/,//g;p;}' man/*.3)
MORE_PAGES := $(filter-out $(PAGES),$(NAMES:%=build/man/%.3))
MANUAL := $(PAGES) $(MORE_PAGES) build/man/tilde-format.7
BUILT := $(PROGRAMS) $(LIBRARIES) $(LINKS) $(MANUAL)

.DELETE_ON_ERROR:
.PHONY: all check quick install uninstall clean help

all: $(BUILT)
	@echo 'tilde $(VERSION) is in build/: tilde, tilde-jobs, libtilde.a, libtilde.so, man/. A line by it:'
	build/tilde try '~a: ~d hPa, ~d gust~:p' '"Harlingen"' 1013 3

help:
	$(info $(HELP))@:

ifneq ($(filter-out help clean uninstall,$(or $(MAKECMDGOALS),all)),)
ifeq ($(shell command -v $(firstword $(CC)) 2>/dev/null),)
$(error $(firstword $(CC)) is not there: install it, or name another compiler of C11, as in make CC=clang)
endif
ifneq ($(shell uname -m),x86_64)
$(error this is $(shell uname -m): the archives of rt link into x86-64 programs only)
endif
endif

# The proved archives and the program, where rt leaves them. One rt at a time: each proves the crates below its own, and
# the next takes them as they are. It may leave a file that was right as it was, hence touch.
PROVED_FROM := crates.txt \
    $(shell find crates \( -name edits -o -name must-fail -o -name out \) -prune -o -type f -print)
rt_there = @command -v rt >/dev/null || { echo 'make: $@ is missing or older than crates/, and rt, which' \
    'builds it, is not there: install the Rattle kit and put its rt on the PATH' >&2; exit 1; }

# rt run builds the program and then runs it, here over no input.
JOBS := crates/jobs/out/jobs
$(JOBS): $(PROVED_FROM)
	$(rt_there)
	cd crates/jobs && rt run </dev/null
	touch $@
archive = crates/$1/out/lib$1.a
ARCHIVES := $(foreach crate,tilde tilde_windows probe,$(call archive,$(crate)))
$(ARCHIVES): $(PROVED_FROM) | $(JOBS)
	$(rt_there)
	cd $(@D:/out=) && rt lib
	touch $@
$(call archive,tilde_windows): | $(call archive,tilde)
$(call archive,probe): | $(call archive,tilde_windows)

# Objects: those that rt built, as they are, and those of tools/. exports.o is also part of the shared library.
PROVED := build/proved/tilde.o build/proved/tilde_windows.o
TOOLS := $(patsubst tools/%.c,build/tools/%.o,$(wildcard tools/*.c))

build/proved/tilde.o: $(call archive,tilde)
build/proved/tilde_windows.o: $(call archive,tilde_windows)
$(PROVED): | build/proved
	$(AR) p $< $(@F) >$@ && test -s $@
build/tools/exports.o: private PLACED := -fPIC
$(TOOLS): build/tools/%.o: tools/%.c Makefile | build/tools
	$(CC) -std=c11 -Wall -Wextra -Iinclude $(CPPFLAGS) $(CFLAGS) $(PLACED) -MMD -MP -c -o $@ $<
-include $(TOOLS:.o=.d)
# What rt has to make comes first, so that without rt nothing is built.
build/proved build/tools build/man: | $(JOBS)
	mkdir -p $@

build/libtilde.a: $(PROVED) build/tools/exports.o
	rm -f $@
	$(AR) rcsD $@ $^
build/$(SHARED): $(PROVED) build/tools/exports.o tools/libtilde.map
	$(CC) $(CFLAGS) $(LDFLAGS) -shared -Wl,-soname,$(SONAME) -Wl,--version-script=tools/libtilde.map -Wl,-z,text \
	    -Wl,-z,noexecstack -o $@ $(filter %.o,$^)
$(LINKS): build/$(SHARED)
	ln -sf $(SHARED) $@
build/tilde: $(filter-out build/tools/exports.o,$(TOOLS)) build/libtilde.a
	$(CC) $(CFLAGS) $(LDFLAGS) -o $@ $^
build/tilde-jobs: $(JOBS) | build/tools
	cp $< $@

$(PAGES): build/man/%: man/% include/tilde.h Makefile | build/man
	sed 's/@VERSION@/$(VERSION)/; s/@DATE@/$(DATE)/' $< >$@
$(MORE_PAGES): build/man/%.3: $(wildcard man/*.3) | build/man
	page=$$(grep -lE '^(.*, )?$*(,| \\-)' man/*.3) && echo ".so man3/$${page#man/}" >$@
build/man/tilde-format.7: docs/FORMATS.md man/from-markdown include/tilde.h Makefile | build/man
	man/from-markdown name=tilde-format section=7 date=$(DATE) source='tilde $(VERSION)' \
	    purpose='format strings of tilde' also='tilde(1), tilde_format(3), tilde_vet(3)' $< >$@

check:
	tests/run
quick: all $(call archive,probe)
	set -e; for run in tests/*/run; do echo "$$run"; "$$run"; done

# Folders may have spaces in their names. The shell, sed or pkg-config would take these bytes for something else.
empty :=
space := $(empty) $(empty)
hash := \#
FOREIGN := " ' ` \ | & $$ $(hash)
FOLDERS := PREFIX BINDIR LIBDIR INCLUDEDIR DATADIR MANDIR
without = $(if $(findstring $2,$($1)),$(error $1 has a $2 in its name, which make install cannot handle: $($1)))
absolute = $(if $(filter /%,$(subst $(space),_,$($1))),,$(error $1 has to begin with /: $($1)))
checked = $(foreach name,$(FOLDERS) DESTDIR,$(foreach byte,$(FOREIGN),$(call without,$(name),$(byte))))$(foreach \
    name,$(FOLDERS),$(call absolute,$(name)))

# $(call put,MODE,FOLDER,FILES) and $(call take,FOLDER,FILES) are the commands that install files in a folder, and that
# remove them from it.
put = install -d "$(DESTDIR)$2" && install -m $1 $3 "$(DESTDIR)$2"
take = rm -f $(foreach file,$2,"$(DESTDIR)$1/$(notdir $(file))")
section = $(filter %.$1,$(MANUAL))
PC = "$(DESTDIR)$(LIBDIR)/pkgconfig/tilde.pc"

install: $(BUILT) $(BINDINGS) tilde.pc.in
	$(checked)
	$(call put,755,$(BINDIR),$(PROGRAMS))
	$(call put,644,$(LIBDIR),$(LIBRARIES))
	cp -P $(LINKS) "$(DESTDIR)$(LIBDIR)"
	$(call put,644,$(INCLUDEDIR),$(HEADERS))
	$(call put,644,$(MANDIR)/man1,$(call section,1))
	$(call put,644,$(MANDIR)/man3,$(call section,3))
	$(call put,644,$(MANDIR)/man7,$(call section,7))
	$(call put,644,$(DATADIR)/tilde,$(BINDINGS))
	install -d "$(DESTDIR)$(LIBDIR)/pkgconfig"
	sed -e 's|@PREFIX@|$(PREFIX)|' -e 's|@LIBDIR@|$(LIBDIR)|' -e 's|@INCLUDEDIR@|$(INCLUDEDIR)|' \
	    -e 's|@DATADIR@|$(DATADIR)|' -e 's|@VERSION@|$(VERSION)|' tilde.pc.in >$(PC)
	chmod 644 $(PC)
	@echo 'tilde $(VERSION) is installed. Programs in C, Fortran and Python use it by'
	@echo '  cc program.c $$(pkg-config --cflags --libs tilde)'
	@echo '  gfortran "$$(pkg-config --variable=bindings tilde)/tilde.f90" program.f90 $$(pkg-config --libs tilde)'
	@echo '  PYTHONPATH=$$(pkg-config --variable=bindings tilde) python3 program.py'
	@echo 'Where pkg-config does not find tilde: set PKG_CONFIG_PATH to $(LIBDIR)/pkgconfig.'
	@echo 'Where programs do not find $(SONAME): run ldconfig as root, or set LD_LIBRARY_PATH to $(LIBDIR).'

uninstall:
	$(checked)
	$(call take,$(BINDIR),$(PROGRAMS))
	$(call take,$(LIBDIR),$(LIBRARIES) $(LINKS))
	rm -f $(PC)
	$(call take,$(INCLUDEDIR),$(HEADERS))
	$(call take,$(MANDIR)/man1,$(call section,1))
	$(call take,$(MANDIR)/man3,$(call section,3))
	$(call take,$(MANDIR)/man7,$(call section,7))
	$(call take,$(DATADIR)/tilde,$(BINDINGS))
	rm -f "$(DESTDIR)$(DATADIR)/tilde/__pycache__"/tilde.*.pyc # by Python, from tilde.py
	rmdir "$(DESTDIR)$(DATADIR)/tilde/__pycache__" "$(DESTDIR)$(DATADIR)/tilde" 2>/dev/null || true

clean:
	rm -rf build
