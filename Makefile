# make            proves and builds the programs: bin/execline, with a link for each other name
# make run        runs the first script; where there is no proved program yet, a quick build without proofs does it
# make quick      builds the programs in some minutes, and proves nothing: bin/unproved/
# make check      runs the rows and four scripts of tests/ with the programs of make quick; it proves nothing
# make check-all  runs every script of tests/ with the programs of make quick, a line for each; it proves nothing
# make test       proves all, tries the wrong bodies, and runs the tests: the gate
# make static     links the proved programs without shared libraries: bin/static/
# make bench      times the program beside dash and skarnet's execline, where they are installed
# make install    puts the programs, their names, pages and tools below $(DESTDIR)$(PREFIX); with QUICK=1 those of make quick
# make uninstall  removes what make install put there
# make deb        makes a package of the same below /usr: bin/execline-proved_VERSION_ARCHITECTURE.deb
# make html       makes a site of the pages: bin/html/index.html
# make clean      removes bin/

PREFIX ?= /usr/local
DESTDIR ?=
RT ?= rt
# Not empty: what is installed is built without proofs.
QUICK ?=

# The programs beside execline that are executables of their own; that of elNAME is the crate el_NAME_main, where it is there.
BESIDE := $(foreach name,eltest elglob elgetopt eltrace elfamily ellint,$(if $(wildcard $(name:el%=crates/el_%_main/src/main.rt)),$(name)))

# The names that are called by hand, beside `execline` itself, and those of the chain programs.
FRONTS := execlineb elcheck elfmt elrecord
CHAIN := $(shell sed -n 's/.*=> b"\([a-z]*\)".*/\1/p' crates/el_words/src/prog.rt)

# Scripts, which are links in bin/ to those beside the files that they read.
TOOLS := elcheck-files elfmt-files elport
READ := script-files differences

# What the tools say for --version, before whether it is proved.
VERSION ?= $(shell git describe --always --dirty 2>/dev/null || echo 'unknown commit')

# What a package gives, whose names stand beside those of another execline: the name of its folders, the names that are links
# in bin/, how execlineb is called in the pages and the examples, and what the pages' sections end with, as in man1/if.1el.
NAME ?= execline
IN_BIN ?= $(FRONTS)
EXECLINEB ?= $(PREFIX)/bin/execlineb
MANEXT ?=

# A path may hold blanks: the shell reads these as variables of its own.
ROOM := $(DESTDIR)$(PREFIX)
export DESTDIR PREFIX NAME EXECLINEB
export BINDIR := $(ROOM)/bin
export LIBDIR := $(ROOM)/lib/$(NAME)
export SHAREDIR := $(ROOM)/share
export MANDIR := $(ROOM)/share/man
export DOCDIR := $(ROOM)/share/doc/$(NAME)
# The folders that an installation made.
export MADE := $(LIBDIR)/folders

SOURCES := crates.txt $(shell find crates -name out -prune -o \( -name '*.rt' -o -name '*.antt' \) -print)
PROGRAMS := execline $(BESIDE)
SHARED := vim/vimfiles/syntax/execline.vim vim/vimfiles/ftdetect/execline.vim nano/execline.nanorc \
	bash-completion/completions/execline
COMPLETED := $(FRONTS) $(TOOLS) ellint

# What rt leaves of a proved program: itself, and the object file that it was linked from.
crate = $(if $(filter execline,$1),el_multicall,$(1:el%=el_%_main))
proved = crates/$(call crate,$1)/out/$(call crate,$1)
OBJECTS := $(foreach name,$(PROGRAMS),$(call proved,$(name)).o)

FIRST := execlineb -P -c 'echo a "b c"'

# What make quick builds; and as many jobs as there are processors, where make isn't told how many.
UNPROVED := $(PROGRAMS:%=bin/unproved/%) bin/unproved/execlineb
JOBS = $(if $(filter -j%,$(MAKEFLAGS)),,-j$(shell nproc))

all: $(PROGRAMS:%=bin/%) bin/execlineb

# Their sources are read once for all of them.
quick:
	@$(SUBMAKE) -qs $(UNPROVED) || { \
		RT=$(RT) CC=$(CC) tools/quick-build --together bin/unproved $(foreach name,$(PROGRAMS),$(name)=$(call crate,$(name))) && \
		ln -f bin/unproved/execline bin/unproved/execlineb; \
	}

static: $(PROGRAMS:%=bin/static/%) bin/static/execlineb

help:
	@sed -n '/^# make /,/^$$/s/^# //p' Makefile

# rt keeps a program only where it also runs it, and then ends with the program's own status; where the proof fails there is
# none. execline gets the empty script, which does nothing.
define prove
cd crates/$1 && rm -f out/$1 && { $(RT) run -- $(if $(filter el_multicall,$1),execlineb -P -c '') </dev/null; [ -x out/$1 ]; }
touch -c crates/$1/out/$1 crates/$1/out/$1.o
endef

# program NAME,CRATE: how it is built: proved, which `make test` leaves too; static; and without proofs. What rt takes from an
# earlier run comes without its object file.
define program
crates/$2/out/$2: $$(SOURCES)
	$$(call prove,$2)

crates/$2/out/$2.o: $$(SOURCES)
	[ -f $$@ ] || rm -f crates/$2/out/$2.stamp
	$$(call prove,$2)

bin/$1: crates/$2/out/$2
	mkdir -p $$(@D)
	install -m 755 $$< $$@

# At a fixed place in memory: then a start has nothing to relocate, which is a fifth of the instructions of an empty script. What is put
# down is a copy, which starts faster than what a linker wrote in small pieces.
bin/static/$1: crates/$2/out/$2.o
	mkdir -p $$(@D)
	kit=$$$$(dirname "$$$$($(RT) doc)") && \
	$(CC) -static -Wl,--gc-sections -s -o $$@.linked $$< "$$$$kit/c/libos_c.a" "$$$$kit/c/liblibc_c.a"
	install -m 755 $$@.linked $$@
	rm $$@.linked

bin/unproved/$1: tools/quick-build $$(SOURCES)
	RT=$(RT) CC=$(CC) tools/quick-build $$@ static $2

endef
$(foreach name,$(PROGRAMS),$(eval $(call program,$(name),$(call crate,$(name)))))

# Hard links: the gate reads this folder, and refuses symbolic ones.
bin/execlineb bin/static/execlineb bin/unproved/execlineb: %/execlineb: %/execline
	ln -f $< $@

run:
	@[ -x bin/execlineb ] || ! $(MAKE) -qs $(call proved,execline) || $(MAKE) -s bin/execlineb
	@if [ -x bin/execlineb ]; then bin/$(FIRST); \
	elif $(MAKE) -s bin/unproved/execlineb; then \
		echo 'bin/unproved/execlineb was built without proving it; make gives the proved program' >&2; \
		bin/unproved/$(FIRST); \
	else \
		echo 'make run: the build of bin/unproved/execlineb failed, for the reason above; make builds the proved program' >&2; \
		exit 1; \
	fi

bin/unproved/el_rows: tools/quick-build $(SOURCES)
	RT=$(RT) CC=$(CC) tools/quick-build $@ static el_rows

check:
	$(MAKE) $(JOBS) quick bin/unproved/el_rows
	cd crates/el_rows/data && "$(CURDIR)/bin/unproved/el_rows" *.rows
	for test in edge hostile examples files; do tests/$$test "$$PWD/bin/unproved/execline" || exit; done
	@echo 'make check: all of this passed, and nothing was proved; make test proves it'

check-all: quick
	tools/run-tests "$(CURDIR)/bin/unproved"

test:
	$(RT) ci

bench:
	@[ -x bin/execlineb ] || $(MAKE) -s all
	@if $(MAKE) -qs $(call proved,execline).o && $(MAKE) -s static; then bench/run bin/static; else bench/run bin; fi

# By another name, so that `make -n install` doesn't install.
SUBMAKE = $(MAKE)

# The static programs where their object files and a static C library are there.
install: $(if $(QUICK),quick,all) install-links install-pages install-share install-docs
	@if [ "$(QUICK)" ]; then from=bin/unproved; \
	elif $(SUBMAKE) -qs $(OBJECTS) && $(SUBMAKE) -s static; then from=bin/static; else from=bin; fi; \
	for name in $(PROGRAMS); do install -m 755 $$from/$$name "$$BINDIR/$$name" || exit; done
	$(if $(QUICK),@echo 'what is installed was built without proving it; make install gives the proved programs' >&2)

# What is installed beside the programs, and needs no proof. Only the names called by hand go into bin/; the others, which would
# hide a system's own programs, stand apart.
install-links:
	tools/folders make "$$BINDIR" "$$LIBDIR/bin"
	for name in $(IN_BIN); do ln -sf execline "$$BINDIR/$$name" || exit; done
	for name in execline $(FRONTS) $(CHAIN); do ln -sf ../../../bin/execline "$$LIBDIR/bin/$$name" || exit; done
	for name in $(BESIDE); do ln -sf ../../../bin/$$name "$$LIBDIR/bin/$$name" || exit; done
	for name in $(TOOLS); do \
		install -m 755 tools/$$name "$$LIBDIR/$$name" && ln -sf "../lib/$$NAME/$$name" "$$BINDIR/$$name" || exit; \
	done
	for name in $(READ); do install -m 644 tools/$$name "$$LIBDIR/$$name" || exit; done
	echo "$(VERSION), $(if $(QUICK),built without proofs,proved)" >"$$LIBDIR/version" && chmod 644 "$$LIBDIR/version"

install-pages:
	tools/folders make "$$MANDIR/man1" "$$MANDIR/man7"
	for page in man/*.[17]; do \
		section=$${page##*.} && \
		tools/own-paths $$page "$$MANDIR/man$$section/$${page#man/}$(MANEXT)" || exit; \
	done

install-share:
	for file in $(SHARED); do \
		tools/folders make "$$SHAREDIR/$${file%/*}" && install -m 644 share/$$file "$$SHAREDIR/$$file" || exit; \
	done
	for name in $(COMPLETED); do ln -sf execline "$$SHAREDIR/bash-completion/completions/$$name" || exit; done

install-docs:
	tools/folders make "$$DOCDIR/docs" "$$DOCDIR/examples"
	install -m 644 README.md LICENSE "$$DOCDIR"
	install -m 644 docs/*.md "$$DOCDIR/docs"
	for example in examples/*; do tools/own-paths $$example "$$DOCDIR/$$example" || exit; done

uninstall:
	for name in $(PROGRAMS) $(IN_BIN) $(TOOLS); do rm -f "$$BINDIR/$$name"; done
	for name in $(PROGRAMS) $(FRONTS) $(CHAIN); do rm -f "$$LIBDIR/bin/$$name"; done
	for name in $(TOOLS) $(READ) version; do rm -f "$$LIBDIR/$$name"; done
	for page in $(notdir $(wildcard man/*.[17])); do rm -f "$$MANDIR/man$${page##*.}/$$page$(MANEXT)"; done
	for file in $(SHARED) $(COMPLETED:%=bash-completion/completions/%); do rm -f "$$SHAREDIR/$$file"; done
	for file in README.md LICENSE $(wildcard docs/*.md examples/*); do rm -f "$$DOCDIR/$$file"; done
	tools/folders remove

deb: $(if $(QUICK),quick,all)
	MAKE='$(MAKE)' QUICK='$(QUICK)' tools/make-deb

html:
	tools/make-html bin/html

clean:
	rm -rf bin

.PHONY: all quick static help run check check-all test bench install install-links install-pages install-share install-docs uninstall deb html clean
