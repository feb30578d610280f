# Proves and builds the programs, renews release/, and installs.
#
#     make               proves and builds the programs (needs the toolchain; docs/testing.md)
#     make install [PREFIX=/usr/local] [DESTDIR=..]
#     make uninstall [PREFIX=/usr/local] [DESTDIR=..]
#     make page          builds the page for a browser, out/mdbcheck.html
#     make c-library     builds the library for C, out/c
#     make vectors       writes the worked cases to out/vectors.jsonl
#     make release       renews release/ from what tests/run has proved and built
#
# `make install` installs the programs that were built here, and where none were, those of release/:
# them, examples/many-recordings as mdbcheck-many, the page, the man pages, completions for bash, docs/
# and examples/. Installed pages call the programs by their installed names. It builds nothing.

PREFIX = /usr/local
DESTDIR =
built = $(or $(wildcard crates/$(1)/out/$(1)),release/$(1))
PROGRAM = $(call built,mdbcheck)
IMPORT = $(call built,mdbimport)
PAGE = $(or $(wildcard out/mdbcheck.html),release/mdbcheck.html)

bin = $(DESTDIR)$(PREFIX)/bin
man = $(DESTDIR)$(PREFIX)/share/man/man1
completions = $(DESTDIR)$(PREFIX)/share/bash-completion/completions
doc = $(DESTDIR)$(PREFIX)/share/doc/mdbcheck

names = mdbcheck mdbimport
# In a page: what is called as it stands here is called by its installed name.
installed = -e 's:release/(mdbcheck|mdbimport):\1:g' -e 's:examples/many-recordings:mdbcheck-many:g'

programs:
	tools/prove

help:
	@sed -n '3,9s/^#     //p' Makefile

page:
	page/build

c-library:
	crates/mdb_c/build

vectors:
	python3 tests/make_vectors.py out/vectors.jsonl

release:
	tools/release

# Only what has a page or completions here. The second program and the page may be missing.
install:
	$(if $(wildcard $(PROGRAM)),,$(error there is no $(PROGRAM): build it as README.md says, or name it with PROGRAM=))
	install -d '$(bin)' '$(man)' '$(completions)' '$(doc)/examples/exports'
	install -m 755 '$(PROGRAM)' '$(bin)/mdbcheck'
	$(if $(wildcard $(IMPORT)),install -m 755 '$(IMPORT)' '$(bin)/mdbimport')
	install -m 755 examples/many-recordings '$(bin)/mdbcheck-many'
	$(if $(wildcard $(PAGE)),install -m 644 '$(PAGE)' '$(doc)/mdbcheck.html')
	for name in $(names); do \
	    [ ! -e man/$$name.1 ] || install -m 644 man/$$name.1 '$(man)' || exit 1; \
	    [ ! -e completions/$$name.bash ] || \
	        install -m 644 completions/$$name.bash '$(completions)'/$$name || exit 1; \
	done
	for page in README.md CHANGELOG.md $$(find docs/ -name '*.md') $$(find crates/ -name CALLING.md); do \
	    sed -E $(installed) "$$page" | install -D -m 644 /dev/stdin '$(doc)'/"$$page" || exit 1; \
	done
	for file in $$(find docs/ -name '*.json' -o -name '*.png'); do \
	    install -D -m 644 "$$file" '$(doc)'/"$$file" || exit 1; \
	done
	install -m 644 examples/*.csv '$(doc)/examples'
	install -m 644 examples/exports/* '$(doc)/examples/exports'

# What others share, as bin, stays.
uninstall:
	for name in $(names); do rm -f '$(bin)'/$$name '$(man)'/$$name.1 '$(completions)'/$$name || exit 1; done
	rm -f '$(bin)/mdbcheck-many'
	rm -rf '$(doc)'

.PHONY: c-library help install page programs release uninstall vectors
