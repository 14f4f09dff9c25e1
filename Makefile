# `make` builds the proved program and imports a sample into a store; `make help` lists the other goals.
.PHONY: all help try test bench install uninstall deb

all: bin/mdstore week.db # builds the proved program, makes the store week.db, and takes examples/week.nem12 in
	bin/mdstore import --store week.db examples/week.nem12
	@if command -v sqlite3 > /dev/null; then sqlite3 week.db < examples/days.sql; fi

help: # lists these goals
	@sed -n 's/^\([a-z]*\):[^#]* # \(.*\)/make \1: \2/p' Makefile

week.db: | bin/mdstore
	bin/mdstore init --store week.db

SOURCES := $(shell tools/build --sources)

bin/mdstore: $(SOURCES) tools/build
	tools/build

FILE := examples/week.nem12

try: bin/mdstore-tried # builds the program without proofs, within five minutes, and checks FILE=examples/week.nem12
	@bin/mdstore-tried check "$(FILE)"; status=$$?; \
	echo 'Nothing of bin/mdstore-tried is proved. `make` proves it, and builds bin/mdstore.'; exit $$status

bin/mdstore-tried: $(SOURCES) tools/try
	tools/try

test: # proves every crate, tries wrong bodies, and runs the scripts of tests/, an hour on four processors
	tools/wrong-bodies --look
	rt ci
	tools/wrong-bodies --ci --share commit/24 $(if $(NOTES),--notes $(NOTES)) || [ $$? = 77 ]
	tests/run --verbose $(if $(NOTES),--notes $(NOTES))

bench: bin/mdstore # measures, and prints figures as bench/README.md has them
	bench/run

PREFIX := /usr/local
DESTDIR :=

install: # puts the proved program, page, completions, documents and examples below PREFIX=/usr/local; proves nothing
	packaging/install $(PREFIX) $(DESTDIR)

uninstall: # takes away what `make install` put below PREFIX=/usr/local
	packaging/install --remove $(PREFIX) $(DESTDIR)

deb: # makes a Debian package of the proved program in out/; proves nothing
	packaging/deb
