# make demo    builds without proving, runs the examples and compares what they print: about a minute
# make build   proves and builds ocadev and ocactl into bin
# make ocapanel   proves and builds the browser's panel, over the same crates
# make test    the gate: every proof, from nothing but for what an earlier `rt ci` kept here of the same files, tests,
#              programs, and the steps of gate/steps, with the wrong bodies that must be refused
# make lossy   both programs over a network that loses, duplicates, delays and reorders: one command at a time, then 16 in
#              flight with a window of 31; and a schedule that a window of 30 is too small for: COMMANDS=200 SEED=1
# make fuzz    both programs against a second implementation of the profile, on random scripts: SCRIPTS=2000 SEED=1
# make world   schedules for both ends, held against the laws and the second implementation: SCHEDULES=8000 SEED=1
# make law     histories of events, held against the law by events, and wrong devices: HISTORIES=2000 SEED=1
# make bench   instructions, memory by size, requests a second beside bare loops, with the goals
# make panel-trial   the panel's page: its cases in node, and in headless Chromium: clicks, drags, locks, loss, restarts
# make install puts the programs, their manual pages and the library for C below PREFIX (of DESTDIR); what is not built yet is
#              proved and built first (make build ocapanel library), and built again where a source is newer
# make library proves and builds the library for C: TARGET=aarch64-unknown-linux-gnu for another kind of processor, which
#              `make install-library` then puts into a folder of its own
# make uninstall takes away what was installed
# make docs    lists the public API by crate in out/API.md
COMMANDS = 200
SCRIPTS = 2000
SCHEDULES = 8000
HISTORIES = 2000
SEED = 1
PREFIX = /usr/local
TARGET = x86_64-unknown-linux-gnu
LIBRARY = crates/oca_c/out/$(TARGET)/liboca_c.a
PROGRAMS = ocadev ocactl
BUILD = python3 gate/build.py bin
SOURCES = $(shell find crates \( -name out -o -name '*_tests' \) -prune -o \( -name '*.rt' -o -name '*.antt' \) -print 2>/dev/null)
.PHONY: build ocapanel demo test lossy fuzz world law bench panel-trial library install install-library uninstall docs clean

demo:
	@echo "Building by 'rt try' and running the examples; nothing is proved yet by that. This takes about a minute."
	@python3 examples/run.py

build:
	@echo "Proving and building $(PROGRAMS) with the crates below them: the first time 15 to 20 minutes on four processors,"
	@echo "after an edit only the crates that it changes and those above them. Each crate is named as it ends."
	@$(BUILD) $(PROGRAMS)
	@python3 examples/run.py bin/ocadev

ocapanel:
	@echo "Proving and building ocapanel with the crates below it: some 5 minutes on four processors where make build has run,"
	@echo "after an edit only the crates that it changes and those above them. Each crate is named as it ends."
	@$(BUILD) ocapanel

test:
	@python3 gate/run.py

lossy:
	@test -x bin/ocactl || $(MAKE) build
	@python3 tools/lossy.py bin $(COMMANDS) $(SEED)
	@python3 tools/lossy.py bin directed

fuzz:
	@test -x bin/ocactl || $(MAKE) build
	@python3 tools/fuzz.py bin $(SCRIPTS) $(SEED)

world:
	@test -x bin/trials || $(BUILD) trials
	@python3 tools/world.py bin $(SCHEDULES) $(SEED)

law:
	@test -x bin/trials || $(BUILD) trials
	@python3 tools/law.py bin $(HISTORIES) $(SEED)

panel-trial:
	@test -x bin/ocactl || $(MAKE) build
	@test -x bin/ocapanel || $(MAKE) ocapanel
	@python3 tools/panel_trial.py bin

bench: build
	python3 bench/run.py bin
	python3 bench/core.py bin
	python3 bench/memory.py bin
	python3 bench/sockets.py bin

export PREFIX DESTDIR LIBRARY

install: install-library bin/ocadev bin/ocactl bin/ocapanel
	@sh gate/install.sh install programs

bin/ocadev bin/ocactl &: $(SOURCES)
	@$(MAKE) build

bin/ocapanel: $(SOURCES) | bin/ocactl
	@$(MAKE) ocapanel

install-library: $(LIBRARY)
	@sh gate/install.sh install library $(TARGET)

uninstall:
	@sh gate/install.sh uninstall programs
	@sh gate/install.sh uninstall library $(TARGET)

library: $(LIBRARY)

crates/oca_c/out/$(TARGET)/liboca_c.a: $(foreach name,c calls types pdu model tree session net device control,$(wildcard crates/oca_$(name)/src/*.rt crates/oca_$(name)/src/*/*.rt crates/oca_$(name)/specs/*.antt crates/oca_$(name)/proofs/*.antt))
	@python3 gate/build.py --library $(TARGET)

docs:
	@python3 gate/api.py

clean:
	rm -rf bin crates/*/out out
