# `make help` lists the targets, with what each takes on four processors.
.PHONY: help run test figures plant prove install deb deb-source dist check-deb check-minimal check-hosts lint-deb man serve schedules faults check-programs client bench \
  bench-serve toolchain

SCHEDULE := examples/first_path.txt
UNPROVED := out/unproved/femem-unproved
PROVED := out/proved/femem
RECORD := out/proved/record
SOURCES := crates.txt $(shell find crates -name out -prune -o \( -name '*.rt' -o -name '*.antt' \) -print)
# The proved program if it is up to date, otherwise the unproved one.
PROGRAM := $(shell [ -x $(PROVED) ] && [ -z "$$(find $(SOURCES) -newer $(PROVED))" ] && echo $(PROVED) || echo $(UNPROVED))
PREFIX ?= /usr/local
DIST := out/dist
DATA := femem-data

help: ## lists the targets
	@awk -F ':.*## ' '/^[a-z-]+:.*## / { printf "make %-15s %s\n", $$1, $$2 }' $(MAKEFILE_LIST)

run: toolchain ## try it: builds femem without proving it, and runs the schedule examples/first_path.txt (2 minutes)
	@$(MAKE) -s $(UNPROVED)
	@echo "this build is unproved: 'make prove' proves this very source, 'make test' is the gate"
	@echo "$(SCHEDULE):"
	@cat $(SCHEDULE)
	@echo "its answers:"
	@$(UNPROVED) run < $(SCHEDULE)

test: toolchain ## test it: the gate, with every proof, must-fail edit and test, and real processes (45 to 80 minutes)
	@scripts/gate

figures: ## writes bench/results/figures.md, with sizes and what the last `make test` took, and the tables of docs/performance.md
	@scripts/figures

plant: toolchain ## has `rt plant` try wrong bodies in every crate, and compares what it proves with scripts/planted.txt (hours)
	@scripts/plant

prove: $(PROVED) ## prove it: proves the program's crates, and builds the proved program (30 minutes)
	@echo "$(PROVED) is proved"

install: $(PROVED) ## install it: puts the proved program, femem-store and the man pages below PREFIX (default /usr/local)
	@install -D -m 755 $(PROVED) $(DESTDIR)$(PREFIX)/bin/femem
	@install -D -m 755 packaging/tools/femem-store $(DESTDIR)$(PREFIX)/lib/femem/femem-store
	@install -D -m 644 -t $(DESTDIR)$(PREFIX)/lib/femem/femem_store packaging/tools/femem_store/*.py
	@ln -sf ../lib/femem/femem-store $(DESTDIR)$(PREFIX)/bin/femem-store
	@scripts/man_pages out/man
	@for page in out/man/*; do install -D -m 644 $$page $(DESTDIR)$(PREFIX)/share/man/man$${page##*.}/$${page##*/}; done
	@echo "$(DESTDIR)$(PREFIX)/bin/femem"

deb: ## packages it: six Debian packages in out/dist, with the proved program and the clients; refuses what is not proved
	@scripts/make_deb $(PROVED) $(DIST) $(RECORD)

deb-source: ## makes Debian's source package of this commit in out/source; it builds the same packages where a proved program is given
	@rm -rf out/source
	@scripts/deb_source out/source

dist: ## releases it: packages, wheel, C library, checksums and the proof's record in out/dist; refuses what is not proved
	@scripts/dist $(PROVED) $(RECORD) $(DIST)

man: ## makes the man pages in out/man from the documents in docs/
	@scripts/man_pages out/man
	@ls out/man/*

$(UNPROVED): $(SOURCES) scripts/quick | toolchain
	@scripts/quick

# (sources that are newer than the program and are still those of its record were only checked out again)
$(PROVED): $(SOURCES)
	@if scripts/record check $(PROVED) $(RECORD) 2> /dev/null; then touch $(PROVED); else $(MAKE) -s toolchain && scripts/prove; fi

# The settings are the example's, with the paths in femem-data/ and without `format`, since the store is made first. A socket at
# which nothing listens was left by a server that was stopped.
serve: $(PROGRAM) ## starts a server with the settings of examples/femem.toml, and its socket and store in femem-data/
	@mkdir -p $(DATA)
	@[ -e $(DATA)/femem.toml ] || sed 's|/tmp/femem|$(DATA)/femem|; /^format/d' examples/femem.toml > $(DATA)/femem.toml
	@[ -e $(DATA)/femem.store ] || FEMEM=$(abspath $(PROGRAM)) packaging/tools/femem-store make $(DATA)/femem.store
	@$(PROGRAM) call --socket $(DATA)/femem.socket < /dev/null 2> /dev/null || rm -f $(DATA)/femem.socket
	@echo "$(PROGRAM) serves at $(DATA)/femem.socket, until it is stopped"
	@exec $(PROGRAM) serve --settings $(DATA)/femem.toml

schedules: $(PROGRAM) ## runs every schedule of examples/ and scripts/check/schedules/, and compares its output
	@scripts/check_programs $(PROGRAM) runs.worked_schedules

faults: $(PROGRAM) ## runs every schedule with each allocation refused in turn, and the tests of refused memory
	@scripts/check_programs $(PROGRAM) runs.refuse_each --turns 1000 --patience 4
	@scripts/refuse_test

check-programs: $(PROGRAM) ## real processes: crowds, kills under load, damaged stores, faults, clients, installations (4 to 10 minutes)
	@scripts/check_programs $(PROGRAM)

check-deb: $(PROGRAM) ## the packages, in a clean Debian with its own systemd: installed, killed, upgraded, purged; the pages; needs root (4 minutes)
	@scripts/check_programs $(PROGRAM) deb

check-minimal: $(PROGRAM) ## `make run`, `make test` and the pages' commands in a minimal Debian; needs root, debootstrap and a network (10 minutes)
	@scripts/check_programs --patience 4 $(PROGRAM) minimal

check-hosts: $(PROGRAM) ## a store on two hosts that fail in turn (docs/replication.md); needs root and some packages (2 minutes)
	@scripts/check_programs $(PROGRAM) hosts

lint-deb: deb ## checks the packages with Debian's lintian
	@lintian --fail-on error,warning $(DIST)/*.deb

client: ## builds the C client and femem-cli, and runs the tests of both clients; needs no toolchain (1 minute)
	@$(MAKE) -s -C clients/c all test
	@$(MAKE) -s -C clients/cli
	@python3 -m unittest discover -s clients/python/tests
	@echo "clients/c/out/libfemem.a and clients/cli/out/femem-cli are built; clients/python/README.md says how to install the Python client"

bench: $(PROVED) ## measures a long schedule
	@bench/run $(PROVED)

bench-serve: $(PROVED) ## measures a server, and Redis if it is installed
	@bench/serve/run $(PROVED)

# All that is missing is named at once.
toolchain:
	@lacks=; \
	command -v python3 > /dev/null 2>&1 || { lacks=1; echo "femem: python3 is not on the PATH (on Debian: apt install python3)" >&2; }; \
	command -v rt > /dev/null 2>&1 || { lacks=1; echo "femem: 'rt', the command of the Rattle toolchain, is not on the PATH" >&2; }; \
	[ -z "$$lacks" ]
