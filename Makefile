# rt is the command of the Rattle toolchain.
RT ?= rt
# how many threads answer requests
WORKERS ?= $(shell sed -n s/^WORKERS=//p deploy/needleazure.default)
# where `make install` puts programs
PREFIX ?= /usr/local
# the programs of the package
ALL = ingesterd ingestctl ingest1 walcat walsplit

.PHONY: help run prove release demo sample test quick server edits faults check check-docs fmt bench kill power-loss filesystem-loss program-rows measure \
	deb deb-lint gateway drain pictures clean install

help: ## prints this
	@sed -nE 's/^([a-z%][a-z-]*):.*## (.*)/\1\t\2/p' Makefile | while IFS='	' read -r name words; do \
		printf '  make %-14s %s\n' "$$name" "$$words"; done

# (jemalloc where it is installed, else the C library's with threads that keep more freed pieces at hand:
# docs/BENCHMARKS.md says what a push takes by each)
JEMALLOC = $(firstword $(wildcard /usr/lib/*/libjemalloc.so.2))
# (a thread of its own gives pages back that are no longer used; the unit has the same)
MALLOC_CONF = background_thread:true,max_background_threads:1
TUNED = $(if $(JEMALLOC),LD_PRELOAD=$(JEMALLOC) MALLOC_CONF=$(MALLOC_CONF),GLIBC_TUNABLES=glibc.malloc.tcache_count=1000)

# (without SHARDS, which stays the same for a folder, ./data keeps the number that it has, and a new one gets 8)
run: ## the server on port 3100, with its log in ./data (SHARDS=8 WORKERS=16)
	@RT='$(RT)' tests/gate/take ingesterd
	@deploy/check-filesystem "$(CURDIR)/data" || true
	@SHARDS='$(SHARDS)' deploy/with-shards deploy/fill-slots "$(CURDIR)/data" {} || true
	@SHARDS='$(SHARDS)' $(TUNED) exec deploy/with-shards crates/ingesterd/out/ingesterd "$(CURDIR)/data" 3100 {} $(WORKERS)

prove: ## proves and builds all programs here, at a low priority, and compares them with the released ones
	@RT='$(RT)' tests/gate/prove

release: ## makes release/ of the newest release in CHANGELOG.md: proved and built twice, from nothing
	@RT='$(RT)' tests/gate/release

demo: ## in another shell: pushes a line to that server, and reads it back
	@tests/package/demo 3100

sample: ## judges a push body on an empty shard in memory, and reads it back
	@RT='$(RT)' tests/gate/take ingest1
	@crates/ingest1/out/ingest1 20 < crates/ingest1/stdin

test: ## the merge gate: every proof from nothing, edits, cases, refused memory, the server in use, documents
	@RT='$(RT)' tests/gate/run

quick: ## after a change: proves a crate and the program that it is in, and runs its cases and tests (CRATE=wal)
	@RT='$(RT)' tests/gate/quick $(CRATE)

server: ## the built server as it is used: connections, sizes, a failing disk, kills, limits (WORDS="-k silent")
	@RT='$(RT)' tests/gate/build $(ALL)
	@tests/gate/pytest tests/server --ignore=tests/server/test_programs.py --ignore=tests/server/test_refused_memory.py $(WORDS)

kill: ## kills a server in the middle of pushes, reads and trims, and reads all back (CYCLES=100)
	@RT='$(RT)' tests/gate/build ingesterd
	@CYCLES=$(or $(CYCLES),5) tests/gate/pytest tests/server/test_kills.py -s

power-loss: ## what a server under load may leave at a loss of power, image by image (IMAGES=2000 SEED=1)
	@RT='$(RT)' tests/gate/build ingesterd
	@tests/server/power_loss $(or $(IMAGES),2000) $(SEED)

faults: ## hostile bytes, refused memory, bad files, held to the definitions (some minutes)
	@RT='$(RT)' tests/gate/build cases conformance $(ALL)
	@failed=0; for it in drawn files refused_memory; do \
		tests/gate/pytest tests/server/test_$$it.py -m by_hand || failed=1; done; \
		tests/gate/pytest tests/server/test_refused_memory.py tests/server/test_judges.py || failed=1; \
		DRAWN=5000 tests/gate/pytest tests/server/test_drawn.py || failed=1; exit $$failed

program-rows: ## the programs over their words, streams, files and slots, as the rows of tests/rows/programs say
	@RT='$(RT)' tests/gate/build cases $(ALL)
	@tests/gate/pytest tests/server/test_programs.py

# what a check is run over, and its words
%-check: PROGRAMS = ingesterd walcat
kit-check theorem-check filesystem-check: PROGRAMS =
deb-check failover-check: PROGRAMS = $(ALL)
deb-check: WORDS = "$$(deploy/deb)"
failover-check: WORDS = "$$(deploy/deb)" $(RUNS)
gateway-check: BEFORE = deploy/gateway/build race && tests/package/gateway_quick race
drain-check: BEFORE = tests/package/drain_quick race
deb-check edge-check failover-check gateway-check container-check: gateway
deb-check failover-check drain-check after-check metrics-check container-check: drain

%-check: CHECK = $(subst -,_,$*)_check
%-check: ## tests/*/NAME_check over built programs: clients gateway drain sweep after syslog memory edge scale-out metrics fill, as root deb filesystem container failover (RUNS=100), alone kit theorem
	@$(if $(PROGRAMS),RT='$(RT)' tests/gate/build $(PROGRAMS))
	@$(BEFORE)
	@RT='$(RT)' $(or $(wildcard tests/*/$(CHECK)),$(if $(wildcard tests/*/$(CHECK).py),tests/run $(CHECK)),$(error there is no $(CHECK))) $(WORDS)

measure: $(if $(filter drain_cost scale window,$(NAME)),drain) ## what is timed: soak scale roll start default_shards metrics_cost drain_cost gateway_speed window (NAME=soak WORDS=2)
	@RT='$(RT)' tests/gate/build ingesterd walcat
	@tests/run $(NAME) $(WORDS)

bench: ## how long the parts of a push take: bodies, a segment, appends, groups, long streams
	@RT='$(RT)' tests/gate/build ingesterd ingest1 walcat
	@TMPDIR='$(CURDIR)' tests/run parts

edits: ## tries all wrong bodies, also those that rt ci tries, and prints the goal that each leaves open (CRATES="labels accept" JOBS=2)
	@RT='$(RT)' tests/gate/edits $(if $(JOBS),--jobs $(JOBS)) $(CRATES)

check: ## proves every crate, lowest first, over the work of earlier checks
	$(RT) all check

check-docs: ## checks the documents: links, names, targets, words of programs
	@tests/gate/check_docs

fmt: ## lays out the code of every crate
	@for crate in crates/*/; do (cd "$$crate" && $(RT) fmt) || exit 1; done

pictures: ## draws the pictures and figures of the documents (graphviz, gnuplot-nox)
	@for it in parts push threads memory; do dot -Tsvg -o docs/pictures/$$it.svg docs/pictures/$$it.dot; done
	@docs/pictures/slots.py | dot -Tsvg -o docs/pictures/slots.svg
	@docs/figures/plot

deb: gateway drain ## the Debian package, in deploy/out
	@RT='$(RT)' tests/gate/take $(ALL)
	@deploy/deb

deb-lint: gateway drain ## the Debian packages made twice, which gives the same bytes, and looked at by lintian
	@RT='$(RT)' tests/gate/take $(ALL)
	@tests/package/deb_lint

# (units, and the scripts for metrics, sweep and a pair of machines, are in the package alone, which knows its places)
install: ## installs the programs that are built and their manual pages, without a package (PREFIX=/usr/local DESTDIR=)
	@for it in $(foreach it,$(ALL),crates/$(it)/out/$(it)) deploy/out/needleazure-drain deploy/out/needleazure-gateway; do \
		[ -x $$it ] || { echo "make install: $$it is not built: make prove, make drain, make gateway" >&2; exit 1; }; done
	@for it in $(ALL); do install -D -m 755 crates/$$it/out/$$it "$(DESTDIR)$(PREFIX)/bin/$$it"; done
	@for it in drain gateway; do install -D -m 755 deploy/out/needleazure-$$it "$(DESTDIR)$(PREFIX)/sbin/needleazure-$$it"; done
	@for it in $(wildcard $(ALL:%=deploy/%.[18]) deploy/needleazure-[dg]*.8); do \
		install -D -m 644 $$it "$(DESTDIR)$(PREFIX)/share/man/man$${it##*.}/$${it##*/}"; done

clean: ## removes what was built, and nothing of ./data
	@rm -rf crates/*/out deploy/out tests/out

filesystem-loss: ## losses of power on real file systems, block by block (as root; IMAGES=1000 SEED=1 FILESYSTEMS="ext4 xfs btrfs")
	@RT='$(RT)' tests/gate/build ingesterd
	@tests/server/filesystem_loss $(if $(SEED),--seed $(SEED)) $(or $(IMAGES),1000) $(FILESYSTEMS)

drain: ## needleazure-drain, in deploy/out, from Go and libraries of Debian
	@deploy/drain/build

gateway: ## needleazure-gateway for Promtail and Alloy, in deploy/out, from Go and libraries of Debian
	@deploy/gateway/build
