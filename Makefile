# make run     the echo test of examples/echo.txt, by the built command or else by the quick run
# make test    every test and every stored run, without proofs; the last line is 'N passed, N failed'
# make build   proves both programs and what they stand on, and builds them: crates/rumpadol/out/rumpadol, crates/iso_cli/out/iso_cli
# make day     the frames of examples/day.txt through an issuer host, and each answer; builds both programs
# make replay  a host that is killed and started again on the frames that were kept; builds the command
# make connections  an acquirer whose answers get lost, and peers that misbehave, at a host on a port; builds the command
# make crash   a host over its journal that is killed 200 times under load, and what it answers afterwards; builds rumpadol
# make starts  a host without the right to its journal, and one over a long journal on a terminal; builds rumpadol
# make peers   one kind of bad peer after the other at a host on ports, while good ones are served and compared; builds rumpadol
# make restarts  a host with many peers that is killed at random, and what its journal holds afterwards: SECONDS=120; builds rumpadol
# make rules   a host that misbehaves on purpose does what its rules say; builds rumpadol
# make drives  a driver at good hosts and at bad ones, and a recorded day that is compared; builds rumpadol
# make page    the page in a headless browser, and requests that are refused; makes the pictures of docs/PAGE.md; builds both programs
# make soak    a host and a driver as processes, and everything between them broken: MINUTES=10; writes docs/SOAK.md; builds rumpadol
# make fronts  a front before three hosts, beside one host with all accounts; builds rumpadol
# make replicas  two hosts over one journal on three members of etcd, and everything between them broken: MINUTES=10; builds rumpadol
# make rows    the rows of both programs, and of the host on a port, at the built programs; builds them
# make schedule  an acquirer whose answers get lost, and what both ends hold: SCHEDULE=examples/lost-answers.txt
# make library  proves the library for C and what it stands on, and builds it: crates/iso_c/out/libiso_c.a
# make install  puts the built programs, their man pages and completions, the tables and the library for C under PREFIX=/usr/local
# make uninstall  removes what make install put there
# make deb     Debian's package of the same: packaging/out/
# make tables  the documents of tables/, each with a message; builds rumpadol
# make tshark  messages of seven forms beside what Wireshark reads; builds rumpadol
# make jpos    tables of jPOS packagers, and the filter for Java; builds rumpadol
# make go      the module for Go, over what make install put under PREFIX=/usr/local
# make check   proves what changed since the last check
# make prove   the whole gate: every proof, wrong edit, test and program, from nothing; RT_JOBS=2 for fewer checks side by side
# make memory  each call that can want memory, and each command, with each of its growths refused in turn, by the quick run
# make compare  what both programs do with messages made by chance, and what the model says: SECONDS=120; builds them
# make loopback  how long a round trip on a port takes, and the memory of a host over many connections: ROUNDS=1000 for fewer
# make load    how many answers a second a host with many peers gives, beside a loop that only echoes and syncs: LOAD=1 for less time
# make bench   how fast the streams, the codec, the issuer and a journal in a file and on etcd are: ORDERS=2000 SIZES="100 1000" for fewer orders
# The last three print tables. Where ORDERS, SIZES, ROUNDS and LOAD are as below, they write them to docs/SPEED.md too.

ifeq ($(shell command -v rt 2> /dev/null),)
$(error the Rattle toolchain is missing: no program rt on the PATH)
endif

COMMAND := crates/iso_cli/out/iso_cli
RUMPADOL := crates/rumpadol/out/rumpadol
BENCH := crates/iso_bench/out/iso_bench
LIBRARY := crates/iso_c/out/libiso_c.a
ANSWERS := crates/iso_cli/out/answers.txt
SOURCES := $(shell find crates -name out -prune -o -type f \( -name '*.rt' -o -name '*.antt' \) -print) crates.txt
CODEC := $(shell find crates/iso_parts crates/iso_table crates/iso_wire crates/iso_c -name out -prune -o -type f \( -name '*.rt' -o -name '*.antt' \) -print)
SCHEDULE := examples/lost-answers.txt
ALL_ORDERS := 900000
ALL_SIZES := 10000 30000 100000 300000 900000
ALL_ROUNDS := 100000
ALL_LOAD := 5
ORDERS := $(ALL_ORDERS)
SIZES := $(ALL_SIZES)
ROUNDS := $(ALL_ROUNDS)
LOAD := $(ALL_LOAD)
SECONDS ?= 120
MINUTES ?= 10
RT_JOBS ?= $(shell expr $$(nproc) + 1)

# the page that whole runs write
ifeq ($(ORDERS) of $(SIZES),$(ALL_ORDERS) of $(ALL_SIZES))
BENCH_PAGE := docs/SPEED.md
endif
ifeq ($(ROUNDS),$(ALL_ROUNDS))
LOOPBACK_PAGE := docs/SPEED.md
endif
ifeq ($(LOAD),$(ALL_LOAD))
LOAD_PAGE := docs/SPEED.md
endif

.PHONY: run test build library day replay connections crash starts peers restarts rules drives fronts page tables tshark jpos go soak replicas rows schedule check prove memory compare bench loopback load install uninstall deb

run:
	@if $(MAKE) --silent --no-print-directory --question $(COMMAND); then \
	    $(COMMAND) < examples/echo.txt; \
	else \
	    scripts/quick-run.sh iso_cli examples/echo.txt; \
	fi

test:
	@scripts/test.sh

build: $(COMMAND) $(RUMPADOL)

library: $(LIBRARY)

day: $(COMMAND) $(RUMPADOL)
	@$(COMMAND) run ascii87 examples/accounts.json ascii4 < examples/day.txt > $(ANSWERS)
	@$(RUMPADOL) decode ascii87 --frames ascii4 $(ANSWERS)

replay: $(COMMAND)
	@examples/replay.sh $(COMMAND)

connections: $(COMMAND)
	@cd examples && python3 client.py ../$(COMMAND)

crash: $(RUMPADOL)
	@python3 scripts/crash.py $(RUMPADOL)

starts: $(RUMPADOL)
	@python3 scripts/starts.py $(RUMPADOL)

peers: $(RUMPADOL)
	@python3 scripts/peers.py $(RUMPADOL)

restarts: $(RUMPADOL)
	@python3 scripts/restarts.py $(RUMPADOL) $(SECONDS)

rules: $(RUMPADOL)
	@python3 scripts/rules.py $(RUMPADOL)

drives: $(RUMPADOL)
	@python3 scripts/drives.py $(RUMPADOL)
	@python3 scripts/replays.py $(RUMPADOL)

fronts: $(RUMPADOL)
	@python3 scripts/fronts.py $(RUMPADOL)

page: $(COMMAND) $(RUMPADOL)
	@python3 scripts/page-test.py $(RUMPADOL) $(COMMAND) --pictures docs

tables: $(RUMPADOL)
	@python3 scripts/tables-check.py $(RUMPADOL)

tshark: $(RUMPADOL)
	@scripts/tshark-check.sh $(RUMPADOL)

jpos: $(RUMPADOL)
	@python3 scripts/jpos-check.py $(RUMPADOL)

go:
	@scripts/go-check.sh $${PREFIX:-/usr/local}

soak: $(RUMPADOL)
	@python3 scripts/soak.py $(RUMPADOL) $(MINUTES) docs/SOAK.md

replicas: $(RUMPADOL)
	@python3 scripts/replicas.py $(RUMPADOL) $(MINUTES) docs/SOAK.md

rows: $(COMMAND) $(RUMPADOL)
	@python3 scripts/command-rows.py $(COMMAND)
	@python3 scripts/port-rows.py $(COMMAND)
	@python3 scripts/command-rows.py --program rumpadol $(RUMPADOL)
	@python3 scripts/page-calls.py $(RUMPADOL)

schedule:
	@scripts/quick-run.sh iso_schedule $(SCHEDULE)

$(COMMAND): $(SOURCES)
	cd crates/iso_cli && rt run < ../../examples/echo.txt > /dev/null
	@touch $@

$(RUMPADOL): $(SOURCES)
	cd crates/rumpadol && rt run -- --version > /dev/null
	@touch $@

$(LIBRARY): $(CODEC)
	cd crates/iso_c && rt lib > /dev/null
	@touch $@

$(BENCH): $(SOURCES)
	cd crates/iso_bench && rt run > /dev/null
	@touch $@

check:
	rt all check

prove:
	@RT_JOBS=$(RT_JOBS) scripts/gate.sh

memory:
	@scripts/memory.sh

compare: $(COMMAND) $(RUMPADOL)
	@python3 scripts/compare.py $(COMMAND) $(RUMPADOL)

bench: $(COMMAND) $(RUMPADOL) $(BENCH)
	@ORDERS=$(ORDERS) bench/figures.sh bench "$(BENCH_PAGE)" bench/turns.sh $(SIZES)
	@ORDERS=$(ORDERS) bench/figures.sh etcd "$(BENCH_PAGE)" bench/etcd.sh

loopback: $(COMMAND)
	@ROUNDS=$(ROUNDS) bench/figures.sh loopback "$(LOOPBACK_PAGE)" bench/loopback.sh

load: $(RUMPADOL)
	@LOAD=$(LOAD) bench/figures.sh peers "$(LOAD_PAGE)" bench/peers.sh

# Nothing is proved or built here: what is missing is named, with the target that makes it.
install:
	@scripts/install-files.sh "$(RUMPADOL)" "$(COMMAND)" "$(LIBRARY)"

uninstall:
	@scripts/install-files.sh --remove

deb:
	@scripts/install-deb.sh "$(RUMPADOL)" "$(COMMAND)" "$(LIBRARY)" packaging/out
