# `make help` lists the targets; `make play` opens a shell on a server, and `make test` proves and tests all.
CRATES := $(shell sed 's/:.*//' crates.txt)
PREFIX ?= /usr/local

.PHONY: all help play playground demo load test soak bench check types install clean $(CRATES)

all: ## prove the program and the crates below it (half an hour), and leave it at bin/tgdoc
	cd crates/tgdoc && rt run -- run < ../../examples/first-run.jsonl > /dev/null
	@mkdir -p bin && ln -sf ../crates/tgdoc/out/tgdoc bin/tgdoc
	@ls -lL bin/tgdoc

help: ## list the targets
	@awk -F ':.*## ' '/^[a-z]+:.*## / { printf "make %-10s %s\n", $$1, $$2 }' Makefile

# These three run the proved program or, if there is none, an unproved build: it is made once and kept in bin/unproved.
play: ## open a shell on a server of its own
	@examples/shell/shell

playground: ## open a page at a loopback address that shows the graph after each line
	@examples/playground/playground

demo: ## play lines, each with its answer (FILE=examples/share-and-free.jsonl unless given)
	@examples/demo $(FILE)

# The gate proves every crate and its tests, but for what an earlier run on this machine passed unchanged, tries the
# planted bugs and runs the program as two compilers build it; then the built program is tested from outside.
test: ## prove what is new or changed, try the planted bugs, test the programs (at first an hour, four cores)
	tests/gate
	tests/run
	tests/wrong-bodies --turn

# The proved program of many sessions at once, crates/tg_load/out/tg_load.
load: ## prove and build tg_load, many sessions at once over one vault
	cd crates/tg_load && rt run -- --sessions 1 --commands 1 > /dev/null

# 63 sessions at once, a million commands in all, and the settle of their logs; then tests/soak: a million bad lines,
# 20,000 random runs and derivations, and servers that are kept busy, one for 200 rounds. No part of the gate, which runs
# fewer.
soak: all load ## run at length: a million commands of 63 sessions, a million bad lines, busy servers
	crates/tg_load/out/tg_load --sessions 63 --commands 15874 --reuse --figures
	tests/soak

bench: all load ## measure speed, memory, threads, rounds, and a server beside Redis; tests nothing
	bench/lines.py
	bench/threads.py
	bench/piling.py
	bench/rounds.py
	bench/sharing.py
	bench/redis.py

# The edit loop, over what earlier runs left: `make check tg_cells` proves that crate and its tests, tries its planted
# bugs and proves the crates that stand on it; `make check` proves every crate, and no more.
check: ## prove what changed: `make check NAME` a crate, its tests, its planted bugs and the crates above it
	tests/check $(filter-out check,$(MAKECMDGOALS))

# The settings of mypy and of black, which formats, are in pyproject.toml.
types: ## check the types of the Python programs, if mypy is installed
	@if command -v mypy > /dev/null; then mypy; else echo "mypy is not installed"; fi

install: all ## copy the program and its man page to PREFIX (/usr/local unless given)
	install -D -m 755 crates/tgdoc/out/tgdoc $(DESTDIR)$(PREFIX)/bin/tgdoc
	install -D -m 644 docs/tgdoc.1 $(DESTDIR)$(PREFIX)/share/man/man1/tgdoc.1

clean: ## remove all that was built, and what the checks kept
	rm -rf bin bench/out crates/*/out

# (the name of a crate is a goal only so that it can stand behind `check`)
$(CRATES):
	@test -n "$(filter check,$(MAKECMDGOALS))" || echo "use: make check $@"
