# demo: plays the examples with the programs of the release, or with those that were built · check: tests these programs, without the kit
# build: proves and builds the programs into bin/
# test: proves and tests everything · edits: tries the wrong bodies that the gate leaves out · soak: what else belongs to a whole test
# bench: prints figures · release: writes dist/ · check-release: builds the commit that dist/ names, and compares
.PHONY: demo check build test edits soak bench release check-release

demo:
	@scripts/demo

check:
	@scripts/check

build:
	@scripts/build

test:
	rt ci

edits:
	@scripts/edits $(NAMES)

soak:
	@scripts/soak/all

bench:
	@scripts/bench/all

release:
	@scripts/release/make

check-release:
	@scripts/release/check
