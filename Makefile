# `make` alone lists the targets, each with the line after its `##`. `try`, `check` and `edits` take a crate's name as their next word.

SHELL := bash
.SHELLFLAGS := -euo pipefail -c
.DEFAULT_GOAL := help

NAME ?= $(word 2,$(MAKECMDGOALS))
crate = $(or $(NAME),$(error make $@ NAME: the name of a crate is missing, one of $(notdir $(wildcard crates/*))))

.PHONY: help run serve test prove pdpd try check api memory edits fmt rows pages agreement author-test policy-file bench dist deb install deploy-test replicas

help:
	@awk -F ':.*## ' '/^[a-z-]+:.*## / { printf "  make %-12s %s\n", $$1 ($$1 ~ /^(try|check|edits)$$/ ? " NAME" : ""), $$2 }' Makefile

run: ## serves the ward's example over a file, asks it by curl, and again after a restart; leaves the program in build/pdpd, compiled without proof where it isn't built
	@examples/ward/walk $(PROGRAM)

serve: ## serves the ward's example at 127.0.0.1:8080 over build/ward.db, until it is stopped; builds the program as `make run` does
	@examples/ward/walk --stay $(PROGRAM)

test: ## all tests, in minutes: over the proved programs, where they are built of these very sources, else over what is compiled without proof
	@tests/all.py

prove: ## the CI gate, in an hour and more: proves everything, tries the wrong bodies, and runs all tests over the proved programs
	@tests/prove.py

# the word after `try`, `check` or `edits` is a crate's name, and no target
ifneq (,$(filter try check edits,$(firstword $(MAKECMDGOALS))))
$(wordlist 2,2,$(MAKECMDGOALS)):
	@:
else
pdpd: ## proves pdpd and what it stands on, and leaves the program in build/pdpd
	cd crates/pdpd; ../../tests/programs.py proved pdpd rt run -- $$(cat args) < stdin | cmp - stdout
	install -D crates/pdpd/out/pdpd build/pdpd
endif

try: ## runs a program, pdpd or xa_trials, on its stored input, without proving
	@cd crates/$(crate); rt try -- $$(cat args 2> /dev/null) < stdin

check: ## proves a crate, over what earlier checks kept
	@cd crates/$(crate); rt check

api: pdpd ## proves and builds pdpd, and sends it every example of the API reference (docs/guide/API.md, docs/guide/openapi.yaml)
	tests/api.py

memory: ## refuses pdpd and xa_trials each allocation of a script in turn, as `make test` does too; compiles a few lines of C with cc
	tests/memory.py

edits: ## tries the further wrong bodies in edits/NAME, each of which the prover must reject
	@edits/run $(crate)

fmt: ## lays out the files of all crates
	@for crate in crates/*/; do (cd "$$crate"; rt fmt); done

rows: ## writes the stored input and output of xa_trials anew, from tests/rows/*.rows
	tests/rows/write.py

pages: ## writes what is generated in the pages (*.md), and wraps their prose
	tests/pages.py --write

agreement: ## answers random rows and transcripts by xa_trials and pdpd and by a model in Python, and compares
	tests/model/compare/run
	tests/model/compare/replay

author-test: ## tests the policy author's desk (tools/policy/policy.py); proves and builds the program of rows first, where it isn't built
	tools/policy/policy.py build
	tools/policy/test.py

policy-file: ## packs the policy author's desk as one file that Python from 3.9 runs: build/policy.pyz
	@tools/policy/pack.py

bench: pdpd ## proves and builds pdpd, and runs all benchmarks but those that the head of bench/all names
	bench/all

dist: ## packs the proved program, or PROGRAM=PATH, the kit for several of them behind HAProxy, the author's desk, and their pages: build/pdpd-VERSION.tar.gz
	@deploy/dist.py $(if $(PROGRAM),--program $(PROGRAM))

deb: ## packs the same into a package of Debian: build/pdpd_VERSION_amd64.deb
	@deploy/deb.py $(if $(PROGRAM),--program $(PROGRAM))

install: ## as `make dist`, and installs it under PREFIX (/usr/local)
	@deploy/dist.py $(if $(PROGRAM),--program $(PROGRAM)) --install $(or $(PREFIX),/usr/local)

deploy-test: ## tries that kit with HAProxy, runit, systemd, podman and the proved program, or PROGRAM=PATH (docs/guide/OPERATING.md); takes the rights of root
	@tests/deploy.py $(PROGRAM)

replicas: pdpd ## tries several machines' log, its models by spin and its daemons over etcd (docs/guide/REPLICAS.md)
	tests/replicas.py
