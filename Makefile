# The one place for commands. `make` alone lists them.
.DEFAULT_GOAL := help
SHELL := bash
.SHELLFLAGS := -euo pipefail -c
.PHONY: help run library install test fuzz bench beside fmt cases clean

help: ## this list
	@sed -n 's/^\([a-z]*\):.*## /  make \1	/p' $(MAKEFILE_LIST) | expand -t 16

FRAMES ?= examples/yard.frames

run: ## check the frames of FRAMES=file, or of examples/yard.frames: line number and outcome (README.md says what they mean)
	@test -r '$(FRAMES)' || { echo "make run: can't read $(FRAMES)" >&2; exit 1; }
	@$(MAKE) --silent $(PROGRAM)
	@tests/setup run
	@tools/run-here $(PROGRAM) <'$(FRAMES)'

SOURCES := crates.txt $(shell find crates -name out -prune -o \( -name '*.rt' -o -name '*.antt' \) -print)
PROGRAM := target/bin/check_frames
LIBRARY := target/staticlib/libzabrintoly.a

target/bin/%: $(SOURCES)
	@echo "building $*; the first time its proofs take some minutes" >&2
	@tools/build $*

library: $(LIBRARY) ## the library for C and C++ on x86-64: target/staticlib/libzabrintoly.a

$(LIBRARY): $(SOURCES)
	@echo "building the library; the first time its proofs take some minutes" >&2
	@tools/build zabrintoly

PREFIX ?= /usr/local
ROOM = $(DESTDIR)$(PREFIX)
VERSION := $(shell sed -n 's/^.define ZAB_VERSION "\(.*\)"/\1/p' include/zabrintoly.h)
PUT = install -D -m 644

install: $(LIBRARY) $(PROGRAM) ## library, headers, pkg-config and CMake files, the checking program and man pages, into PREFIX=/usr/local (DESTDIR too)
	@$(PUT) $(LIBRARY) '$(ROOM)/lib/libzabrintoly.a'
	@$(PUT) -t '$(ROOM)/include' include/zabrintoly.h include/zabrintoly.hpp
	@$(PUT) -t '$(ROOM)/lib/cmake/Zabrintoly' packaging/ZabrintolyConfig.cmake
	@sed 's/@VERSION@/$(VERSION)/' packaging/ZabrintolyConfigVersion.cmake.in >'$(ROOM)/lib/cmake/Zabrintoly/ZabrintolyConfigVersion.cmake'
	@install -d '$(ROOM)/lib/pkgconfig' '$(ROOM)/share/man/man3'
	@sed 's/@VERSION@/$(VERSION)/' packaging/zabrintoly.pc.in >'$(ROOM)/lib/pkgconfig/zabrintoly.pc'
	@install -D $(PROGRAM) '$(ROOM)/bin/check_frames'
	@$(PUT) -t '$(ROOM)/share/man/man1' man/check_frames.1
	@tools/manual include/zabrintoly.h >'$(ROOM)/share/man/man3/zabrintoly.3'
	@echo 'installed into $(ROOM)'

# The same for programs of this machine, where it is no x86-64.
target/native/libzabrintoly.a: $(LIBRARY) tools/native-library
	@tools/native-library zabrintoly target/native

# The same once more, compiled so that a fuzzer can follow its branches.
target/covered/libzabrintoly.a: $(LIBRARY) tools/native-library
	@tools/native-library zabrintoly target/covered covered -fsanitize-coverage=inline-8bit-counters,pc-table,trace-cmp

test: ## the gate: every proof from nothing, must-fail edits, programs, tests outside Rattle
	@.ci/run

SECONDS ?= 600

fuzz: ## fuzz every export for SECONDS=600, on what earlier runs found in target/fuzz
	@tests/setup
	@tests/fuzz/run $(SECONDS)

bench: ## SHA-256, a leaf, making, signing and a check beside plain C, the last three beside Botan and Bouncy Castle; the stack of each call
	@bench/run

beside: ## making, signing and a check in turn with another build's target/native/libzabrintoly.a, OTHER=that file
	@bench/beside '$(OTHER)'

fmt: ## lay out every .rt and .antt file
	@for crate in crates/*/; do (cd "$$crate" && rt fmt); done

cases: ## write the stored cases and the example anew from the independent program and NIST's vectors
	@tests/setup
	@tests/make-cases
	@tests/make-calls

clean: ## remove what was built
	@rm -rf target crates/*/out
