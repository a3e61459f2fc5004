SEED ?= 1
CASES ?= 1000000
RUNS ?= 100000
SECONDS ?= 600
PREFIX ?= /usr/local
ifeq ($(origin CXX),default)
CXX = c++
endif
export SEED CASES RUNS SECONDS PREFIX DESTDIR CC CXX CFLAGS LDFLAGS AR

LIBRARY = target/lib/libmidici_pe.a
OBJECTS = target/lib/hub_c.o target/lib/hub_message.o
TAPE = target/programs/tape

# The files of a crate and of those that it uses, but for the kit's and what rt makes.
sources_of = $(shell find $(wildcard $(patsubst %,crates/%,$1 $(shell sed -n 's/^$1\( staticlib\)\{0,1\}://p' crates.txt))) -mindepth 1 -type d \( -name must-fail -o -name out \) -prune -o -print)
LIBRARY_SOURCES := $(call sources_of,hub_c) $(wildcard crates/hub_message/src/* crates/hub_message/proofs/*)
TAPE_SOURCES := $(call sources_of,tape)

STRICT = -Wall -Wextra -Wpedantic -Werror -Iinclude -Ic
C99 = $(CC) -std=c99 -O2 $(STRICT) $(CFLAGS)
SANITIZED = $(C99) -g -fsanitize=address,undefined -fno-sanitize-recover=all
SHARED := $(wildcard c/*.c)
TESTS := $(wildcard c/test/*.c) $(SHARED)
HEADERS := $(wildcard c/*.h c/test/*.h) include/midici_pe.h

help:
	@.ci/help $(LIBRARY)

test:
	@.ci/gate

edits:
	@.ci/edits

examples:
	@.ci/program examples
	@target/programs/examples

compare:
	@.ci/values "the comparison" SEED CASES RUNS
	@oracle/at-hand
	@.ci/alone oracle/run compare $(SEED) $(CASES) $(RUNS)
	@$(MAKE) -s target/c/answers
	@c/test/json/run $(SEED) $(CASES) 5

bench:
	@oracle/at-hand Cannot-run "the benchmarks"
	@.ci/alone bench/run

vectors:
	@oracle/at-hand
	@.ci/alone oracle/run vectors

lib: $(LIBRARY)

$(OBJECTS): target/lib/%.o: $(LIBRARY_SOURCES) crates.txt
	@.ci/object $*

$(LIBRARY): $(OBJECTS) include/midici_pe.h
	@.ci/archive $@ $(OBJECTS)
	@echo "Made: $@"

tape: $(TAPE)
	@echo "Made: $(TAPE). It plays a recorded tape: $(TAPE) <recorded.tape"

$(TAPE): $(TAPE_SOURCES) crates.txt
	@.ci/program tape

install: $(LIBRARY)
	@.ci/install

uninstall:
	@.ci/install --remove

clean:
	@.ci/alone rm -rf target crates/*/out
	@echo "Removed: target/ and crates/*/out/"

sizes:
	@c/at-hand Cannot-run "the sizes"
	@$(MAKE) -s $(LIBRARY)
	@c/sizes

readme:
	@.ci/picture --write

run:
	@c/at-hand Cannot-run "the demo"
	@$(MAKE) -s target/c/week
	@target/c/week

test-c:
	@.ci/values "the C tests" SEED
	@c/at-hand Cannot-run "the C tests"
	@$(MAKE) -s tested-c

tested-c: target/c/readme target/c/exports target/c/week target/c/bodies target/c/answers target/c/tape_calls $(TAPE)
	@c/test/header
	@target/c/exports $(SEED)
	@target/c/week >target/c/week.log || { cat target/c/week.log; exit 1; }
	@echo "The demo ends as it should."
	@c/test/syx/run
	@c/test/json/run "$(SEED)" 20000 3
	@c/test/tape/run "$(SEED)"
	@if c/test/sanitizers; then $(MAKE) -s sanitized-c; fi
	@c/sizes >target/c/sizes.log || { cat target/c/sizes.log; exit 1; }
	@echo "No call takes more stack than the header says, and memset is all that has to be supplied."
	@c/test/readme
	@c/test/commands

sanitized-c: target/c/exports_sanitized target/c/week_sanitized
	@target/c/exports_sanitized $(SEED) >target/c/exports.log || { cat target/c/exports.log; exit 1; }
	@target/c/week_sanitized >target/c/week.log || { cat target/c/week.log; exit 1; }
	@echo "The same with the tests and the demo instrumented (address and undefined-behaviour sanitizers)."

fuzz:
	@.ci/values "the fuzzer" SECONDS
	@c/fuzz/at-hand
	@$(MAKE) -s $(LIBRARY)
	@c/fuzz/run $(SECONDS)

# The words of the C compiler: another one builds anew.
target/c/compiler: always
	@mkdir -p target/c
	@printf '%s\n' "$$CC" "$$CFLAGS" "$$LDFLAGS" | cmp -s - $@ || printf '%s\n' "$$CC" "$$CFLAGS" "$$LDFLAGS" >$@

target/c/week: c/demo/week.c include/midici_pe.h $(LIBRARY) target/c/compiler
	@$(C99) c/demo/week.c $(LIBRARY) $(LDFLAGS) -o $@

target/c/week_sanitized: c/demo/week.c include/midici_pe.h $(LIBRARY) target/c/compiler
	@$(SANITIZED) c/demo/week.c $(LIBRARY) $(LDFLAGS) -o $@

target/c/exports: $(TESTS) $(HEADERS) $(LIBRARY) target/c/compiler
	@$(C99) $(TESTS) $(LIBRARY) $(LDFLAGS) -o $@

target/c/exports_sanitized: $(TESTS) $(HEADERS) $(LIBRARY) target/c/compiler
	@$(SANITIZED) $(TESTS) $(LIBRARY) $(LDFLAGS) -o $@

target/c/bodies: c/test/syx/bodies.c include/midici_pe.h $(LIBRARY) target/c/compiler
	@$(C99) c/test/syx/bodies.c $(LIBRARY) $(LDFLAGS) -o $@

target/c/answers: c/test/json/answers.c include/midici_pe.h $(LIBRARY) target/c/compiler
	@$(C99) c/test/json/answers.c $(LIBRARY) $(LDFLAGS) -o $@

target/c/tape_calls: bench/tape_calls.c include/midici_pe.h $(LIBRARY) target/c/compiler
	@$(C99) bench/tape_calls.c $(LIBRARY) $(LDFLAGS) -o $@

target/c/readme: README.md include/midici_pe.h $(LIBRARY) target/c/compiler
	@sed -n '/^```c$$/,/^```$$/{/^```/!p}' README.md >target/c/readme.c
	@$(C99) target/c/readme.c $(LIBRARY) $(LDFLAGS) -o $@

always:

# Two targets at once (make -j) are made one after the other: both may run rt, which works in target/.
.NOTPARALLEL:
.PHONY: help test edits examples compare bench vectors lib tape install uninstall clean sizes readme run test-c tested-c sanitized-c fuzz always
