# Thin names for the commands that matter. Plain make names them.
.PHONY: help test run clean
help:
	@echo "make run       a group on the bench: a split in which one part goes on. The bench is proved first"
	@echo "make lib       the library for C and C++, target/staticlib/libdvs.a, every proof of it first: 5 to 10 minutes"
	@echo "make install   it, its headers and documents, to PREFIX"
	@echo "make test      everything that has to hold: some 20 minutes, or 40 from nothing"
	@echo "README.md has the other targets, CONTRIBUTING.md how a change is made."

# The gate: everything that has to hold. Every proof, every must-fail edit and every program, a line for each; then the tests from outside and the wrong
# answers of the gate's list.
test:
	SHORT=1 .ci/run

# The bench on the README's session, in which a group splits: each line and its answer, of which `all` has none.
SESSION := tests/scripts/readme-session
run: target/bin/bench
	@cat $(SESSION).figure
	@echo
	@$< < $(SESSION).txt > $<.out
	@{ echo; cat $<.out; } | paste $(SESSION).txt - | expand -t 20
	@diff $(SESSION).out $<.out
	@echo
	@echo "README.md explains each line. What ran was proved before it was built; make test proves and tries all there is."
	@echo "To type lines: $<. Begin with the line all, or refusals are not shown."

clean:
	rm -rf target

# ---- the library

# For programs in C and C++, proved before it is written. A program in C includes dvs.h, one in C++ dvs.hpp.
.PHONY: lib
HEADERS := $(wildcard include/*.h include/*.hpp)
SOURCES := crates.txt $(shell find crates -name out -prune -o \( -name '*.rt' -o -name '*.antt' \) -print)
# What the tests below are of. Programs over the library stand beside it.
BUILT := target/staticlib
LIBRARY := $(BUILT)/libdvs.a
lib: target/staticlib/libdvs.a
target/staticlib/libdvs.a: $(SOURCES)
	.ci/prove lib dvs

# For operators: dvs-show BOOK says what a book holds and whom it waits for. It is linked with the library, so its verdicts are the library's own.
.PHONY: show
show: $(BUILT)/dvs-show
$(BUILT)/dvs-show: tools/dvs-show.cpp $(HEADERS) $(LIBRARY)
	$(CXX) $(HOSTFLAGS) -o $@ $< $(LIBRARY)

# The library, its headers, dvs-show, what is written for its hosts, and its files for pkg-config and CMake, to PREFIX; DESTDIR goes before it, for those who
# make a package. The version is here alone; tests/checks/header_check.py holds the header and the library to it.
.PHONY: install
PREFIX ?= /usr/local
VERSION := 0.6.0
HOST_DOCUMENTS := $(wildcard $(addprefix docs/,HOST.md LAYOUT.md REFUSALS.md SPEC.md))
CMAKE_FILES := dvsConfig.cmake dvsConfigVersion.cmake
install: $(LIBRARY) $(BUILT)/dvs-show
	mkdir -p target/package
	for file in dvs.pc $(CMAKE_FILES); do \
	    sed -e 's|@PREFIX@|$(PREFIX)|' -e 's|@VERSION@|$(VERSION)|' include/$$file.in > target/package/$$file || exit 1; \
	done
	install -d $(addprefix $(DESTDIR)$(PREFIX)/,bin include lib/pkgconfig lib/cmake/dvs share/doc/dvs)
	install -m 755 $(BUILT)/dvs-show $(DESTDIR)$(PREFIX)/bin
	install -m 644 $(HEADERS) $(DESTDIR)$(PREFIX)/include
	install -m 644 $(LIBRARY) $(DESTDIR)$(PREFIX)/lib
	install -m 644 target/package/dvs.pc $(DESTDIR)$(PREFIX)/lib/pkgconfig
	install -m 644 $(addprefix target/package/,$(CMAKE_FILES)) $(DESTDIR)$(PREFIX)/lib/cmake/dvs
	install -m 644 $(HOST_DOCUMENTS) CHANGELOG.md $(DESTDIR)$(PREFIX)/share/doc/dvs

# A host of the library: eight offices over a carrier of their own, and what they print beside what they should.
.PHONY: offices
HOSTFLAGS := -std=c++17 -O2 -Wall -Wextra -Wpedantic -Wconversion -Wshadow -Werror -Iinclude
$(BUILT)/offices: $(wildcard examples/offices/*.?pp) $(HEADERS) $(LIBRARY)
	$(CXX) $(HOSTFLAGS) -o $@ $(wildcard examples/offices/*.cpp) $(LIBRARY)
offices: $(BUILT)/offices
	$< > $<.txt; status=$$?; cat $<.txt; exit $$status
	diff examples/offices/expected.txt $<.txt

# A script of the bench, a set, and the views that the set crosses, as text and as a picture: the stored story beside what it should give. Then the bench's
# scripts and their stored answers, and pictures in which nothing may overlap.
.PHONY: trace
$(BUILT)/trace: $(wildcard examples/trace/*.?pp) $(HEADERS) $(LIBRARY)
	$(CXX) $(HOSTFLAGS) -o $@ $(wildcard examples/trace/*.cpp) $(LIBRARY)
trace: $(BUILT)/trace
	$< '{1,3}' examples/trace/story.txt $<.svg > $<.txt; status=$$?; cat $<.txt; exit $$status
	diff examples/trace/expected.txt $<.txt
	diff examples/trace/expected.svg $<.svg
	python3 tests/trace/trace_check.py $<

# A host that keeps its book in a file: its offices are processes, which are stopped at every action and killed at any time, and what they publish is judged
# by Figure 1.
.PHONY: kept
KEPT := $(wildcard examples/kept/*.cpp tests/kept/*.cpp)
$(BUILT)/kept: $(KEPT) $(wildcard examples/kept/*.hpp tests/kept/*.hpp) $(HEADERS) $(LIBRARY)
	$(CXX) $(HOSTFLAGS) -Iexamples/kept -o $@ $(KEPT) $(LIBRARY)
kept: $(BUILT)/kept
	tests/kept/kept.sh $<

# What comes of it if a host breaks a duty of docs/HOST.md: its stories beside what they should tell.
.PHONY: duties
$(BUILT)/duties: tests/duties/duties.cpp tests/duties/offices.hpp include/dvs.h $(LIBRARY)
	$(CXX) $(HOSTFLAGS) -o $@ $< $(LIBRARY)
duties: $(BUILT)/duties
	$< > $<.txt; status=$$?; cat $<.txt; exit $$status
	diff tests/duties/expected.txt $<.txt

# ---- tests from outside

CXXFLAGS := -std=c++17 -O2 -Wall -Wextra -Werror

# The headers: their numbers beside the sources', and each by itself, in each version of C and C++ and with each compiler that is here.
.PHONY: headers
headers:
	python3 tests/checks/header_check.py
	tests/outside/headers.sh

# The library beside a plain implementation in C++: every length, limit and refusal, and random cases. Once with the host's code sanitized. Then the
# driver and the queries, which the bench has no lines for, beside the reference in Python, by random scripts.
.PHONY: outside
REFERENCE := tests/reference/reference_group.hpp tests/reference/refusals.inc
OUTSIDE := $(wildcard tests/outside/*.hpp tests/outside/*.cpp tests/outside/*.inc) $(REFERENCE) include/dvs.h
OUTSIDE_FLAGS := $(CXXFLAGS) -Wpedantic
outside: $(BUILT)/outside_test $(BUILT)/outside_test_sanitized
	$(BUILT)/outside_test_sanitized short 1 > $(BUILT)/outside_sanitized.log || { cat $(BUILT)/outside_sanitized.log; false; }
	$(BUILT)/outside_test short 2
	python3 tests/reference/compare.py forms 3 20000 "$(BUILT)/outside_test lines"
$(BUILT)/outside_test: $(OUTSIDE) $(LIBRARY)
	$(CXX) $(OUTSIDE_FLAGS) -o $@ tests/outside/outside_test.cpp $(LIBRARY)
$(BUILT)/outside_test_sanitized: $(OUTSIDE) $(LIBRARY)
	$(CXX) $(OUTSIDE_FLAGS) -O1 -g -fsanitize=address,undefined -fno-sanitize-recover=all -o $@ tests/outside/outside_test.cpp $(LIBRARY)

# The same for as long as one likes: make fuzz SECONDS=60 SEED=1.
.PHONY: fuzz
SECONDS := 60
SEED := 1
fuzz: $(BUILT)/outside_test
	$(BUILT)/outside_test fuzz $(SECONDS) $(SEED)

# The C++ wrapper and the examples, installed and linked by pkg-config: the wrapper with every compiler here, in C++17 and C++20 and with sanitizers; by
# CMake, where it is here; and the archive in a shared object.
.PHONY: wrapper
wrapper: $(LIBRARY)
	tests/wrapper/wrapper.sh

# The wrong answers that the gate leaves out for time; the gate's: python3 tests/checks/edits.py --gate; both: --all.
.PHONY: edits
edits:
	python3 tests/checks/edits.py

# ---- plain implementations beside the bench

# The plain references of the group and of the member by itself, the scripts' and the message vectors' answers, each against its own cases.
.PHONY: reference
reference:
	python3 tests/reference/reference_cases.py
	python3 tests/reference/references_agree.py 1 20000
	python3 tests/reference/member_reference.py check crates/test_stories/stdin
	python3 tests/reference/group_script.py check crates/test_group/stdin
	python3 tests/reference/wire_vectors.py check
	python3 tests/scripts/bench_stdin.py check

# The group and the bench as a plain C++ program, with refusal 4's check in every step and without.
.PHONY: reference-cpp
reference-cpp: target/reference target/reference-unchecked
target/reference: tests/reference/reference.cpp $(REFERENCE)
	mkdir -p target
	$(CXX) $(CXXFLAGS) -o $@ $<
target/reference-unchecked: tests/reference/reference.cpp $(REFERENCE)
	mkdir -p target
	$(CXX) $(CXXFLAGS) -DNO_CHECK -o $@ $<

# The benches beside each other: every script with its answers, a random script, and others sent line by line, some in pieces too, with `all` before them
# and without; what fails.
.PHONY: compare
BENCH := target/bin/bench
compare: $(BENCH) reference-cpp
	python3 tests/reference/compare.py corpus tests/scripts $(BENCH) target/reference target/reference-unchecked
	python3 tests/reference/compare.py random 1 20000 $(BENCH) target/reference target/reference-unchecked
	python3 tests/reference/compare.py live 2 2000 $(BENCH)
	python3 tests/scripts/bench_waits.py $(BENCH)
	python3 tests/scripts/bench_fails.py $(BENCH)
target/bin/bench: $(SOURCES)
	.ci/prove program bench

# ---- the strength of the tests, and the benchmark

include tests/strength/rules.mk
include tests/benchmark/rules.mk
