# Included by the Makefile, after the bench and the plain implementations: how the benchmark is built and run.

# What the library costs beside independent implementations in C++: messages, calls of the member, packets, calls of the group, lists of steps, views
# formed by one call, queries, lines of the bench, and how a step's cost grows with what the records hold. The others are compiled by LLVM too, if it is
# installed, and for speed: make benchmark BENCHMARK_CXX=g++ for another. With BEFORE=LIBRARY, the libdvs.a of an earlier version, its calls of the member
# and of the group are timed beside this one's; its layout may differ in the head of the queues alone.
.PHONY: benchmark
BENCHMARK_CXX := $(or $(shell command -v clang++),$(CXX))
BENCHMARK_DIR := $(BUILT)/benchmark/$(notdir $(BENCHMARK_CXX))$(if $(BEFORE),-before)
# For speed: at fixed places, for a loop's time changes by a sixth with where it happens to lie; and by tests where LLVM would jump by a message's kind,
# which is guessed wrong so often that a group of structs took four times as long.
BENCHMARK_FLAGS := -O3 -falign-functions=64 -falign-loops=32 -fno-jump-tables $(if $(BEFORE),-DBEFORE)
BENCHMARK_OBJECTS := $(patsubst tests/benchmark/%.cpp,$(BENCHMARK_DIR)/%.o,$(wildcard tests/benchmark/*.cpp))
STEADY := target/benchmark/steady.txt
benchmark: $(BENCHMARK_DIR)/benchmark $(BENCH) reference-cpp $(STEADY)
	$(BENCHMARK_DIR)/benchmark $(STEADY) $(BENCH) target/reference target/reference-unchecked
# The library too begins at a line of the cache: its shortest loop takes twice as long where it lies across two.
$(BENCHMARK_DIR)/libdvs.a: $(LIBRARY)
	mkdir -p $(BENCHMARK_DIR)
	objcopy --set-section-alignment .text=64 $< $@
$(BENCHMARK_DIR)/before.a: $(BEFORE)
	mkdir -p $(BENCHMARK_DIR)
	nm -g --defined-only $< | awk '/ T / { print $$3, "before_" $$3 }' > $@.names
	objcopy --set-section-alignment .text=64 --redefine-syms=$@.names $< $@
$(BENCHMARK_DIR)/benchmark: $(BENCHMARK_OBJECTS) $(BENCHMARK_DIR)/libdvs.a $(if $(BEFORE),$(BENCHMARK_DIR)/before.a)
	$(BENCHMARK_CXX) -o $@ $^
$(BENCHMARK_DIR)/%.o: tests/benchmark/%.cpp $(wildcard tests/benchmark/*.hpp tests/benchmark/*.inc) $(OUTSIDE)
	mkdir -p $(BENCHMARK_DIR)
	$(BENCHMARK_CXX) $(OUTSIDE_FLAGS) $(BENCHMARK_FLAGS) -c -o $@ $<
$(STEADY): tests/benchmark/steady_script.py
	mkdir -p target/benchmark
	python3 tests/benchmark/steady_script.py 60000 > $@
