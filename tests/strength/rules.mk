# Included by the Makefile, after its tests from outside: whether those tests, and the tests of the bench, report what is wrong.

# One fault after another put into the library's calls, and one wrong driver after another: the test from outside must report each.
.PHONY: outside-selftest
WRAPPED = $(shell sed -nE 's/^uint(32|64)_t (dvs_[a-z_]*).*/\2/p' include/dvs.h)
outside-selftest: target/outside_wrong
	tests/strength/run.sh target/outside_wrong
target/outside_wrong: $(OUTSIDE) $(wildcard tests/strength/*.?pp) $(LIBRARY)
	$(CXX) $(OUTSIDE_FLAGS) $(WRAPPED:%=-Wl,--wrap=%) -o $@ tests/outside/outside_test.cpp tests/strength/wrong.cpp $(LIBRARY)

# One rule after another of the plain implementation changed: the test must find a difference each time. Some ten minutes.
.PHONY: outside-strength
outside-strength: $(LIBRARY)
	python3 tests/strength/changed_rules.py $(LIBRARY)

# One fault after another put into the bench: the prover or its tests must see each.
.PHONY: bench-strength
bench-strength:
	python3 tests/strength/wrong_benches.py
