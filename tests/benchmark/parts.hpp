// The parts of the benchmark. Each compares the sides' answers once, then times them and prints its table.
#pragma once

#include "timing.hpp"

namespace benchmark {

void messages();
void members();
void packets();
void groups(const std::string& script);
void lists();
void forms();
void queries();
void lines(const std::string& script, const std::vector<std::string>& programs);
void growth();

}  // namespace benchmark
