// The history of a group as a picture.
#pragma once

#include "report.hpp"

#include <string>

namespace trace {

// A file in SVG.
std::string picture(const Told &told);

}  // namespace trace
