// The language of the bench (docs/SPEC.md, 'The bench'), as far as a script needs it: lines that start a group, and lines that are its steps.
#pragma once

#include <dvs.hpp>

#include <optional>
#include <string>
#include <string_view>
#include <variant>
#include <vector>

namespace trace {

struct Start {
  std::uint32_t members = 0;
  dvs::Set first{};
};
using Command = std::variant<Start, dvs::Step>;

// What a line says, or none if it is unreadable. The bench's limit of 64 bytes needs no test: its longest readable line has 29.
std::optional<Command> command_in(std::string_view line);

// The set that the caller asks about: a number as the bench takes it, 7, or its members, {0,1,2}. None if it is neither. Whether the group has these members
// is for the library to say.
std::optional<dvs::Set> set_in(std::string_view words);

// The lines of a file without the bytes that end them, or none if it cannot be read.
std::optional<std::vector<std::string>> lines_of(const char *file);

}  // namespace trace
