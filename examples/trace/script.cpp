#include "script.hpp"

#include <charconv>
#include <fstream>
#include <iterator>

namespace trace {

namespace {

constexpr std::uint64_t kByte = 0xFFu, kIdentifier = 0xFFFFFFFFu, kEntry = 0xFFFFFFFFFFFFFFFFu, kNone = 0;

// A step's name, and the greatest number that fits the width of each operand.
struct Form {
  std::string_view name;
  dvs::StepKind kind;
  std::uint64_t first, second;
};
constexpr Form kForms[] = {
    {"create", dvs::StepKind::create, kIdentifier, kByte},
    {"join", dvs::StepKind::join, kByte, kIdentifier},
    {"pass", dvs::StepKind::pass, kByte, kNone},
    {"order", dvs::StepKind::order, kByte, kIdentifier},
    {"deliver", dvs::StepKind::deliver, kByte, kNone},
    {"attempt", dvs::StepKind::attempt, kByte, kNone},
    {"register", dvs::StepKind::register_view, kByte, kNone},
    {"send", dvs::StepKind::send, kByte, kEntry},
    {"hand", dvs::StepKind::hand, kByte, kNone},
    {"tell", dvs::StepKind::tell, kByte, kNone},
    {"safe", dvs::StepKind::safe, kByte, kNone},
    {"collect", dvs::StepKind::collect, kByte, kNone},
};

// Decimal without leading zeros, and not above `most`.
std::optional<std::uint64_t> numeral(std::string_view digits, std::uint64_t most) {
  std::uint64_t value = 0;
  const char *const end = digits.data() + digits.size();
  const auto [stop, fault] = std::from_chars(digits.data(), end, value);
  const bool leading = digits.size() > 1 && digits[0] == '0';
  if (fault != std::errc() || stop != end || leading || value > most) return std::nullopt;
  return value;
}

// The parts between single separators; two in a row have an empty part between them, which is neither a name nor a numeral.
std::vector<std::string_view> split(std::string_view text, char separator) {
  std::vector<std::string_view> parts;
  for (std::size_t at = text.find(separator); at != std::string_view::npos; at = text.find(separator)) {
    parts.push_back(text.substr(0, at));
    text.remove_prefix(at + 1);
  }
  parts.push_back(text);
  return parts;
}

std::optional<Command> start_in(const std::vector<std::string_view> &words) {
  if (words.size() != 3) return std::nullopt;
  const auto members = numeral(words[1], kByte), first = numeral(words[2], kByte);
  if (!members || !first) return std::nullopt;
  return Start{static_cast<std::uint32_t>(*members), dvs::Set(static_cast<std::uint32_t>(*first))};
}

std::optional<Command> step_in(const Form &form, const std::vector<std::string_view> &words) {
  const bool two = form.second != kNone;
  if (words.size() != (two ? 3u : 2u)) return std::nullopt;
  const auto first = numeral(words[1], form.first), second = two ? numeral(words[2], form.second) : std::uint64_t{0};
  if (!first || !second) return std::nullopt;
  return dvs::Step{form.kind, static_cast<std::uint32_t>(*first), *second};
}

}  // namespace

std::optional<Command> command_in(std::string_view line) {
  const std::vector<std::string_view> words = split(line, ' ');
  if (words[0] == "group") return start_in(words);
  for (const Form &form : kForms)
    if (words[0] == form.name) return step_in(form, words);
  return std::nullopt;
}

std::optional<dvs::Set> set_in(std::string_view words) {
  if (const auto number = numeral(words, kByte)) return dvs::Set(static_cast<std::uint32_t>(*number));
  if (words.size() < 2 || words.front() != '{' || words.back() != '}') return std::nullopt;
  const std::string_view inside = words.substr(1, words.size() - 2);
  dvs::Set set;
  if (inside.empty()) return set;
  for (std::string_view part : split(inside, ',')) {
    const auto member = numeral(part, kByte);
    if (!member) return std::nullopt;
    set = set.with(dvs::Member{static_cast<std::uint32_t>(*member)});
  }
  return set;
}

std::optional<std::vector<std::string>> lines_of(const char *file) {
  std::ifstream in(file, std::ios::binary);
  std::vector<std::string> lines;
  for (std::string line; std::getline(in, line);) lines.push_back(line);
  // A file that cannot be opened, or a directory, has not been read to its end.
  if (!in.eof() || in.bad()) return std::nullopt;
  return lines;
}

}  // namespace trace
