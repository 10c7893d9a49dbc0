// Sets and views in words, for the table and the picture alike.
#pragma once

#include <dvs.hpp>

#include <string>
#include <string_view>

namespace trace {

inline std::string words(dvs::Identifier identifier) { return std::to_string(dvs::number(identifier)); }

inline std::string words(dvs::Set set) {
  std::string listed;
  for (dvs::Member member : set) listed += (listed.empty() ? "" : ",") + std::to_string(dvs::number(member));
  return "{" + listed + "}";
}

inline std::string words(dvs::View view) { return words(view.identifier) + " " + words(view.set); }

// How much of the view the set has: 2 of 3.
inline std::string share(dvs::Set set, dvs::View view) {
  return std::to_string((set & view.set).count()) + " of " + std::to_string(view.set.count());
}

// Text from outside, with a question mark for each byte that is not a printable character of ASCII: neither a terminal nor a picture is to obey it.
inline std::string printable(std::string_view text) {
  std::string shown(text);
  for (char &letter : shown)
    if (letter < ' ' || letter > '~') letter = '?';
  return shown;
}

// The same, cut to a length that a line has room for.
inline std::string printable(std::string_view text, std::size_t most) {
  return text.size() <= most ? printable(text) : printable(text.substr(0, most - 3)) + "...";
}

}  // namespace trace
