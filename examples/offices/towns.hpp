// The offices by name: their towns, and sets and views by the towns' initials.
#pragma once

#include "carrier.hpp"

#include <string>

namespace offices {

inline constexpr std::array<const char *, kOffices> kTowns = {"Ruskmoor",   "Aldersea",  "Halden",     "Fernworth",
                                                              "Kettlemere", "Thornholm", "Brackwater", "Millhythe"};
constexpr dvs::Member kRuskmoor{0}, kAldersea{1}, kHalden{2}, kFernworth{3}, kKettlemere{4}, kThornholm{5}, kBrackwater{6}, kMillhythe{7};

inline const char *town(dvs::Member office) { return kTowns[dvs::number(office)]; }

// The initials of a set's towns, in the offices' order.
inline std::string initials(dvs::Set set) {
  std::string letters;
  for (dvs::Member office : set) letters += town(office)[0];
  return letters;
}
inline std::string name(dvs::View view) { return std::to_string(dvs::number(view.identifier)) + " " + initials(view.set); }
inline std::string name(const std::optional<dvs::View> &view) { return view ? name(*view) : "none"; }
inline std::string name(const dvs::ViewList &views) {
  std::string list;
  for (const dvs::View &view : views) list += (list.empty() ? "" : ", ") + name(view);
  return list.empty() ? "-" : list;
}

}  // namespace offices
