#include "firm.hpp"

#include <algorithm>
#include <cstdio>

namespace offices {

namespace {

// "yes", or why not.
std::string primary(const Office &office) {
  if (office.works()) return "yes";
  if (!office.book().carrier()) return "no line yet";
  return "no, " + std::to_string(dvs::number(office.answer()));
}

}  // namespace

Firm::Firm(std::uint64_t seed, dvs::Set first, Rule rule) : parts_{first}, carrier_(seed, first), watch_(first, rule) {
  for (dvs::Member own : everyone()) offices_.emplace_back(own, town(own), first, rule);
}

void Firm::connect(const std::vector<dvs::Set> &parts) {
  parts_ = parts;
  carrier_.connect(parts);
  for (dvs::Set part : parts)
    if (!has_one_view(part)) give_view(part);
}

void Firm::give_view(dvs::Set part) {
  const dvs::View view = carrier_.form(part);
  for (dvs::Member office : everyone()) {
    if (!part.has(office)) continue;
    carrier_.enter(office, view);
    offices_[dvs::number(office)].enter(view);
  }
}

bool Firm::has_one_view(dvs::Set part) const {
  std::optional<dvs::View> one;
  for (dvs::Member office : everyone()) {
    if (!part.has(office)) continue;
    const std::optional<dvs::View> view = offices_[dvs::number(office)].book().carrier();
    if (!view || view->set != part || (one && *one != *view)) return false;
    one = view;
  }
  return true;
}

bool Firm::round() {
  carrier_.carry();
  bool moved = false;
  for (Office &office : offices_) moved |= office.turn(carrier_, watch_);
  return moved;
}

void Firm::run() {
  for (int rounds = 0;; ++rounds) {
    expect(rounds < 10000, "the offices come to rest");
    if (round() || !carrier_.quiet()) continue;
    bool rest = true;
    for (dvs::Set part : parts_) {
      const auto everybody = everyone();
      if (std::none_of(everybody.begin(), everybody.end(), [&](dvs::Member office) { return part.has(office) && carrier_.full(office); })) continue;
      give_view(part);
      rest = false;
    }
    if (rest) return;
  }
}

std::vector<dvs::View> Firm::primaries() const {
  std::vector<dvs::View> views;
  for (const Office &office : offices_) {
    if (!office.works()) continue;
    const dvs::View view = *office.book().client();
    if (std::find(views.begin(), views.end(), view) == views.end()) views.push_back(view);
  }
  return views;
}

dvs::Set Firm::working() const {
  dvs::Set set;
  for (dvs::Member office : everyone())
    if (offices_[dvs::number(office)].works()) set = set.with(office);
  return set;
}

Tally Firm::tally() const {
  Tally sum;
  for (const Office &office : offices_) {
    sum.accepted += office.tally().accepted;
    sum.refused += office.tally().refused;
    sum.only_by_old_program += office.tally().only_by_old_program;
    sum.too_late += office.tally().too_late;
  }
  return sum;
}

void Firm::print() const {
  std::printf("    %-11s %-13s %-12s %-13s %-13s %-9s", "office", "carrier view", "primary", "client view", "settled", "open");
  for (const auto &[mark, line] : offices_[0].marks()) std::printf(" %-13s", name(mark).c_str());
  std::printf(" tray\n");
  for (const Office &office : offices_) {
    const dvs::BookReader book = office.book();
    std::printf("    %-11s %-13s %-12s %-13s %-13s %-9s", office.town(), name(book.carrier()).c_str(), primary(office).c_str(),
                name(book.client()).c_str(), name(book.settled()).c_str(), name(book.open()).c_str());
    for (const auto &[mark, line] : office.marks())
      std::printf(" %-13s", (name(line.section) + (line.safe ? "" : " unsafe")).c_str());
    std::printf(" %zu\n", office.in_tray());
  }
  std::printf("\n");
}

}  // namespace offices
