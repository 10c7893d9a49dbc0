#include "story.hpp"

#include "firm.hpp"

#include <cstdio>

namespace offices {

namespace {

constexpr Mark kMarks[] = {{'B', 12}, {'C', 4}, {'R', 3}};
constexpr unsigned kChanges = 64, kEvery = 8;

// Each office falls into one of up to three parts.
std::vector<dvs::Set> any_parts(Chance &chance) {
  std::vector<dvs::Set> parts(1 + chance.below(3));
  for (dvs::Member office : everyone()) {
    dvs::Set &part = parts[chance.below(static_cast<unsigned>(parts.size()))];
    part = part.with(office);
  }
  std::vector<dvs::Set> some;
  for (dvs::Set part : parts)
    if (!part.empty()) some.push_back(part);
  return some;
}

// One draw to a statement: C++ leaves open in which order a call's operands are drawn.
void any_wish(Firm &firm, Chance &chance) {
  Office &office = firm[chance.below(kOffices)];
  const Mark mark = kMarks[chance.below(3)];
  const unsigned width = 40 + chance.below(60);
  const unsigned depth = 100 + chance.below(200);
  office.wish(mark, {width, depth}, Verdict::resized);
}

void print(const Firm &firm, unsigned changes) {
  const Tally sum = firm.tally();
  const dvs::Set working = firm.working();
  std::printf("    %7u %10u %10u %8u %12u %12u %9u   %s\n", changes, firm.watch().views_attempted(), sum.accepted, sum.refused,
              sum.only_by_old_program, firm.watch().lines_safe(), sum.too_late, working.empty() ? "nobody" : initials(working).c_str());
}

}  // namespace

void season() {
  std::printf("A season\n========\n\n");
  std::printf("The lines fail and return %u times by chance, often before the offices have come to rest; packets are lost and late.\n"
              "At every event it is checked that attempted views share an office unless a registered one lies between, that every view\n"
              "hands out one order, that what is safe is in every office of its view, and that no safe line is lost; after every change\n"
              "of the lines, that all who work then work in one view.\n\n",
              kChanges);
  std::printf("    %7s %10s %10s %8s %12s %12s %9s   %s\n", "changes", "primary", "attempts", "refused", "of them old", "lines that", "stopped",
              "work now");
  std::printf("    %7s %10s %10s %8s %12s %12s %9s\n", "of line", "views", "accepted", "by 21", "rule passes", "became safe", "by 41");

  Chance chance(1962);
  Firm firm(2026, dvs::Set::below(5), Rule::service);
  for (unsigned change = 1; change <= kChanges; ++change) {
    const unsigned lost = chance.below(40), late = chance.below(40);
    firm.carrier().weather(lost, late);
    for (dvs::Member office : everyone()) firm.carrier().hold(office, chance.percent(6));
    firm.connect(any_parts(chance));
    for (unsigned wishes = chance.below(3); wishes > 0; --wishes) any_wish(firm, chance);
    if (chance.percent(40)) {
      firm.run();
    } else {
      for (unsigned rounds = chance.below(40); rounds > 0; --rounds) firm.round();
    }
    expect(firm.primaries().size() <= 1, "all who work now work in one view");
    if (change % kEvery == 0) print(firm, change);
  }

  for (dvs::Member office : everyone()) firm.carrier().hold(office, false);
  firm.carrier().weather(0, 0);
  firm.connect({dvs::Set::below(kOffices)});
  firm.run();
  std::printf("\nAt the end all lines are back, and all eight have the same register, every line of it safe:\n\n");
  firm.print();
  expect(firm.working() == dvs::Set::below(kOffices), "all work in one view");
  for (unsigned i = 0; i < kOffices; ++i) {
    for (const auto &[mark, line] : firm[i].marks())
      expect(line.stamp == firm[0].marks().at(mark).stamp && line.safe, "all have one register, and every line is safe");
  }
}

}  // namespace offices
