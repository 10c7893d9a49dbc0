#include "story.hpp"

#include "firm.hpp"

#include <cstdio>

namespace offices {

namespace {

constexpr dvs::Set kFirst{kRuskmoor, kAldersea, kHalden, kFernworth, kKettlemere}, kAll = dvs::Set::below(kOffices);
constexpr dvs::Set kWest{kRuskmoor, kAldersea}, kEast{kHalden, kFernworth, kKettlemere}, kNew{kThornholm, kBrackwater, kMillhythe};
constexpr Mark kBeam{'B', 12}, kColumn{'C', 4}, kRafter{'R', 3};

void heading(const char *words) { std::printf("%s\n\n", words); }

// The same offices twice, with the same lines, weather and engineers: by the service, and by the old program's rule.
struct Firms {
  Firm now{873, kFirst, Rule::service}, old{873, kFirst, Rule::old_program};

  template <class Deed>
  void both(Deed deed) {
    deed(now);
    deed(old);
  }

  // What happens to both, told by the service's offices.
  template <class Deed>
  void chapter(const char *words, Deed deed) {
    heading(words);
    both(deed);
    now.print();
  }
};

Office &at(Firm &firm, dvs::Member office) { return firm[dvs::number(office)]; }

std::string say(const Line &line) {
  return name(line.section) + " " + name(line.verdict) + (line.safe && line.verdict != Verdict::designed ? ", safe" : "");
}

// Every office of the set got this answer to its attempt.
void expect_answer(const Firm &firm, dvs::Set set, dvs::Refusal answer, const char *words) {
  for (dvs::Member office : everyone())
    if (set.has(office)) expect(firm[dvs::number(office)].answer() == answer, words);
}

// Every office of the set has just this on the line, and it is safe.
void expect_safe(const Firm &firm, dvs::Set set, Mark mark, Section section, Verdict verdict) {
  for (dvs::Member office : everyone())
    if (set.has(office)) expect(say(firm[dvs::number(office)].marks().at(mark)) == say({section, verdict, {}, true}), "the line is safe in the view");
}

void side_by_side(const Firms &firms, dvs::Set set) {
  const auto beam = [](const Office &office) {
    return std::string(office.works() ? "works in " : "waits in ") + std::to_string(dvs::number(office.book().carrier()->identifier)) + ": " +
           say(office.marks().at(kBeam));
  };
  std::printf("    %-11s %-36s %s\n", "B12 at", "by this service", "by the old program");
  for (dvs::Member office : everyone()) {
    if (!set.has(office)) continue;
    const Office &now = firms.now[dvs::number(office)];
    std::printf("    %-11s %-36s %s\n", now.town(), beam(now).c_str(), beam(firms.old[dvs::number(office)]).c_str());
  }
  std::printf("\n");
}

void opening(Firms &firms) {
  firms.chapter("1. Five offices open the register. Kettlemere has checked column C4 and marks it adequate; the mark is safe in all five.\n"
                "   Three more offices have books, and no line yet.", [](Firm &firm) {
    at(firm, kKettlemere).wish(kColumn, {100, 100}, Verdict::adequate);
    firm.run();
    expect(firm.working() == kFirst, "the first view is a primary one");
    expect_safe(firm, kFirst, kColumn, {100, 100}, Verdict::adequate);
  });
}

void first_failure(Firms &firms) {
  firms.chapter("2. The line to Fernworth and Kettlemere fails. Ruskmoor, Aldersea and Halden are three of five and go on in view 1.\n"
                "   They all register in it. Then the line to Halden gets slow: it does not hear the others register, so Ruskmoor and\n"
                "   Aldersea settle view 1 while Halden still holds it open. Two of five get 21. Both programs decide so.", [](Firm &firm) {
    firm.connect({kWest.with(kHalden), {kFernworth, kKettlemere}});
    const Office &halden = at(firm, kHalden);
    firm.run_until([&] { return halden.works() && halden.book().registered(); });
    firm.carrier().hold(kHalden, true);
    firm.run();
    expect(firm.working() == kWest.with(kHalden), "three of five work");
    expect_answer(firm, {kFernworth, kKettlemere}, dvs::Refusal::test_failed, "two of five are refused by 21");
    for (dvs::Member office : {kRuskmoor, kAldersea})
      expect(at(firm, office).book().settled().identifier == dvs::Identifier{1} && at(firm, office).book().open().empty(), "view 1 is settled there");
    expect(halden.book().settled().identifier == dvs::Identifier{0} && halden.book().open().size() == 1, "Halden holds view 1 open");
  });
}

void second_failure(Firms &firms) {
  firms.chapter("3. The line fails again: Ruskmoor and Aldersea on one side, Halden, Fernworth and Kettlemere on the other. At Ruskmoor a\n"
                "   new load is found, and beam B12 must become 75x225. At Fernworth, which has not heard of it, an engineer finds B12\n"
                "   adequate at 63x175.", [](Firm &firm) {
    firm.carrier().hold(kHalden, false);
    firm.connect({kWest, kEast});
    firm.run();
    at(firm, kRuskmoor).wish(kBeam, {75, 225}, Verdict::resized);
    at(firm, kFernworth).wish(kBeam, {63, 175}, Verdict::adequate);
    firm.run();
    expect_safe(firm, kWest, kBeam, {75, 225}, Verdict::resized);
  });
  std::printf("   Halden, Fernworth and Kettlemere pass against the first view, 6 > 5, and fail against view 1, where Halden was one of\n"
              "   three, 2 > 3. The old program stopped at the first held view that passed. The service asks every one.\n\n");
  side_by_side(firms, kFirst);

  expect(firms.now.primaries().size() == 1 && firms.now.working() == kWest, "one primary view, of Ruskmoor and Aldersea");
  expect_answer(firms.now, kEast, dvs::Refusal::test_failed, "the other side is refused by 21");
  expect(at(firms.now, kFernworth).in_tray() == 1, "Fernworth's change waits");
  const std::vector<dvs::View> old = firms.old.primaries();
  expect(old.size() == 2 && old[0].set == kWest && old[1].set == kEast && (kWest & kEast).empty(), "the old program has two, which share no office");
  expect_safe(firms.old, kEast, kBeam, {63, 175}, Verdict::adequate);
  std::printf("   By the old program two groups that share no office work at once, and each reports its own B12 safe. By this service one\n"
              "   works. The other is refused by 21 (%s), and its change waits.\n\n",
              dvs::text(dvs::Refusal::test_failed));
}

void growth(Firms &firms) {
  firms.chapter("4. Thornholm, Brackwater and Millhythe get a line to Ruskmoor. The new view has all of the settled view 3, and the new\n"
                "   offices take over its lines.", [](Firm &firm) {
    firm.connect({kWest | kNew, kEast});
    firm.run();
    expect_safe(firm, kWest | kNew, kBeam, {75, 225}, Verdict::resized);
  });
  expect(firms.now.working() == (kWest | kNew), "the primary view grows");
}

void reunion(Firms &firms) {
  firms.chapter("5. All lines are back. The eight offices bring their lines, and the latest of each counts. Fernworth's change was made on\n"
                "   a line that is no more: it is not sent and comes back to the engineer. Millhythe re-sizes rafter R3.", [](Firm &firm) {
    firm.connect({kAll});
    firm.run();
    at(firm, kMillhythe).wish(kRafter, {50, 175}, Verdict::resized);
    firm.run();
    expect(firm.primaries().size() == 1 && firm.working() == kAll, "all work in one view");
    expect_safe(firm, kAll, kRafter, {50, 175}, Verdict::resized);
  });
  const Office &fernworth = at(firms.now, kFernworth);
  for (const Wish &wish : fernworth.come_back())
    std::printf("   To Fernworth's engineer: %s %s %s was not sent; the line now says: %s.\n\n", name(wish.mark).c_str(),
                name(wish.section).c_str(), name(wish.verdict), say(fernworth.marks().at(wish.mark)).c_str());
  expect(fernworth.in_tray() == 0 && fernworth.come_back().size() == 1, "Fernworth's change comes back");
  expect_safe(firms.now, kAll, kBeam, {75, 225}, Verdict::resized);

  std::printf("   Of the old program's two primary views the later is taken for the latest, in good faith. The new section is gone from\n"
              "   every office, and the undersized beam is marked adequate:\n\n");
  side_by_side(firms, kAll);
  expect_safe(firms.old, kAll, kBeam, {63, 175}, Verdict::adequate);
  std::printf("   What the old program broke, seen from outside:\n");
  for (const std::string &words : firms.old.watch().broken()) std::printf("     - that %s\n", words.c_str());
  std::printf("   The rest is told of this service alone.\n\n");
  expect(firms.old.watch().broken().size() == 2 && firms.now.watch().broken().empty(), "the old program broke two rules, and the service none");
}

void half(Firm &firm) {
  heading("6. The line breaks in the middle, four and four. Exactly half is no majority: nobody works.");
  firm.connect({dvs::Set::below(4), kNew.with(kKettlemere)});
  firm.run();
  expect(firm.working().empty(), "nobody works in half");
  expect_answer(firm, kAll, dvs::Refusal::test_failed, "both halves are refused by 21");
  firm.print();

  heading("7. Kettlemere reaches the other half: five of eight work, and a new section for C4, found at Halden meanwhile, is sent.");
  at(firm, kHalden).wish(kColumn, {120, 120}, Verdict::resized);
  firm.run();
  expect(at(firm, kHalden).in_tray() == 1, "the change waits");
  firm.connect({kFirst, kNew});
  firm.run();
  expect(firm.working() == kFirst, "five of eight work");
  expect_safe(firm, kFirst, kColumn, {120, 120}, Verdict::resized);
  firm.print();
}

void end(Firm &firm) {
  heading("8. All lines are back for good. Twelve changes of rafter R3 follow each other through the day; from the fourth on B12 and C4\n"
          "   are re-sized with it, three changes in one packet. A view has 128 messages: of one such packet view 11 has room for the\n"
          "   first change alone. The offices go on in a new view, and the two that found no place are made good there.");
  firm.connect({kAll});
  firm.run();
  expect(firm.primaries().size() == 1 && firm.primaries()[0].identifier == dvs::Identifier{11}, "all work in view 11");
  expect_safe(firm, kAll, kColumn, {120, 120}, Verdict::resized);
  for (unsigned i = 1; i <= 12; ++i) {
    Office &office = firm[i % kOffices];
    const unsigned more = i > 3 ? 5 * i : 0;
    office.wish(kRafter, {50, 175 + 5 * i}, Verdict::resized);
    if (more > 0) office.wish(kBeam, {75, 225 + more}, Verdict::resized);
    if (more > 0) office.wish(kColumn, {120, 120 + more}, Verdict::resized);
    firm.run();
    expect_safe(firm, kAll, kRafter, {50, 175 + 5 * i}, Verdict::resized);
    expect_safe(firm, kAll, kBeam, {75, 225 + more}, Verdict::resized);
    expect_safe(firm, kAll, kColumn, {120, 120 + more}, Verdict::resized);
  }
  expect(firm.carrier().cut() == 1, "one packet had room in part");
  expect(firm.working() == kAll && firm.primaries()[0].identifier == dvs::Identifier{12}, "all work in view 12");
  firm.print();
  std::printf("   %zu messages went out in %zu packets. %u packets were lost on a line and sent again. %u came to an office that had left\n"
              "   their view, and were stopped by 41 at their first message.\n\n",
              firm.carrier().messages(), firm.carrier().packets(), firm.carrier().lost(), firm.tally().too_late);
}

}  // namespace

void story() {
  std::printf("Beam B12\n========\n\nViews are shown by identifier and the initials of their towns. A section that is not yet safe is marked.\n\n");
  Firms firms;
  firms.both([](Firm &firm) { firm.carrier().weather(15, 25); });
  opening(firms);
  first_failure(firms);
  second_failure(firms);
  growth(firms);
  reunion(firms);
  half(firms.now);
  end(firms.now);
}

}  // namespace offices
