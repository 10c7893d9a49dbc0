#include "story.hpp"

#include "towns.hpp"
#include "watch.hpp"

#include <cstdio>
#include <memory>

namespace offices {

namespace {

constexpr dvs::Set kFirst = dvs::Set::below(5), kAll = dvs::Set::below(kOffices);
constexpr dvs::Set kNew{kThornholm, kBrackwater, kMillhythe}, kThree{kRuskmoor, kAldersea, kHalden}, kAnother{kRuskmoor, kAldersea, kMillhythe};

// The whole group in the operator's own memory, with the carrier that the library has between its members.
class Desk {
 public:
  Desk() : group_(*memory_), watch_(kFirst, Rule::service) { expect(group_.start(kOffices, kFirst).accepted(), "the group starts"); }

  // A new view, which nobody has joined.
  dvs::View make(dvs::Set set) {
    const dvs::View view{dvs::Identifier{group_.made()}, set};
    expect(group_.create(view).accepted(), "the view is made");
    return view;
  }

  // The view is formed by one call. Its events are known from the view. The call registers for every office of the view, so a host whose offices have
  // copies brings all of them up to date before it; the desk only tries a plan and has no copies.
  void form(dvs::View view) {
    const dvs::Result<std::size_t> steps = group_.form(view.identifier);
    expect(steps.accepted(), "the view is formed");
    const dvs::FormedEvents events(view);
    for (const dvs::Event &event : events) note(event);
    expect_settled(view);
    std::printf("   View %s: formed by one call, %zu steps with %zu events.\n", name(view).c_str(), *steps, events.size());
  }

  // The call is refused, and every byte is as it was.
  void refuse(dvs::View view, dvs::Refusal refusal) {
    const auto before = std::make_unique<Memory>(*memory_);
    expect(group_.form(view.identifier).refusal() == refusal, "the view is refused, by this number");
    expect(memory_->list == before->list && memory_->books == before->books && memory_->queues == before->queues, "nothing has changed");
    std::printf("   View %s: refused by %u (%s). Nothing has changed.\n", name(view).c_str(), dvs::number(refusal), dvs::text(refusal));
  }

  // The same steps one by one, in the order in which the call takes them.
  void form_by_hand(dvs::View view) {
    std::size_t steps = 0;
    const auto each = [&](auto step_of, unsigned times = 1) {
      for (dvs::Member office : view.set)
        for (unsigned i = 0; i < times; ++i, ++steps) {
          const dvs::Result<dvs::Event> event = group_.step(step_of(office));
          expect(event.accepted(), "the step is accepted");
          note(*event);
        }
    };
    const auto exchange = [&] {
      each(dvs::Step::pass);
      each([&](dvs::Member office) { return dvs::Step::order(office, view.identifier); });
      each(dvs::Step::deliver, view.set.count());
    };
    each([&](dvs::Member office) { return dvs::Step::join(office, view.identifier); });
    exchange();
    each(dvs::Step::attempt);
    each(dvs::Step::register_view);
    exchange();
    each(dvs::Step::collect);
    expect_settled(view);
    std::printf("   View %s: formed by hand, %zu steps.\n", name(view).c_str(), steps);
  }

  void print() const {
    std::printf("\n    %-11s %-13s %-13s %-13s %s\n", "office", "carrier view", "client view", "settled", "open");
    for (dvs::Member office : everyone()) {
      const dvs::BookReader book = group_.look(office);
      std::printf("    %-11s %-13s %-13s %-13s %s\n", town(office), name(book.carrier()).c_str(), name(book.client()).c_str(),
                  name(book.settled()).c_str(), name(book.open()).c_str());
    }
    std::printf("\n");
  }

 private:
  using Memory = dvs::GroupMemory<6>;

  void note(const dvs::Event &event) {
    if (event.kind == dvs::EventKind::attempted) watch_.attempted(event);
    if (event.kind == dvs::EventKind::registered) watch_.registered(event, design());
  }
  void expect_settled(dvs::View view) const {
    for (dvs::Member office : view.set)
      expect(group_.look(office).settled() == view && group_.look(office).open().empty(), "the view is settled, and nothing is open");
  }

  std::unique_ptr<Memory> memory_ = std::make_unique<Memory>();
  dvs::Group group_;
  Watch watch_;
};

}  // namespace

void desk() {
  std::printf("At the operator's desk\n======================\n\n"
              "The operator tries a plan before anybody drives out. The same eight offices are a whole group in the desk's memory, with\n"
              "the library's own carrier between them, and one call forms a view there: all of its steps are taken, or none.\n\n");
  Desk desk;
  std::printf("1. Five offices are in the first view. The three new ones are to join them.\n\n");
  const dvs::View all = desk.make(kAll);
  desk.form(all);
  desk.print();

  std::printf("2. The operator asks for the same view a second time.\n\n");
  desk.refuse(all, dvs::Refusal::view_not_fresh);

  std::printf("\n3. May Thornholm, Brackwater and Millhythe go on without the others? They are three of the eight of view 1.\n\n");
  const dvs::View fresh = desk.make(kNew);
  desk.refuse(fresh, dvs::Refusal::form_test_failed);

  std::printf("\n4. The first five may, and then three of these five. View 2 is not the newest any more.\n\n");
  desk.form(desk.make(kFirst));
  desk.form(desk.make(kThree));
  desk.refuse(fresh, dvs::Refusal::view_not_fresh);
  desk.print();

  std::printf("5. Ruskmoor and Aldersea, two of the three of view 4, want Millhythe with them. The call asks what each of them holds before\n"
              "   any step, and Millhythe still holds view 1, of which they are three of eight. Step by step it goes: by the infos Millhythe\n"
              "   hears that view 4 is settled, and lets go of view 1 before it attempts.\n\n");
  const dvs::View another = desk.make(kAnother);
  desk.refuse(another, dvs::Refusal::form_test_failed);
  desk.form_by_hand(another);
  desk.print();
}

}  // namespace offices
