// How the cost of one accepted step of a group grows with what its records hold.
#include <iterator>
#include <memory>

#include "growing.hpp"

namespace benchmark {

namespace {

constexpr unsigned kMade[] = {1, 2, 4, 8, 16, 32};
constexpr unsigned kHeld[] = {0, 16, 64, 128};

void table(unsigned members) {
  // One copy of the group for each place of the table, by columns, so that all of them take turns.
  std::vector<std::unique_ptr<Growing>> places;
  for (unsigned held : kHeld) {
    Growing group(members, held, DVS_VIEWS);
    for (unsigned made = 1; made <= DVS_VIEWS; ++made) {
      if (made > 1) group.next_view();
      if (std::count(std::begin(kMade), std::end(kMade), made)) places.push_back(std::make_unique<Growing>(group));
    }
  }
  std::vector<Run> runs;
  for (auto& place : places) runs.push_back(place->send());
  constexpr size_t kRows = std::size(kMade), kCells = kRows * std::size(kHeld);
  Growing &few = *places[kRows], &many = *places[kCells - 1];
  for (Run run : {few.order(), many.order(), few.hand(), many.hand(), few.structs_send(), many.structs_send()})
    runs.push_back(run);
  std::vector<Times> times = measure(kCalls, runs);
  auto ns = [&](size_t i) { return times[i].best(); };

  printf("\nA send in a group of %u, by views made (down) and messages ordered in each (across): times the smallest,\n"
         "and ns\n    ", members);
  for (unsigned held : kHeld) printf("  %16u", held);
  double smallest = ns(0);
  for (size_t i = 0; i < kCells; ++i) smallest = std::min(smallest, ns(i));
  for (size_t made = 0; made < kRows; ++made) {
    printf("\n%4u", kMade[made]);
    for (size_t i = made; i < kCells; i += kRows) printf("  %7.1f %8.0f", ns(i) / smallest, ns(i));
  }
  const char* const names[] = {"order", "hand", "the structs' send"};
  printf("\nFrom 1 view with 16 messages to 32 with 128: send %.0f to %.0f ns", ns(kRows), ns(kCells - 1));
  for (size_t i = 0; i < 3; ++i) printf(", %s %.0f to %.0f", names[i], ns(kCells + 2 * i), ns(kCells + 2 * i + 1));
  printf(";\nin the end the library's send is %.2f times the structs'. One more view with a full order costs %.0f ns\n",
         ns(kCells - 1) / ns(kCells + 5),
         (ns(kCells - 1) - ns(kCells - kRows)) / (kMade[kRows - 1] - kMade[0]));
  fflush(stdout);
}

void small_groups() {
  head("A send in a small group, one view with 16 messages. structs: as above.", with_before({"library", "structs"}));
  for (unsigned members : {2u, 8u}) {
    Growing group(members, 16, DVS_VIEWS);
    std::vector<Run> sides = {group.send(), group.structs_send()};
    if (kBefore) sides.push_back(group.before_send());
    row("a group of " + std::to_string(members), measure(kCalls, sides));
  }
}

void by_room() {
  std::vector<std::unique_ptr<Growing>> groups;
  std::vector<Run> runs;
  for (unsigned room : {1u, 8u, 32u}) {
    groups.push_back(std::make_unique<Growing>(5, 16, room));
    runs.push_back(groups.back()->send());
  }
  std::vector<Times> times = measure(kCalls, runs);
  printf("\nA send in a group of five, one view made and 16 messages, by the views that the list has room for:\n"
         "1 view %.0f ns, 8 views %.0f ns, 32 views %.0f ns\n",
         times[0].best(), times[1].best(), times[2].best());
}

// The most that sound bytes can hold, which no steps lead to: eight members, 32 views made and open, every queue full
// and every message in it an info of all of them. What is timed is a step that is refused behind refusal 4.
void fullest() {
  constexpr unsigned kAll = (1u << DVS_MEMBERS) - 1;
  Ranges r(DVS_VIEWS);
  if (r.start(DVS_MEMBERS, kAll)) fail("a start is refused");
  for (unsigned i = 1; i < DVS_VIEWS; ++i)
    if (r.step({DVS_STEP_CREATE, i, kAll})) fail("a view is refused");
  const uint8_t* views = r.list.data();
  plain::Slot info;
  info.bytes[plain::kSlotKind] = DVS_INFO, info.bytes[plain::kSlotCount] = DVS_VIEWS;
  memcpy(info.bytes + plain::kSlotViews, views, DVS_LIST_SIZE(DVS_VIEWS));
  auto fill = [&info](auto queue, unsigned count) {
    while (queue.count() < count) {
      info.bytes[plain::kSlotSender] = static_cast<uint8_t>(queue.count() % DVS_MEMBERS);
      queue.push(info);
    }
  };
  for (unsigned i = 0; i < DVS_VIEWS; ++i) {
    fill(plain::Order{r.queues.data() + DVS_QUEUES_ORDER(i)}, DVS_ORDERED);
    for (unsigned p = 0; p < DVS_MEMBERS; ++p)
      fill(plain::Queue{r.queues.data() + DVS_QUEUES_WAITING(i, p)}, DVS_WAITING);
  }
  for (unsigned p = 0; p < DVS_MEMBERS; ++p) {
    uint8_t* book = r.books.data() + DVS_BOOK_SIZE * p;
    book[DVS_BOOK_OPENS] = DVS_OPEN;
    memcpy(book + DVS_BOOK_OPENS + 1, views + DVS_VIEW_SIZE, DVS_LIST_SIZE(DVS_OPEN));
    book[DVS_BOOK_TAKEN] = book[plain::kAtInward0] = book[plain::kAtInward1] = DVS_ORDERED;
    fill(plain::Queue{book + DVS_BOOK_OUTGOING}, DVS_OUTGOING);
  }
  auto refused = [](uint32_t answer) { return uint64_t{answer == DVS_REFUSED_UNKNOWN_STEP}; };
  std::vector<Times> times = measure(1, {[&] { return refused(r.step({0, 0, 0})); },
                                         [&] { return refused(r.step_independent({0, 0, 0})); }});
  printf("\nThe most that sound bytes can hold, every queue full of infos of 32 views: %.2f ms, by the plain\n"
         "implementation over the same bytes %.2f ms\n", times[0].best() / 1e6, times[1].best() / 1e6);
}

}  // namespace

void growth() {
  printf("\nWhat an accepted step costs by what the records hold, the best of %u rounds. The list has room for 32\n"
         "views. A view's order begins with infos and registrations, except the first view's; of the newest view the\n"
         "last message still waits.\n",
         kRounds);
  small_groups();
  table(2);
  table(8);
  by_room();
  fullest();
}

}  // namespace benchmark
