// The member by itself, by direct calls: several members of one group, with a carrier that does nothing but keep what
// was passed until it is delivered.
#include <set>

#include "earlier.hpp"
#include "independent.hpp"
#include "parts.hpp"

namespace benchmark {

namespace {

constexpr unsigned kMost = 5;

struct Slip { uint8_t bytes[DVS_LONGEST]; uint32_t length; };

// The sets of tests/benchmark/steady_script.py: each has a majority of the one before.
constexpr uint32_t kSets[] = {31, 15, 31, 7, 31, 30, 14, 31};

// Books as bytes, by the library, by the independent implementation or by an earlier library.
#define CALLS(f) f(start) f(join) f(pass) f(deliver) f(attempt) f(send) f(hand) f(tell) f(safe) f(collect)
#define BY_INDEPENDENT(name) static constexpr auto name = independent::name;
struct Library { CALLS(BY_DVS) static constexpr auto enroll = dvs_register; };
struct Independent { CALLS(BY_INDEPENDENT) static constexpr auto enroll = independent::enroll; };
#ifdef BEFORE
extern "C" { CALLS(OF_BEFORE) OF_BEFORE(register) }
struct Before { CALLS(BY_BEFORE) static constexpr auto enroll = before_dvs_register; };
#else
using Before = Library;
#endif

template <class By> struct Books {
  uint8_t books[kMost][DVS_BOOK_SIZE], event[DVS_EVENT_SIZE];

  uint32_t start(unsigned p, uint32_t members, uint32_t set) {
    return By::start(books[p], DVS_BOOK_SIZE, members, set, p);
  }
  uint32_t join(unsigned p, uint32_t view, uint32_t set) { return By::join(books[p], DVS_BOOK_SIZE, view, set); }
  uint32_t pass(unsigned p, Slip& slip) {
    uint8_t length[DVS_LENGTH_SIZE] = {};
    uint32_t r = By::pass(books[p], DVS_BOOK_SIZE, slip.bytes, sizeof slip.bytes, length, sizeof length);
    slip.length = static_cast<uint32_t>(plain::get(length, sizeof length));
    return r;
  }
  uint32_t deliver(unsigned p, const Slip& slip, uint32_t sender) {
    return By::deliver(books[p], DVS_BOOK_SIZE, slip.bytes, slip.length, sender);
  }
  uint32_t attempt(unsigned p) { return By::attempt(books[p], DVS_BOOK_SIZE, event, sizeof event); }
  uint32_t enroll(unsigned p) { return By::enroll(books[p], DVS_BOOK_SIZE, event, sizeof event); }
  uint32_t send(unsigned p, uint64_t n) { return By::send(books[p], DVS_BOOK_SIZE, n, event, sizeof event); }
  uint32_t hand(unsigned p) { return By::hand(books[p], DVS_BOOK_SIZE, event, sizeof event); }
  uint32_t tell(unsigned p) { return By::tell(books[p], DVS_BOOK_SIZE); }
  uint32_t safe(unsigned p) { return By::safe(books[p], DVS_BOOK_SIZE, event, sizeof event); }
  uint32_t collect(unsigned p) { return By::collect(books[p], DVS_BOOK_SIZE); }
};

// Books as structs.
struct Structs {
  independent::Kept kept[kMost];
  plain::Event event;

  plain::Event& fresh() { return event = plain::Event(); }
  uint32_t start(unsigned p, uint32_t members, uint32_t set) { return kept[p].start(members, set, p); }
  uint32_t join(unsigned p, uint32_t view, uint32_t set) { return kept[p].join(view, set); }
  uint32_t pass(unsigned p, Slip& slip) { return kept[p].pass(slip.bytes, sizeof slip.bytes, slip.length); }
  uint32_t deliver(unsigned p, const Slip& slip, uint32_t sender) {
    return kept[p].deliver(slip.bytes, slip.length, sender);
  }
  uint32_t attempt(unsigned p) { return kept[p].attempt(fresh()); }
  uint32_t enroll(unsigned p) { return kept[p].enroll(fresh()); }
  uint32_t send(unsigned p, uint64_t n) { return kept[p].send(n, fresh()); }
  uint32_t hand(unsigned p) { return kept[p].hand(fresh()); }
  uint32_t tell(unsigned p) { return kept[p].tell(); }
  uint32_t safe(unsigned p) { return kept[p].safe(fresh()); }
  uint32_t collect(unsigned p) { return kept[p].collect(); }
};

// All three beside each other: every answer, event, message and byte of a book must be the same.
struct Compared {
  Books<Library> library = {};
  Books<Independent> bytes = {};
  Structs structs = {};

  template <class Do> uint32_t all(Do call, bool shows = false) {
    uint32_t a = call(library), b = call(bytes), c = call(structs);
    if (a != b || a != c) fail("a member's call is answered otherwise");
    if (memcmp(library.books, bytes.books, sizeof library.books)) fail("a member's book is otherwise");
    uint8_t event[DVS_EVENT_SIZE];
    structs.event.store(event);
    if (shows && (memcmp(library.event, bytes.event, sizeof event) || memcmp(library.event, event, sizeof event)))
      fail("a member's event is otherwise");
    return a;
  }

  uint32_t start(unsigned p, uint32_t m, uint32_t set) { return all([=](auto& s) { return s.start(p, m, set); }); }
  uint32_t join(unsigned p, uint32_t view, uint32_t set) { return all([=](auto& s) { return s.join(p, view, set); }); }
  uint32_t pass(unsigned p, Slip& slip) {
    Slip slips[3] = {slip, slip, slip}, *next = slips;
    uint32_t r = all([&](auto& s) { return s.pass(p, *next++); });
    for (const Slip& other : slips)
      if (other.length != slips[0].length || memcmp(other.bytes, slips[0].bytes, sizeof other.bytes))
        fail("a message is otherwise");
    slip = slips[0];
    return r;
  }
  uint32_t deliver(unsigned p, const Slip& slip, uint32_t from) {
    return all([&](auto& s) { return s.deliver(p, slip, from); });
  }
  uint32_t attempt(unsigned p) { return all([=](auto& s) { return s.attempt(p); }, true); }
  uint32_t enroll(unsigned p) { return all([=](auto& s) { return s.enroll(p); }, true); }
  uint32_t send(unsigned p, uint64_t n) { return all([=](auto& s) { return s.send(p, n); }, true); }
  uint32_t hand(unsigned p) { return all([=](auto& s) { return s.hand(p); }, true); }
  uint32_t tell(unsigned p) { return all([=](auto& s) { return s.tell(p); }); }
  uint32_t safe(unsigned p) { return all([=](auto& s) { return s.safe(p); }, true); }
  uint32_t collect(unsigned p) { return all([=](auto& s) { return s.collect(p); }); }
};

// What the workloads share. Calls are counted as made and as accepted.
template <class Side> struct Work {
  Side& side;
  uint64_t made = 0, accepted = 0;
  Slip slips[kMost] = {};

  void take(uint32_t answer) { ++made, accepted += answer == DVS_ACCEPTED; }
  template <class Do> void each(uint32_t set, Do what) {
    for (unsigned p = 0; p < kMost; ++p)
      if (set >> p & 1) take(what(p));
  }
  void start(unsigned members) {
    uint32_t all = (1u << members) - 1;
    each(all, [&](unsigned p) { return side.start(p, members, all); });
  }
  // Everybody's first outgoing message comes to everybody.
  void exchange(uint32_t set) {
    each(set, [&](unsigned p) { return side.pass(p, slips[p]); });
    for (unsigned p = 0; p < kMost; ++p)
      if (set >> p & 1) each(set, [&](unsigned q) { return side.deliver(p, slips[q], q); });
  }
};

// In the first view, message after message is sent, passed, delivered to and handed out by everyone; everyone tells of
// it, takes what was told and reports it safe.
template <class Side> Work<Side> steady(Side& side, unsigned members, unsigned messages) {
  Work<Side> work{side};
  uint32_t all = (1u << members) - 1;
  work.start(members);
  for (unsigned i = 0; i < messages; ++i) {
    unsigned from = i % members;
    work.take(side.send(from, i * 1000003));
    Slip& slip = work.slips[from];
    work.take(side.pass(from, slip));
    work.each(all, [&](unsigned p) { return side.deliver(p, slip, from); });
    work.each(all, [&](unsigned p) { return side.hand(p); });
    work.each(all, [&](unsigned p) { return side.tell(p); });
    work.exchange(all);
    work.each(all, [&](unsigned p) { return side.safe(p); });
  }
  return work;
}

// View after view is joined and attempted by its members; settled, or left open, so that the infos grow.
template <class Side> Work<Side> changes(Side& side, bool settled) {
  Work<Side> work{side};
  work.start(kMost);
  for (uint32_t view = 1; view <= DVS_OPEN; ++view) {
    uint32_t set = settled ? kSets[view % 8] : kSets[0];
    work.each(set, [&](unsigned p) { return side.join(p, view, set); });
    work.exchange(set);
    work.each(set, [&](unsigned p) { return side.attempt(p); });
    if (!settled) continue;
    work.each(set, [&](unsigned p) { return side.enroll(p); });
    work.exchange(set);
    work.each(set, [&](unsigned p) { return side.collect(p); });
  }
  return work;
}

// Infos in a row, each of 32 views: it settles about half of the 31 views that the ones before have opened, names those
// that stay and opens as many between and above them.
std::vector<Slip> long_infos() {
  constexpr uint32_t kApart = 1u << 20;
  std::vector<Slip> slips(DVS_ORDERED);
  std::set<uint32_t> open;
  uint32_t random = 1, settled = 0;
  for (Slip& slip : slips) {
    settled += kApart;
    open.erase(open.begin(), open.upper_bound(settled));
    while (open.size() < DVS_OPEN) {
      random = random * 1664525 + 1013904223;
      open.insert(settled + 1 + random / (1u << 11));  // up to twice as far as the next settled view
    }
    plain::Message info;
    info.kind = DVS_INFO, info.view = 1;
    info.views[info.count++] = plain::View{settled, kSets[0]};
    for (uint32_t id : open) info.views[info.count++] = plain::View{id, kSets[0]};
    if (independent::write_struct(info, slip.bytes, sizeof slip.bytes, slip.length)) fail("an info cannot be written");
  }
  return slips;
}

// They are all taken by one member, in a view that it has joined.
template <class Side> Work<Side> informed(Side& side, const std::vector<Slip>& infos) {
  Work<Side> work{side};
  work.take(side.start(0, kMost, kSets[0]));
  work.take(side.join(0, 1, kSets[0]));
  for (const Slip& info : infos) work.take(side.deliver(0, info, static_cast<uint32_t>(&info - &infos[0]) % kMost));
  return work;
}

template <class Do> void compare_and_time(const char* what, Do work) {
  static Compared compared;
  static Books<Library> library;
  static Books<Independent> bytes;
  static Structs structs;
  static Books<Before> before;
  auto checked = work(compared);
  if (checked.accepted != checked.made) fail(std::string("refused in ") + what);
  std::vector<Run> sides = {[&] { return work(library).accepted; }, [&] { return work(bytes).accepted; },
                            [&] { return work(structs).accepted; }};
  if (kBefore) sides.push_back([&] { return work(before).accepted; });
  std::vector<Times> times = measure(checked.made, sides);
  if (memcmp(library.books, bytes.books, sizeof library.books)) fail("a book is otherwise after its timed runs");
  if (kBefore && memcmp(library.books, before.books, sizeof library.books))
    fail("the earlier library leaves another book");
  row(std::string(what) + ", " + std::to_string(checked.made), times);
}

}  // namespace

void members() {
  head("The member by itself, and how many calls a run is. bytes: parses the book, asks refusal 4, steps and stores\n"
       "in each call. struct: the host keeps a struct; each call asks refusal 4 of it and steps.",
       with_before({"library", "bytes", "struct"}));
  compare_and_time("messages in a group of one", [](auto& side) { return steady(side, 1, 40); });
  compare_and_time("messages among five", [](auto& side) { return steady(side, 5, 20); });
  compare_and_time("views settled, among five", [](auto& side) { return changes(side, true); });
  compare_and_time("views left open, among five", [](auto& side) { return changes(side, false); });
  const std::vector<Slip> infos = long_infos();
  compare_and_time("infos of 32 views, half new", [&infos](auto& side) { return informed(side, infos); });
}

}  // namespace benchmark
