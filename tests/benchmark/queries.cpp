// Which attempted views a set crosses, of which it holds a majority, and which is the newest before an identifier; and
// the attempt, which marks a view.
#include <memory>

#include "group_sides.hpp"

namespace benchmark {

namespace {

constexpr unsigned kMembers = 5, kAsked = 8;    // kAsked: the calls of one timed run
constexpr uint32_t kAll = (1u << kMembers) - 1;
constexpr uint32_t kSet = 7;                    // shares members with every view, and holds a majority of every view
constexpr uint32_t kApart = 7;                  // between two identifiers, so that no place is taken for an identifier

// A query's answer, in one form for all sides.
struct Found {
  uint32_t refusal = 0, count = 0, views[DVS_VIEWS] = {};
  bool there = false;
  plain::View view{};

  bool same(const Found& other) const {
    return refusal == other.refusal && count == other.count && memcmp(views, other.views, sizeof views) == 0 &&
           there == other.there && view.id == other.view.id && view.set == other.view.set;
  }
};

// The three queries, by number.
constexpr const char* kQueries[] = {"crossing", "holding", "newest before"};
constexpr unsigned kBeforeOne = 2;

uint32_t check(const Ranges& r) {
  return dvs_group_check(r.list.data(), r.list.size(), r.books.data(), r.books.size(), r.queues.data(),
                         r.queues.size());
}

// The library's query; the identifiers are read from the buffer, since the host wants them as numbers.
uint32_t ask(Ranges& r, unsigned query, uint32_t what, uint32_t places, Found& found) {
  uint8_t views[DVS_IDENTIFIER_SIZE * DVS_VIEWS], count[DVS_LENGTH_SIZE], one[DVS_FOUND_SIZE];
  if (query == kBeforeOne) {
    uint32_t refusal = dvs_group_newest_before(r.list.data(), r.list.size(), r.books.data(), r.books.size(),
                                               r.queues.data(), r.queues.size(), what, one, sizeof one);
    if (refusal) return refusal;
    found.there = dvs_found(one);
    found.view = {dvs_view_identifier(dvs_found_view(one)), static_cast<uint8_t>(dvs_view_set(dvs_found_view(one)))};
    return DVS_ACCEPTED;
  }
  auto call = query == 0 ? dvs_group_crossing : dvs_group_holding;
  uint32_t refusal = call(r.list.data(), r.list.size(), r.books.data(), r.books.size(), r.queues.data(),
                          r.queues.size(), what, views, DVS_IDENTIFIER_SIZE * size_t{places}, count, sizeof count);
  if (refusal) return refusal;
  found.count = static_cast<uint32_t>(dvs_length(count));
  for (uint32_t i = 0; i < found.count; ++i) found.views[i] = dvs_identifier(views, i);
  return DVS_ACCEPTED;
}

template <class Structs> uint32_t ask(Structs& g, unsigned query, uint32_t what, uint32_t places, Found& found) {
  if (query == kBeforeOne) return g.newest_before(what, found.there, found.view);
  return query == 0 ? g.crossing(what, found.views, places, found.count)
                    : g.holding(what, found.views, places, found.count);
}

// A group with so many views, each of them formed by one call after the first.
class Attempted {
 protected:
  const unsigned views_, room_;
  Ranges library_{room_};
  Structured structs_;
  Unchecked unchecked_;
  Before before_{kBefore ? room_ : 0};

  void each(const Step& s) {
    plain::Event event, quick;
    if (library_.step(s) || structs_.step(s, event) || unchecked_.step(s, quick))
      fail("a step before a query is refused");
    if (!library_.shows(event) || !library_.shows(quick)) fail("an event before a query is otherwise");
    if (kBefore && before_.step(s)) fail("a step before a query is refused by the earlier library");
  }
  void form(uint32_t view) {
    uint32_t count = 0;
    if (library_.form(view, count) || structs_.form(view, count) || unchecked_.form(view, count))
      fail("a view before a query is not formed");
    if (kBefore && before_.form(view, count)) fail("a view before a query is not formed by the earlier library");
  }
  // The same answer on every side; gives how many views were found.
  uint32_t compare(unsigned query, uint32_t what, uint32_t places) {
    Found library, structs, unchecked;
    library.refusal = ask(library_, query, what, places, library);
    structs.refusal = ask(structs_, query, what, places, structs);
    unchecked.refusal = ask(unchecked_, query, what, places, unchecked);
    if (!library.same(structs) || !library.same(unchecked)) fail("a query is answered otherwise");
    return library.count;
  }
  // The sets take turns, and each holds a majority of the next.
  static uint32_t set_of(unsigned i) { return i % 2 ? kAll & ~(1u << 4) : kAll; }

 public:
  Attempted(unsigned views, unsigned room) : views_(views), room_(room) {
    if (library_.start(kMembers, kAll) || structs_.start(kMembers, kAll, room) ||
        unchecked_.start(kMembers, kAll, room))
      fail("a start before a query is refused");
    if (kBefore && before_.start(kMembers, kAll)) fail("a start before a query is refused by the earlier library");
    for (unsigned i = 1; i < views; ++i) each({DVS_STEP_CREATE, kApart * i, set_of(i)}), form(kApart * i);
  }
};

class Asked : public Attempted {
  Found found_;

  template <class Side> Run by(Side& side, unsigned query) {
    const uint32_t what = query == kBeforeOne ? kApart * views_ : kSet;
    return [this, &side, query, what] {
      uint64_t accepted = 0;
      for (unsigned i = 0; i < kAsked; ++i) accepted += ask(side, query, what, DVS_VIEWS, found_) == DVS_ACCEPTED;
      return accepted;
    };
  }
  Run by_check() {
    return [this] {
      uint64_t accepted = 0;
      for (unsigned i = 0; i < kAsked; ++i) accepted += check(library_) == DVS_ACCEPTED;
      return accepted;
    };
  }

 public:
  using Attempted::Attempted;

  // Every set and some that are none, every number of places, and every identifier up to those above the last view's.
  void compare() {
    for (unsigned query : {0u, 1u})
      for (uint32_t set = 0; set <= 256; ++set)
        for (uint32_t places = 0; places <= DVS_VIEWS; ++places) Attempted::compare(query, set, places);
    for (uint32_t view = 0; view <= kApart * views_; ++view) Attempted::compare(kBeforeOne, view, 0);
    Attempted::compare(kBeforeOne, 0xFFFFFFFF, 0);
    for (unsigned query : {0u, 1u})
      if (Attempted::compare(query, kSet, DVS_VIEWS) != views_) fail("a query does not find every view");
  }

  std::vector<Times> times(unsigned query) {
    return measure(kAsked, {by(library_, query), by_check(), by(structs_, query), by(unchecked_, query)});
  }
  Run crossing() { return by(library_, 0); }
};

// The newest view is joined and every info taken, and member 0 attempts it again and again.
class Attempting : public Attempted {
  const Step attempt_ = {DVS_STEP_ATTEMPT, 0, 0};
  plain::Event event_;
  std::unique_ptr<Ranges> library_then_;
  std::unique_ptr<Structured> structs_then_;
  std::unique_ptr<Unchecked> unchecked_then_;
  std::unique_ptr<Before> before_then_;

  template <class By> static uint32_t attempt(RangesBy<By>& side, const Step& s, plain::Event&) { return side.step(s); }
  template <class Side> static uint32_t attempt(Side& side, const Step& s, plain::Event& event) {
    return side.step(s, event);
  }
  template <class By> static void go_back(RangesBy<By>& side, const RangesBy<By>& then) {
    memcpy(side.books.data(), then.books.data(), DVS_BOOK_SIZE);
    memcpy(&side.queues[DVS_QUEUES_MARKS], &then.queues[DVS_QUEUES_MARKS], 4);
  }
  template <class Side> static void go_back(Side& side, const Side& then) { side.take_book(0, then); }

  // The attempts of a run, and what it takes to put back what they change.
  template <class Side> Run with(Side& side, const Side& then) {
    return [this, &side, &then] {
      uint64_t accepted = 0;
      for (unsigned i = 0; i < kAsked; ++i)
        accepted += attempt(side, attempt_, event_) == DVS_ACCEPTED, go_back(side, then);
      return accepted;
    };
  }
  template <class Side> Run without(Side& side, const Side& then) {
    return [&side, &then] {
      for (unsigned i = 0; i < kAsked; ++i) go_back(side, then);
      return uint64_t{kAsked};
    };
  }

 public:
  explicit Attempting(unsigned views) : Attempted(views - 1, DVS_VIEWS) {
    const uint32_t view = kApart * (views - 1), set = set_of(views - 1);
    each({DVS_STEP_CREATE, view, set});
    for (uint32_t kind : {DVS_STEP_JOIN, DVS_STEP_PASS, DVS_STEP_ORDER, DVS_STEP_DELIVER})
      for (unsigned p = 0; p < kMembers; ++p)
        for (unsigned i = set >> p & 1 ? (kind == DVS_STEP_DELIVER ? plain::ones(set) : 1) : 0; i > 0; --i)
          each({kind, p, view});
    library_then_ = std::make_unique<Ranges>(library_);
    structs_then_ = std::make_unique<Structured>(structs_);
    unchecked_then_ = std::make_unique<Unchecked>(unchecked_);
    before_then_ = std::make_unique<Before>(before_);
    each(attempt_);
    if (compare(0, kSet, DVS_VIEWS) != views) fail("an attempt is not found");
    if (kBefore && !library_.same_below_head(before_)) fail("an attempt by the earlier library leaves other bytes");
    go_back(library_, *library_then_), go_back(structs_, *structs_then_), go_back(unchecked_, *unchecked_then_);
    if (kBefore) go_back(before_, *before_then_);
    if (!library_.same(*library_then_) || compare(0, kSet, DVS_VIEWS) != views - 1) fail("an attempt is not put back");
  }

  std::vector<Times> times() {
    std::vector<Run> runs = {with(library_, *library_then_), with(structs_, *structs_then_),
                             with(unchecked_, *unchecked_then_)};
    std::vector<Run> less = {without(library_, *library_then_), without(structs_, *structs_then_),
                             without(unchecked_, *unchecked_then_)};
    if (kBefore) runs.push_back(with(before_, *before_then_)), less.push_back(without(before_, *before_then_));
    return measure_less(kAsked, runs, less);
  }
};

}  // namespace

void queries() {
  head("Queries of a group of five with room for 32 views, by views attempted: all of them are found. check: the\n"
       "library's dvs_group_check alone. structs, unchecked: as above.",
       {"library", "check", "structs", "unchecked"});
  for (unsigned query = 0; query < 3; ++query)
    for (unsigned views : {1u, 8u, DVS_VIEWS}) {
      Asked asked(views, DVS_VIEWS);
      if (query == 0) asked.compare();
      row(std::string(kQueries[query]) + ", " + std::to_string(views) + (views > 1 ? " views" : " view"),
          asked.times(query));
    }
  std::vector<std::unique_ptr<Asked>> groups;
  std::vector<Run> runs;
  for (unsigned room : {1u, 8u, DVS_VIEWS}) {
    groups.push_back(std::make_unique<Asked>(1, room));
    groups.back()->compare();
    runs.push_back(groups.back()->crossing());
  }
  std::vector<Times> times = measure(kAsked, runs);
  printf("crossing in a group with one view, by the views that the list has room for: 1 view %.0f ns, 8 views\n"
         "%.0f ns, 32 views %.0f ns\n", times[0].best(), times[1].best(), times[2].best());

  head("An attempt in a group of five, by views made, less what it takes to put the book back.",
       with_before({"library", "structs", "unchecked"}));
  for (unsigned views : {2u, 8u, DVS_VIEWS})
    row("attempt, " + std::to_string(views) + " views", Attempting(views).times());
}

}  // namespace benchmark
