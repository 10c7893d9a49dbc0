// The queries with the specification's answers: which views are listed and in which order, how long the buffer has to be, and
// marks set by hand. Here no answer comes from the plain implementation, which is called beside the library as ever.
#pragma once

#include "lent_group.hpp"

namespace outside {

class CrossingCases : LentGroup {
  using Bytes = std::vector<uint8_t>;
  using Ids = std::vector<uint32_t>;

  bool right_ = true;
  Random r_{7};

  void expect(const char* call, const char* what, uint64_t answer, uint64_t expected) {
    if (answer == expected) return;
    printf("DIFFERENCE in %s with the specification, %s: %" PRIu64 ", expected %" PRIu64 "\n", call, what, answer, expected);
    right_ = false;
  }
  uint32_t query(bool holds, uint32_t set) { return holds ? holding(set) : crossing(set); }
  static const char* name(bool holds) { return holds ? "dvs_group_holding" : "dvs_group_crossing"; }

  // ---- a group

  void start(unsigned members, uint32_t set, unsigned room) {
    lend(r_, room);
    expect("dvs_group_start", "a start", c_.dvs_group_start(list_, books_, queues_, members, set), 0);
    begin(members, set);
  }
  void step(uint32_t kind, uint32_t first, uint64_t second = 0, uint32_t expected = 0) {
    expect("dvs_group_step", "a step", call(kind, first, second), expected);
  }
  void each(uint32_t kind, uint32_t id, uint32_t set, unsigned times = 1) {
    for (uint32_t p = 0; p < 8; ++p)
      for (unsigned n = 0; n < (set >> p & 1) * times; ++n) step(kind, p, id);
  }
  void make(uint32_t id, uint32_t set) { step(DVS_STEP_CREATE, id, set); }
  void join(uint32_t id, uint32_t set) { each(DVS_STEP_JOIN, id, set); }
  // Every member of the view takes the infos of all.
  void inform(uint32_t id, uint32_t set) {
    each(DVS_STEP_PASS, id, set), each(DVS_STEP_ORDER, id, set), each(DVS_STEP_DELIVER, id, set, plain::ones(set));
  }
  void make_and_form(uint32_t id, uint32_t set) { make(id, set), expect("dvs_group_form", "a view", form(id), 0); }
  void set_marks(uint64_t marks) {
    clean_ = false;
    plain::put(queues_.mine() + DVS_QUEUES_MARKS, 4, marks), copy_to_theirs();
  }
  uint64_t marks() { return dvs_get32(queues_.theirs() + DVS_QUEUES_MARKS); }

  // ---- what the queries answer

  // One query with a buffer of so many bytes. It gives this number, and the bytes after what it lists stay; all do if it is refused.
  void answers(const char* what, bool holds, uint32_t set, size_t size, uint32_t number, const Ids& ids) {
    lend_views(r_, size), r_.fill(c_.count.mine(), 4), c_.count.copy_to_theirs();
    Bytes expected(c_.views.mine(), c_.views.mine() + size), count(c_.count.mine(), c_.count.mine() + 4);
    for (size_t i = 0; i < ids.size() && number == 0; ++i) plain::put(&expected[4 * i], 4, ids[i]);
    if (number == 0) plain::put(count.data(), 4, ids.size());
    expect(name(holds), what, query(holds, set), number);
    expect(name(holds), what, std::equal(expected.begin(), expected.end(), c_.views.theirs()), 1);
    expect(name(holds), what, std::equal(count.begin(), count.end(), c_.count.theirs()), 1);
  }

  // A query lists these: with room for all views, with exactly enough, and not with one identifier fewer or parts of one.
  void one_lists(const char* what, bool holds, uint32_t set, const Ids& ids) {
    size_t exact = 4 * ids.size();
    for (size_t size : {size_t{4} * DVS_VIEWS, exact + 4, exact}) answers(what, holds, set, size, 0, ids);
    for (size_t part : {1, 2, 3}) answers(what, holds, set, exact + part, DVS_REFUSED_RECORDS_UNSOUND, ids);
    if (ids.empty()) return;
    answers(what, holds, set, exact - 4, DVS_REFUSED_TOO_FEW_PLACES, ids), answers(what, holds, set, 0, DVS_REFUSED_TOO_FEW_PLACES, ids);
    for (size_t part : {1, 2, 3}) answers(what, holds, set, exact - part, DVS_REFUSED_RECORDS_UNSOUND, ids);
  }
  void lists(const char* what, uint32_t set, const Ids& crossed, const Ids& held) {
    one_lists(what, false, set, crossed), one_lists(what, true, set, held);
  }

  // The newest attempted view before an identifier: a view, or none, which is one with no members.
  void finds(uint32_t id, View v) {
    r_.fill(c_.found.mine(), DVS_FOUND_SIZE), c_.found.copy_to_theirs();
    uint8_t expected[DVS_FOUND_SIZE] = {};
    if (v.set) expected[0] = 1, plain::put_view(expected + 1, v);
    expect("dvs_group_newest_before", "its number", newest_before(id), 0);
    expect("dvs_group_newest_before", "what it found", memcmp(expected, c_.found.theirs(), sizeof expected) == 0, 1);
  }

  // Every call on a group that exists returns this, on these ranges.
  void every_call_returns(const char* what, uint32_t number) {
    const Bytes before = left();
    c_.steps.resize(0, kBack), c_.answers.resize(0, kBack), lend_views(r_, 4 * DVS_VIEWS);
    expect("dvs_group_check", what, c_.dvs_group_check(list_, books_, queues_), number);
    expect("dvs_group_steps", what, c_.dvs_group_steps(list_, books_, queues_), number);
    expect("dvs_group_crossing", what, crossing(1), number), expect("dvs_group_holding", what, holding(1), number);
    expect("dvs_group_newest_before", what, newest_before(1), number);
    expect("dvs_group_form", what, form(0), number == 0 ? DVS_REFUSED_VIEW_NOT_FRESH : number);
    for (uint32_t kind = 0; kind <= 13; ++kind)
      if (number != 0) step(kind, 0, 0, number);
    if (number == 0) step(13, 0, 0, DVS_REFUSED_UNKNOWN_STEP), step(DVS_STEP_COLLECT, 0, 0, DVS_REFUSED_NOT_ABOVE_SETTLED);
    expect("dvs_group_check", "what is left", left() == before, 1);
  }

  // ---- the cases

  void sizes() {
    start(5, 31, 3);
    lists("a start, all", 31, {0}, {0}), lists("a start, {3}", 8, {0}, {});
    lists("{0,1} of five", 3, {0}, {}), lists("{0,1,2} of five", 7, {0}, {0});
    start(4, 15, 1);
    lists("exactly half is no majority", 3, {0}, {}), lists("one more than half", 7, {0}, {0});
    // The size of the attempted view counts, and not the set's.
    start(5, 1, 2);
    lists("all, of a view of one", 31, {0}, {0}), lists("none in common", 30, {}, {}), lists("itself", 1, {0}, {0});
    start(8, 0xc3, 2);
    lists("members outside the first view", 0x3c, {}, {}), lists("member 7", 0x80, {0}, {}), lists("three of its four", 0x7e | 0x80, {0}, {0});
  }

  void attempts() {
    start(5, 31, 6);
    make(4, 7), lists("made", 31, {0}, {0});
    join(4, 7), lists("joined", 31, {0}, {0});
    step(DVS_STEP_ATTEMPT, 1, 0, DVS_REFUSED_INFO_MISSING), lists("an attempt without the infos", 31, {0}, {0});
    inform(4, 7), lists("informed", 31, {0}, {0});
    step(DVS_STEP_ATTEMPT, 1), lists("attempted by one", 31, {4, 0}, {4, 0});
    step(DVS_STEP_ATTEMPT, 1, 0, DVS_REFUSED_NOT_ABOVE_CLIENT), step(DVS_STEP_ATTEMPT, 2);
    lists("attempted by two", 31, {4, 0}, {4, 0}), lists("{3}", 8, {0}, {}), lists("{0}", 1, {4, 0}, {}), lists("{0,1}", 3, {4, 0}, {4});
    lists("{2,3,4}", 28, {4, 0}, {0}), lists("{0,3}", 9, {4, 0}, {}), lists("{0,1,4}", 19, {4, 0}, {4, 0});
    make(9, 24), join(9, 24), inform(9, 24), step(DVS_STEP_ATTEMPT, 3, 0, DVS_REFUSED_TEST_FAILED);
    lists("an attempt that fails the test", 31, {4, 0}, {4, 0}), lists("{3} again", 8, {0}, {});
    finds(0, {0, 0}), finds(1, {0, 31}), finds(4, {0, 31}), finds(5, {4, 7}), finds(9, {4, 7}), finds(10, {4, 7}), finds(UINT32_MAX, {4, 7});
    // The driver takes a view of all, and no book has view 4 any more.
    make_and_form(UINT32_MAX, 31);
    for (size_t p = 0; p < 5; ++p) {
      const uint8_t* book = books_.theirs() + DVS_BOOK_SIZE * p;
      for (size_t at : {DVS_BOOK_SETTLED, DVS_BOOK_CARRIER + 1, DVS_BOOK_CLIENT + 1})
        expect("dvs_group_form", "views of a book", dvs_view_identifier(book + at), UINT32_MAX);
      expect("dvs_group_form", "open views of a book", book[DVS_BOOK_OPENS], 0);
    }
    lists("forgotten by every book", 31, {UINT32_MAX, 4, 0}, {UINT32_MAX, 4, 0}), lists("{0,1} again", 3, {UINT32_MAX, 4, 0}, {4});
    lists("{3,4}", 24, {UINT32_MAX, 0}, {});
    finds(UINT32_MAX, {4, 7}), finds(UINT32_MAX - 1, {4, 7}), finds(4, {0, 31});
  }

  // The steps of a list mark as single ones do: one member makes, joins and attempts a view.
  void listed_steps() {
    for (bool from_start : {true, false}) {
      start(1, 1, 3);
      c_.steps.resize(6 * DVS_STEP_SIZE, kBack), c_.answers.resize(6 * DVS_ANSWER_SIZE, kBack);
      for (uint8_t i = 0; i < 6; ++i)
        plain::put_step(c_.steps.mine() + DVS_STEP_SIZE * i, {static_cast<uint8_t>(i + 1), i ? 0u : 5u, i ? 5u : 1u});
      c_.steps.copy_to_theirs(), c_.answers.copy_to_theirs();
      if (from_start) expect("dvs_group_run", "six steps", c_.dvs_group_run(list_, books_, queues_, 1, 1), 0);
      else expect("dvs_group_steps", "six steps", c_.dvs_group_steps(list_, books_, queues_), 0);
      clean_ = false;
      lists("attempted in a list", 1, {5, 0}, {5, 0}), finds(6, {5, 1}), finds(5, {0, 1});
    }
  }

  // 7 before 46, and 4 before both.
  void refusals() {
    start(5, 31, 2);
    for (bool holds : {false, true})
      for (uint32_t set : {0u, 32u, 33u, 255u, 256u, 257u, 0x80000000u, 0xffffff00u, 0xffffffffu}) {
        for (size_t places : {0, 1, 32}) answers("a set that does not fit", holds, set, 4 * places, DVS_REFUSED_SET_UNFIT, {});
        for (size_t size : {1, 3, 5, 127}) answers("4 before 7", holds, set, size, DVS_REFUSED_RECORDS_UNSOUND, {});
      }
    for (bool holds : {false, true})
      for (size_t size : {0, 3, 5, 8}) {
        lend_views(r_, 0), c_.count.resize(size, kBack), c_.count.copy_to_theirs();
        expect(name(holds), "a count of another length", query(holds, 0), 4);
        c_.count.resize(4, kBack), c_.count.copy_to_theirs();
      }
    books_.poke(DVS_BOOK_MEMBERS, 9), clean_ = false;
    for (bool holds : {false, true}) answers("an unsound group, before 7 and 46", holds, 0, 0, DVS_REFUSED_RECORDS_UNSOUND, {});
  }

  // A mark past the views made, with every number of them, in a list of their length and in longer ones.
  void marks_past() {
    for (unsigned room : {1u, 2u, 3u, 7u, 8u, 9u, 16u, 31u, 32u}) {
      start(2, 3, room);
      for (uint32_t count = 1; count <= room; ++count) {
        if (count > 1) make(count, 3), clean_ = false;
        uint64_t all = (uint64_t{1} << count) - 1;
        set_marks(1), every_call_returns("the mark of a start", 0);
        set_marks(all), every_call_returns("a mark at every view made", 0);
        Ids ids;
        for (uint32_t i = count; i > 0; --i) ids.push_back(i == 1 ? 0 : i);
        answers("a mark at every view made", false, 1, 4 * count, 0, ids), answers("a mark at every view made", true, 3, 4 * count, 0, ids);
        if (count == DVS_VIEWS) continue;
        for (uint64_t past : {uint64_t{1} << count, uint64_t{1} << 31, all + 1 + all, ~uint64_t{0}})
          set_marks(past), every_call_returns("a mark past the views made", DVS_REFUSED_RECORDS_UNSOUND);
        set_marks(1);
      }
    }
  }

  // Marks that no calls leave, and no fault of the group: the answers follow them.
  void marks_by_hand() {
    start(3, 7, 4);
    make(2, 3), make(6, 4), clean_ = false;
    set_marks(0), lists("no mark", 7, {}, {}), finds(UINT32_MAX, {0, 0}), every_call_returns("no mark", 0);
    set_marks(4), lists("view 6 alone", 7, {6}, {6}), lists("{0}", 1, {}, {}), finds(UINT32_MAX, {6, 4}), finds(6, {0, 0});
    set_marks(6), lists("not the first view", 7, {6, 2}, {6, 2}), lists("{0}", 1, {2}, {}), finds(6, {2, 3}), finds(2, {0, 0});
    set_marks(5), lists("not view 2", 3, {0}, {0}), lists("{2}", 4, {6, 0}, {6}), finds(6, {0, 7}), finds(7, {6, 4});
    // An attempt adds its mark to those.
    set_marks(4), join(2, 3), inform(2, 3), each(DVS_STEP_ATTEMPT, 2, 1);
    expect("dvs_group_step", "the marks after an attempt", marks(), 6);
  }

  void layouts() {
    start(2, 3, 2);
    expect("dvs_group_start", "the number of the layout", queues_.theirs()[DVS_QUEUES_LAYOUT], DVS_LAYOUT);
    expect("dvs_group_start", "the marks", marks(), 1);
    for (unsigned number = 0; number < 256; ++number) {
      queues_.poke(DVS_QUEUES_LAYOUT, static_cast<uint8_t>(number)), clean_ = false;
      every_call_returns("the number of a layout", number == DVS_LAYOUT ? 0 : DVS_REFUSED_RECORDS_UNSOUND);
    }
    queues_.poke(DVS_QUEUES_LAYOUT, DVS_LAYOUT);
    for (size_t at = plain::kQueuesFree; at < plain::kQueuesHead; ++at) queues_.poke(at, 0xff), every_call_returns("what the head does not use", 0);
    // A start writes over all of it.
    expect("dvs_group_start", "a start", c_.dvs_group_start(list_, books_, queues_, 2, 3), 0);
    for (size_t at = plain::kQueuesFree; at < plain::kQueuesHead; ++at) expect("dvs_group_start", "the head", queues_.theirs()[at], 0);
  }

  // Members 0 and 1 attempt before member 2 is refused, or all three before a collect is: the marks are as they were.
  void refused_inside() {
    for (size_t place : {DVS_BOOK_CLIENT + 1, DVS_BOOK_SETTLED}) {
      start(4, 15, 3);
      make(3, 8), make(9, 7), clean_ = false;
      plain::put_view(books_.mine() + DVS_BOOK_SIZE * 2 + place, View{9, 7});
      for (uint64_t marked : {1u, 3u, 2u, 7u}) {
        set_marks(marked);
        const Bytes before = left();
        expect("dvs_group_form", "of made-up records", form(9), place == DVS_BOOK_SETTLED ? 30 : 19);
        expect("dvs_group_form", "what is left", left() == before, 1), expect("dvs_group_form", "the marks", marks(), marked);
      }
      set_marks(1), lists("after a refused driver", 15, {0}, {0});
    }
  }

  // As many views as there can be, all formed.
  void full_list() {
    start(2, 3, 32);
    Ids ids = {0};
    for (uint32_t id = 1; id < 32; ++id) {
      make_and_form(id < 31 ? 8 * id : UINT32_MAX, 3), ids.insert(ids.begin(), id < 31 ? 8 * id : UINT32_MAX);
      one_lists("one more view", false, 2, ids);
      finds(ids[0], {ids[1], 3});
    }
    lists("32 views", 3, ids, ids), lists("32 views, one member", 1, ids, {});
    expect("dvs_group_form", "the marks", marks(), UINT32_MAX);
    for (uint32_t id = 1; id < 31; ++id) finds(8 * id, {8 * id - 8, 3}), finds(8 * id + 1, {8 * id, 3});
  }

 public:
  explicit CrossingCases(Calls& c) : LentGroup(c) {}

  // False if an answer is not the specification's.
  bool run() {
    sizes(), attempts(), listed_steps(), refusals(), marks_past(), marks_by_hand(), layouts(), refused_inside(), full_list();
    c_.usual();
    return right_;
  }
};

}  // namespace outside
