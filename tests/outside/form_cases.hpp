// The driver from a start on, with the specification's answers: views of every size, its refusals and their order, what
// is left and what comes after. Here no answer comes from the plain implementation, which is called beside the library as
// ever. Then, at random, groups that no steps need have left.
#pragma once

#include "damage.hpp"
#include "generate.hpp"
#include "lent_group.hpp"

namespace outside {

class FormCases : LentGroup {
  bool right_ = true;

  void expect(const char* what, uint64_t answer, uint64_t expected) {
    if (answer == expected) return;
    printf("DIFFERENCE in dvs_group_form with the specification, %s: %" PRIu64 ", expected %" PRIu64 "\n", what, answer, expected);
    right_ = false;
  }

  void start(unsigned members, uint32_t set, unsigned room) {
    Random r(members, set);
    lend(r, room);
    expect("start", c_.dvs_group_start(list_, books_, queues_, members, set), 0);
    begin(members, set);
  }
  void create(uint32_t id, uint32_t set) { expect("create", call(DVS_STEP_CREATE, id, set), 0); }

  // One kind of step by each server of a set, one's steps together.
  unsigned each(uint32_t kind, uint32_t id, uint32_t set, unsigned times = 1) {
    unsigned taken = 0;
    for (uint32_t p = 0; p < 8; ++p)
      for (unsigned n = 0; n < (set >> p & 1) * times; ++n, ++taken) expect("a step by hand", call(kind, p, id), 0);
    return taken;
  }
  unsigned exchange(uint32_t id, uint32_t set) {
    unsigned taken = each(DVS_STEP_PASS, id, set) + each(DVS_STEP_ORDER, id, set);
    return taken + each(DVS_STEP_DELIVER, id, set, plain::ones(set));
  }
  unsigned by_hand(uint32_t id, uint32_t set) {
    unsigned taken = each(DVS_STEP_JOIN, id, set) + exchange(id, set) + each(DVS_STEP_ATTEMPT, id, set);
    return taken + each(DVS_STEP_REGISTER, id, set) + exchange(id, set) + each(DVS_STEP_COLLECT, id, set);
  }

  // One call forms the view; the same steps by hand leave the same bytes. It is settled and nothing is open at all k.
  void formed(uint32_t id, uint32_t set, unsigned count) {
    auto before = left();
    auto third = std::make_unique<reference::Group>(*third_);
    expect("form", form(id), 0);
    expect("the number of steps", dvs_length(c_.count.theirs()), count);
    auto after = left();
    put_back(before), third_.swap(third);
    expect("the number of steps by hand", by_hand(id, set), count);
    expect("the bytes that the steps by hand leave", left() == after, 1);
    for (size_t p = 0; p < 8; ++p) {
      const uint8_t* book = books_.theirs() + DVS_BOOK_SIZE * p;
      if (!(set >> p & 1)) continue;
      expect("the settled view", dvs_view_identifier(book + DVS_BOOK_SETTLED), id);
      expect("its set", dvs_view_set(book + DVS_BOOK_SETTLED), set);
      expect("the number of open views", book[DVS_BOOK_OPENS], 0);
    }
    expect("formed twice", form(id), DVS_REFUSED_VIEW_NOT_FRESH);
  }
  void made_and_formed(uint32_t id, uint32_t set, unsigned count) { create(id, set), formed(id, set, count); }

  void sizes() {
    static const unsigned counts[] = {10, 24, 42, 64, 90, 120, 154, 192};
    for (unsigned k = 1; k <= 8; ++k) {
      uint32_t all = (1u << k) - 1;
      start(k, all, 3);
      made_and_formed(1, all, counts[k - 1]), made_and_formed(UINT32_MAX, all, counts[k - 1]);
      // The same number of servers among eight, the first view theirs: the others have neither view.
      uint32_t set = all << (8 - k) & 0xaa;
      if (set == 0) continue;
      start(8, set, 2), made_and_formed(7, set, counts[plain::ones(set) - 1]);
    }
  }

  void refusals() {
    start(5, 31, 5);
    expect("the first view", form(0), 44), expect("no view", form(1), 10);
    create(1, 3);
    expect("no view, before 44", form(2), 10), expect("the first view, older", form(0), 44);
    expect("{0,1} against {0,1,2,3,4}", form(1), 45);
    create(2, 7);
    expect("older, before 45", form(1), 44);
    expect("join", call(DVS_STEP_JOIN, 1, 2), 0);
    expect("joined by one", form(2), 44);
    made_and_formed(3, 7, 42);
    create(4, 28);
    expect("{2,3,4} against {0,1,2}, which 2 holds", form(4), 45), expect("joined and older", form(3), 44);
  }

  // An open view that is registered by nobody is tested too, and goes where the next one is formed.
  void open_views() {
    start(5, 31, 4);
    create(1, 7), each(DVS_STEP_JOIN, 1, 7), exchange(1, 7), each(DVS_STEP_ATTEMPT, 1, 4);
    create(2, 28), expect("{2,3,4} against {0,1,2}, open at 2", form(2), 45);
    made_and_formed(3, 15, 64);
  }

  // Server 7 holds the first view still; the infos would take it from it.
  void lagging() {
    start(8, 255, 4);
    made_and_formed(1, 31, 90), made_and_formed(2, 7, 42);
    create(3, 0x83), expect("{0,1,7} against {0,...,7}, which 7 holds", form(3), 45);
    expect("the same by hand", by_hand(3, 0x83), 42);
  }

  // Views left with all that they can hold: 16 outgoing and 8 waiting of each, 128 ordered.
  void full_views() {
    start(8, 255, 4);
    for (uint32_t id = 0; id < 3; ++id) {
      while (call(DVS_STEP_SEND, id, id) == 0 && call(DVS_STEP_PASS, id, 0) == 0 && call(DVS_STEP_ORDER, id, id) == 0) {
      }
      for (uint32_t p = 0; p < 8; ++p) {
        for (unsigned n = 0; n < 24; ++n) call(DVS_STEP_SEND, p, n), call(n < 8 ? DVS_STEP_PASS : DVS_STEP_HAND, p, 0);
        while (p % 2 && call(DVS_STEP_DELIVER, p, 0) == 0) call(DVS_STEP_HAND, p, 0);
        expect("outgoing", books_.theirs()[DVS_BOOK_SIZE * p + DVS_BOOK_OUTGOING], 16);
        expect("waiting", dvs_queues_waiting(queues_.theirs(), id, p), 8);
      }
      expect("ordered", dvs_queues_ordered(queues_.theirs(), id), 128);
      made_and_formed(id + 1, 255, 192);
    }
  }

  // One byte of a book or of a queue, the newest view's most often.
  void damage(Random& r) {
    bool in_book = r.chance(500);
    size_t book = plain::kBookSize * r.below(8), last = plain::queues_size(made() - 1 < room() ? made() - 1 : 0);
    size_t at = in_book         ? book + book_place(r, books_.mine() + book)
                : r.chance(300) ? queues_place(r, queues_.mine(), room())
                                : last + (r.chance(500) ? 0 : plain::kOrderSize + plain::kWaitingSize * r.below(8));
    Lent& lent = in_book ? books_ : queues_;
    lent.poke(at, other_byte(r, lent.mine()[at]));
  }

  // Entries before, in the view left, and behind, in the view formed: sent, handed, told and safe.
  void entries() {
    start(3, 7, 6);
    for (uint32_t id = 0; id < 5; ++id) {
      uint32_t set = id % 2 ? 3 : 7;
      each(DVS_STEP_SEND, 70 + id, set), exchange(id, set);
      each(DVS_STEP_HAND, 0, set, id % 3 ? plain::ones(set) : 1), each(DVS_STEP_TELL, 0, set), exchange(id, set);
      each(DVS_STEP_SAFE, 0, set), each(DVS_STEP_SEND, 80 + id, set), each(DVS_STEP_PASS, 0, id % 2);
      made_and_formed(id + 1, id % 2 ? 7 : 3, id % 2 ? 42 : 24);
    }
  }

 public:
  explicit FormCases(Calls& c) : LentGroup(c) {}

  // False if an answer is not the specification's.
  bool run() {
    sizes(), refusals(), open_views(), lagging(), full_views(), entries();
    return right_;
  }

  // Nobody has joined the newest view; now and then a few bytes are changed. It is formed and, after a few steps, once more,
  // or one made after it.
  void made_up(Random& r) {
    for (unsigned n = 0; n < 6; ++n) {
      lend(r, some_room(r)), clean_ = false;
      random_group(r, list_.range(), books_.range(), queues_.range(), true);
      copy_to_theirs();
      uint32_t id = r.chance(950) ? newest().id : view(r.below(made())).id;
      for (unsigned changes = r.chance(300) ? r.between(1, 3) : 0; changes > 0; --changes) damage(r);
      if (form(id) == plain::kRecordsUnsound && c_.dvs_group_check(list_, books_, queues_) != 0) continue;
      for (unsigned steps = r.below(4); steps > 0; --steps) call(r.between(2, 12), r.below(members()), newest().id);
      if (r.chance(500)) call(plain::kCreate, newest().id + 1, r.wide_set(members()));
      form(newest().id);
    }
  }
};

}  // namespace outside
