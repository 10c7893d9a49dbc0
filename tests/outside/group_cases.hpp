// Cases of the whole group: histories from a start, and groups that no steps need have left; both are damaged now and
// then, and some of their steps are made as lists. A history that was not damaged is made by the third implementation too.
#pragma once

#include "damage.hpp"
#include "generate.hpp"
#include "lent_group.hpp"

namespace outside {

class GroupCases : LentGroup {
  // One step of a kind, with operands that fit more often than not.
  uint32_t step(Random& r, unsigned kind, bool wide) {
    uint32_t first = r.below(some_members());
    uint64_t second = 0;
    if (kind == plain::kCreate) {
      uint64_t id = newest().id + uint64_t{1} + (r.chance(800) ? 0 : r.below(1000));
      first = id <= UINT32_MAX && r.chance(960) ? static_cast<uint32_t>(id) : r.chance(500) ? view(0).id : r.odd_word();
      second = wide || r.chance(300) ? r.wide_set(members() - 1 < 8 ? members() : 8) : 1 + r.below(255);
      if (r.chance(20)) second = r.odd_long();
    } else if (kind == plain::kJoin || kind == plain::kOrder) {
      unsigned at = made() - 1 < room() ? made() : 1;
      second = view(r.chance(700) ? at - 1 : r.below(at)).id;
      if (kind == plain::kOrder && r.chance(900)) find_waiting(r, first, second);
      if (r.chance(20)) second = r.chance(300) ? second | uint64_t{1} << 32 : r.odd_long();
    } else if (kind == plain::kSend || r.chance(100)) {
      second = r.odd_long();
    }
    if (r.chance(10)) first = kind == plain::kCreate ? r.odd_word() : r.chance(500) ? members() : r.odd_word();
    return call(kind, first, second);
  }

  // A member and a view where some message waits, if a few looks find one.
  void find_waiting(Random& r, uint32_t& p, uint64_t& id) {
    for (unsigned n = 0; n < 6; ++n) {
      unsigned i = r.below(made() <= room() ? made() : 1), q = r.below(8);
      size_t at = plain::kQueuesHead + plain::kTableSize * i + plain::kOrderSize + plain::kWaitingSize * q;
      if (queues_.mine()[at] == 0) continue;
      p = q, id = view(i).id;
      return;
    }
  }

  // What is outgoing anywhere is passed, ordered and taken by all, as far as a few steps of each member go.
  void flow(Random& r) {
    for (unsigned p = 0; p < some_members(); ++p) {
      while (r.chance(800) && call(plain::kPass, p, 0) == plain::kAccepted) {
      }
      View carrier = plain::get_view(books_.mine() + plain::kBookSize * p + plain::kAtCarrier + 1);
      while (r.chance(900) && call(plain::kOrder, p, carrier.id) == plain::kAccepted) {
      }
    }
    for (unsigned p = 0; p < some_members(); ++p)
      while (r.chance(950) && call(plain::kDeliver, p, 0) == plain::kAccepted) {
      }
  }

  // All members do one step, or go to the newest view.
  void together(Random& r) {
    static const uint32_t kinds[] = {plain::kJoin,     plain::kJoin, plain::kAttempt, plain::kAttempt,
                                     plain::kRegister, plain::kHand, plain::kTell,    plain::kSafe,
                                     plain::kCollect};
    uint32_t kind = r.one_of(kinds);
    for (unsigned p = 0; p < some_members(); ++p)
      if (r.chance(950)) call(kind, p, kind == plain::kJoin ? newest().id : 0);
  }

  // The driver, most often of the newest view, which most often is made first.
  uint32_t some_form(Random& r, bool wide) {
    if (r.chance(600)) step(r, plain::kCreate, wide);
    uint32_t id = r.chance(900) ? newest().id : r.chance(700) ? view(r.below(made() - 1 < room() ? made() : 1)).id : r.odd_word();
    return form(id);
  }

  // A query by a set or an identifier that fits more often than not. One by a set is made again, with a buffer for exactly
  // what it listed, for one identifier fewer, or of any length about that.
  uint32_t some_query(Random& r) {
    if (r.chance(300)) {
      uint32_t id = view(r.below(made() - 1 < room() ? made() : 1)).id + r.below(3) - 1;
      return newest_before(r.chance(900) ? id : r.odd_word());
    }
    bool holds = r.chance(500);
    uint32_t set = r.chance(900) ? r.set(some_members()) : r.odd_word();
    lend_views(r, plain::kIdentifierSize * plain::kViews);
    uint32_t answer = holds ? holding(set) : crossing(set);
    if (answer != plain::kAccepted) return answer;
    size_t exact = plain::kIdentifierSize * listed();
    lend_views(r, r.chance(400) ? exact : r.chance(500) ? exact - (exact ? plain::kIdentifierSize : 0) : exact + r.below(9) - (exact ? 4 : 0));
    holds ? holding(set) : crossing(set);
    return answer;
  }

  // A list of any steps; now and then some member joins its own client view, which a carrier view below it lets it do.
  uint32_t some_list(Random& r, bool wide) {
    return as_list(r, [&] {
      if (r.chance(200)) together(r), flow(r);
      for (unsigned n = r.chance(50) ? 0 : r.between(1, 30); n > 0; --n) {
        uint32_t p = r.below(some_members());
        const uint8_t* client = books_.mine() + plain::kBookSize * p + plain::kAtClient + 1;
        if (r.chance(100)) call(plain::kJoin, p, plain::get_view(client).id);
        else if (r.chance(10)) call(r.chance(500) ? r.below(2) * 13 : r.byte(), r.odd_word(), r.odd_long());
        else step(r, r.between(1, 12), wide);
      }
    });
  }

  // A few bytes changed, a step or a list made; a refused one's damage is taken back.
  void damaged(Random& r) {
    struct { Lent* lent; size_t at; uint8_t was; } changes[8];
    unsigned count = 0;
    auto change = [&](Lent& lent, size_t at, uint8_t value) {
      changes[count++] = {&lent, at, lent.mine()[at]};
      lent.poke(at, value);
    };
    for (unsigned n = r.chance(700) ? 1 : r.between(1, 4); n > 0; --n) {
      unsigned which = r.below(10);
      if (which == 0 && made() > 1 && made() <= room() && r.chance(500)) {
        // An identifier like its neighbour's: its last bytes are all that most of them differ in.
        size_t at = plain::kViewSize * r.between(1, made() - 1) + 3;
        change(list_, at, static_cast<uint8_t>(list_.mine()[at - plain::kViewSize] + r.below(2)));
      } else if (which == 0) {
        size_t at = r.below(list_.size());
        change(list_, at, other_byte(r, list_.mine()[at]));
      } else if (which < 6) {
        size_t book = plain::kBookSize * r.below(members() <= 8 && r.chance(900) ? members() : 8);
        size_t at = book + book_place(r, books_.mine() + book);
        change(books_, at, other_byte(r, books_.mine()[at]));
      } else if (which == 9 && r.chance(300)) {
        // A mark, most often that of the first place after the views made.
        unsigned place = made() < plain::kViews && r.chance(500) ? made() : r.below(plain::kViews);
        size_t at = plain::kQueuesMarks + plain::kMarksSize - 1 - place / 8;
        change(queues_, at, static_cast<uint8_t>(queues_.mine()[at] ^ 1u << place % 8));
      } else {
        size_t at = queues_place(r, queues_.mine(), room());
        uint8_t was = queues_.mine()[at];
        change(queues_, at, at == 0 && r.chance(500) ? static_cast<uint8_t>(room() + 1) : other_byte(r, was));
      }
    }
    bool was_clean = clean_;
    clean_ = false;
    uint32_t answer = r.chance(50)    ? call(r.odd_word(), r.odd_word(), r.odd_long())
                      : r.chance(100) ? form(newest().id)
                      : r.chance(100) ? some_list(r, true)
                      : r.chance(150) ? some_query(r)
                                      : step(r, r.between(1, 12), true);
    if (answer == plain::kAccepted) return;
    clean_ = was_clean;
    while (count-- > 0) changes[count].lent->poke(changes[count].at, changes[count].was);
  }

 public:
  explicit GroupCases(Calls& c) : LentGroup(c) {}

  enum Style { kBalanced, kFilling, kMaking, kStyles };

  void history(Random& r) {
    static const unsigned weights[kStyles][12] = {
        // create, join, pass, order, deliver, attempt, register, send, hand, tell, safe, collect
        {3, 12, 24, 24, 40, 10, 8, 14, 14, 8, 10, 8},
        {1, 3, 30, 30, 30, 3, 2, 34, 14, 3, 8, 1},
        {10, 30, 30, 30, 50, 20, 2, 2, 2, 1, 1, 3},
    };
    unsigned style = r.below(kStyles), members = r.between(1, style == kMaking ? 4 : 8), sum = 0;
    for (unsigned w : weights[style]) sum += w;
    bool many = style == kMaking && r.chance(100);
    lend(r, many ? r.between(20, 32) : style == kBalanced ? r.between(2, 5) : some_room(r));
    for (Lent* lent : {&list_, &books_, &queues_}) r.fill(lent->mine(), lent->size()), lent->copy_to_theirs();
    bool wide = r.chance(700);
    auto first = wide ? static_cast<uint8_t>((1u << members) - 1) : r.set(members);
    c_.dvs_group_start(list_, books_, queues_, members, first);
    begin(members, first);
    unsigned length = r.chance(800) ? 200 : 2000;
    for (unsigned n = 0; n < length; ++n) {
      unsigned which = 0, at = r.below(sum);
      while (at >= weights[style][which]) at -= weights[style][which++];
      if (step(r, which + 1, wide) == plain::kRecordsUnsound) return;
      if (r.chance(40)) flow(r);
      if (r.chance(60)) together(r);
      if (r.chance(40)) damaged(r);
      if (r.chance(10)) some_form(r, wide);
      if (r.chance(15)) some_list(r, wide);
      if (r.chance(60)) some_query(r);
      if (r.chance(5)) call(r.chance(500) ? r.below(2) * 13 : r.odd_word(), r.odd_word(), r.odd_long());
    }
  }

  // A sound group that no steps need have left.
  void made_up(Random& r) {
    lend(r, some_room(r));
    clean_ = false;
    random_group(r, list_.range(), books_.range(), queues_.range());
    if (made() > 1 && r.chance(500)) raise_client(r, list_.range(), books_.range(), queues_.range());
    copy_to_theirs();
    for (unsigned n = r.between(10, 60); n > 0; --n) {
      if (r.chance(200)) some_list(r, true);
      if (step(r, r.between(1, 12), true) == plain::kRecordsUnsound) return;
      if (r.chance(500)) damaged(r);
      if (r.chance(50)) some_form(r, true);
      if (r.chance(200)) some_query(r);
    }
    c_.every_call(r.odd_long(), list_, books_, queues_);
  }

  // A list of steps as one run. What it leaves is looked at, and goes on by single steps.
  void run(Random& r) {
    static const uint8_t kinds[] = {plain::kCreate,  plain::kJoin,     plain::kPass, plain::kPass, plain::kOrder, plain::kOrder,
                                    plain::kDeliver, plain::kDeliver,  plain::kHand, plain::kSend, plain::kTell,  plain::kSafe,
                                    plain::kAttempt, plain::kRegister, plain::kCollect};
    unsigned members = r.between(1, 4), count = r.chance(100) ? 0 : r.between(1, 200);
    uint32_t views = 1;
    lend(r, some_room(r));
    if (r.chance(80)) list_.resize(plain::kViewSize * r.below(40), kBack);
    for (Lent* lent : {&list_, &books_, &queues_}) r.fill(lent->mine(), lent->size()), lent->copy_to_theirs();
    c_.steps.resize(plain::kStepSize * count + (r.chance(50) ? r.below(20) : 0), r.chance(500) ? kFront : kBack);
    r.fill(c_.steps.mine(), c_.steps.size());
    for (unsigned i = 0; i < count; ++i) {
      plain::StepRecord step{r.one_of(kinds), r.below(members), r.chance(900) ? views - 1 : r.below(views + 1)};
      if (step.kind == plain::kCreate) step.first = views++, step.second = r.set(members);
      if (r.chance(980)) plain::put_step(c_.steps.mine() + plain::kStepSize * i, step);
    }
    c_.answers.resize(plain::kAnswerSize * (r.chance(30) ? r.below(count + 3) : count), r.chance(500) ? kFront : kBack);
    r.fill(c_.answers.mine(), c_.answers.size());
    c_.steps.copy_to_theirs(), c_.answers.copy_to_theirs();
    auto all = static_cast<uint32_t>((1u << members) - 1);
    c_.dvs_group_run(list_, books_, queues_, r.chance(970) ? members : r.odd_word(), r.chance(900) ? all : r.chance(500) ? r.set(members) : r.odd_word());
    clean_ = false;
    c_.dvs_group_check(list_, books_, queues_);
    if (room() < 1 || room() > plain::kViews) return;
    for (unsigned n = 0; n < 5; ++n) call(r.between(1, 12), r.below(members), r.below(views));
    form(r.below(views));
    some_query(r);
  }

  // Bytes that mean nothing, or little.
  void noise(Random& r) {
    lend(r, r.between(1, 3));
    clean_ = false;
    for (Lent* lent : {&list_, &books_, &queues_}) r.fill(lent->mine(), lent->size());
    if (r.chance(800)) books_.mine()[0] = static_cast<uint8_t>(r.between(1, 8));
    if (r.chance(800)) queues_.mine()[plain::kQueuesMade] = static_cast<uint8_t>(r.between(1, 3));
    if (r.chance(800)) plain::put(queues_.mine() + plain::kQueuesMarks, plain::kMarksSize, r.below(4));
    if (r.chance(800)) queues_.mine()[plain::kQueuesLayout] = plain::kLayout;
    copy_to_theirs();
    for (unsigned n = r.between(1, 4); n > 0; --n)
      call(r.chance(900) ? r.between(1, 12) : r.odd_word(), r.below(9), r.odd_long());
    form(r.odd_word()), some_query(r);
    uint32_t members = r.chance(800) ? r.between(1, 8) : r.odd_word();
    c_.dvs_group_start(list_, books_, queues_, members, r.chance(800) ? r.between(1, 255) : r.odd_word());
  }
};

}  // namespace outside
