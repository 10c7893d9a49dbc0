// Every length of every lent range from 0 to more than the right one, null for those of length 0, and numbers at and
// beyond every limit. The same each time.
#pragma once

#include "calls.hpp"
#include "damage.hpp"
#include "generate.hpp"

namespace outside {

constexpr uint32_t kWords[] = {0, 1, 2, 3, 7, 8, 9, 15, 16, 31, 32, 127, 128, 254, 255, 256, 257, 511, 65535, 65536,
                               0x7fffffff, 0x80000000, 0xfffffffe, 0xffffffff};
constexpr uint64_t kLongs[] = {0, 1, 3, 7, 8, 255, 256, 257, 0xffffffff, 0x100000000, 0x100000001, 0x100000003,
                               0x7fffffffffffffff, 0x8000000000000000, 0xffffffffffffffff};

class Edges {
  Calls& c_;
  Random r_{1};
  Lent book_{"book", plain::kBookSize + 64};
  Lent list_{"list", 5 * 40}, books_{"books", plain::kBooksSize + 64, false};
  Lent queues_{"queues", plain::queues_size(plain::kViews + 2) + 64, false};

  // A range of another length with the contents it had; the rest is noise.
  void cut(Lent& lent, size_t size, bool null) {
    lent.resize(size, null && size == 0 ? kNull : size % 2 ? kFront : kBack);
    lent.copy_to_theirs();
  }

  void all_calls() {
    c_.dvs_join(book_, 1, 3), c_.dvs_pass(book_), c_.dvs_deliver(book_, 0), c_.dvs_deliver_packet(book_, 0), c_.dvs_attempt(book_);
    c_.dvs_register(book_), c_.dvs_send(book_, 5);
    c_.dvs_hand(book_), c_.dvs_tell(book_), c_.dvs_safe(book_), c_.dvs_collect(book_), c_.dvs_check(book_);
  }

  void book_lengths() {
    for (size_t size = 0; size <= plain::kBookSize + 20; ++size) {
      cut(book_, plain::kBookSize, false);
      c_.dvs_start(book_, 2, 3, 0);
      for (unsigned null = 0; null < (size == 0 ? 2 : 1); ++null) {
        cut(book_, size, null == 1);
        all_calls(), c_.dvs_start(book_, 2, 3, 0);
        c_.every_call(1, book_);
      }
    }
  }

  void other_lengths() {
    for (size_t size = 0; size <= 64; ++size) {
      for (unsigned null = 0; null < (size == 0 ? 2 : 1); ++null) {
        for (bool sound : {true, false}) {
          c_.usual(), cut(book_, plain::kBookSize, false), c_.dvs_start(book_, 2, 3, 0);
          if (!sound) book_.poke(0, 0);
          cut(c_.event, size, null == 1), cut(c_.length, size <= 16 ? size : 4, null == 1);
          cut(c_.bytes, size, null == 1), cut(c_.buffer, size, null == 1), cut(c_.delivery, size, null == 1);
          all_calls();
          cut(c_.length, 4, false);
          c_.dvs_join(book_, 2, 3), c_.dvs_pass(book_), c_.dvs_pass(book_);
          cut(c_.length, size <= 16 ? size : 4, null == 1), c_.every_call(0, book_), c_.every_call(0);
        }
      }
    }
    c_.usual();
    for (size_t size = 0; size <= plain::kRecordSize + 20; ++size)
      for (unsigned null = 0; null < 2; ++null) cut(c_.message, size, null == 1), c_.dvs_read(), c_.dvs_read_front(), c_.dvs_write();
    c_.usual();
    for (size_t size = 0; size <= 16; ++size) {
      plain::Message registered;
      registered.kind = plain::kRegistered;
      plain::store_record(registered, c_.message.mine()), c_.message.copy_to_theirs();
      cut(c_.length, size, true), c_.dvs_write();
      cut(c_.length, 4, true), cut(c_.buffer, size, true), c_.dvs_write();
    }
    c_.usual();
  }

  // A registration in view 0 or 1, and behind it another one or a byte that is none: every length of the message's record
  // and of the number beside it, and every length of the delivery, of a book that is sound, that has no carrier view, whose
  // own number is no member's, and that is no sound one. Each with no bytes, which are no packet's message.
  void packet_lengths() {
    static const uint8_t packet[] = {3, 0, 0, 0, 1, 0, 0, 3, 0, 0, 0, 1, 0, 0, 0};
    for (size_t record = 0; record <= plain::kRecordSize + 20; ++record)
      for (size_t length = 0; length <= 16; ++length)
        for (size_t bytes : {sizeof packet, size_t{7}, size_t{6}, size_t{0}}) {
          c_.bytes.set(packet, bytes, bytes == 0 && record % 2 ? kNull : kBack);
          cut(c_.message, record, true), cut(c_.length, length, true), c_.dvs_read_front();
        }
    c_.usual(), cut(book_, plain::kBookSize, false);
    for (size_t delivery = 0; delivery <= 64; ++delivery)
      for (unsigned kind = 0; kind < 4; ++kind)
        for (size_t bytes = 0; bytes <= sizeof packet; ++bytes) {
          c_.dvs_start(book_, 2, kind == 1 ? 2 : 3, 0);
          if (kind != 1) c_.dvs_join(book_, 1, 3);
          if (kind == 2) book_.poke(plain::kAtOwn, 2);
          if (kind == 3) book_.poke(plain::kAtSide, 2);
          c_.bytes.set(packet, bytes, bytes == 0 && delivery % 2 ? kNull : bytes % 2 ? kFront : kBack);
          cut(c_.delivery, delivery, kind % 2 == 1), c_.dvs_deliver_packet(book_, 1), c_.dvs_deliver_packet(book_, 2);
        }
    c_.usual();
  }

  void numbers() {
    cut(book_, plain::kBookSize, false);
    for (uint32_t members = 0; members <= 9; ++members)
      for (uint32_t set = 0; set <= 257; ++set)
        for (uint32_t own = 0; own <= 9; ++own) c_.dvs_start(book_, members, set, own);
    for (uint32_t a : kWords)
      for (uint32_t b : kWords)
        for (uint32_t c : kWords) c_.dvs_start(book_, a, b, c);
    for (uint32_t id : kWords)
      for (uint32_t set : kWords)
        for (uint32_t own : {0u, 7u}) c_.dvs_start(book_, 8, 0x81, own), c_.dvs_join(book_, id, set), c_.dvs_join(book_, id, set);
    for (uint32_t sender : kWords) {
      c_.dvs_start(book_, 8, 0x83, 7), c_.dvs_join(book_, 1, 0x83), c_.dvs_pass(book_);
      c_.bytes.set(c_.buffer.mine(), plain::get(c_.length.mine(), 4), kBack);
      c_.dvs_deliver(book_, sender), c_.dvs_deliver_packet(book_, sender);
    }
    for (uint64_t entry : kLongs) {
      c_.dvs_start(book_, 1, 1, 0), c_.dvs_send(book_, entry), c_.dvs_pass(book_);
      c_.bytes.set(c_.buffer.mine(), plain::get(c_.length.mine(), 4), kBack);
      c_.dvs_deliver(book_, 0), c_.dvs_hand(book_);
    }
  }

  void group_lengths() {
    auto lend = [&](size_t list, size_t books, size_t queues) {
      cut(list_, list, true), cut(books_, books, true), cut(queues_, queues, true);
    };
    auto calls = [&] {
      c_.dvs_group_step(list_, books_, queues_, plain::kSend, 0, 5), c_.dvs_group_step(list_, books_, queues_, 13, 255, 0);
      c_.dvs_group_steps(list_, books_, queues_);
      c_.dvs_group_start(list_, books_, queues_, 2, 3), c_.dvs_group_start(list_, books_, queues_, 9, 0);
      c_.dvs_group_start(list_, books_, queues_, 2, 4), c_.dvs_group_check(list_, books_, queues_);
      c_.dvs_group_run(list_, books_, queues_, 9, 0), c_.dvs_group_run(list_, books_, queues_, 2, 4);
      c_.dvs_group_run(list_, books_, queues_, 2, 3), c_.dvs_group_check(list_, books_, queues_);
      c_.dvs_group_form(list_, books_, queues_, 0), c_.dvs_group_form(list_, books_, queues_, 1);
      c_.every_call(1, list_, books_, queues_);
    };
    auto fresh = [&] { lend(10, plain::kBooksSize, plain::queues_size(2)), c_.dvs_group_start(list_, books_, queues_, 2, 3); };
    for (size_t list = 0; list <= 5 * 36; ++list) {
      fresh();
      // The queues of the list's own room, and of another. Long ones are tried at whole records alone.
      for (size_t room : {list / 5, size_t{1}})
        if (room <= 34 && (room < 4 || list % 5 == 0)) lend(list, plain::kBooksSize, plain::queues_size(room)), calls();
    }
    for (size_t books = 0; books <= plain::kBooksSize + 20; books += books < 40 || books + 40 > plain::kBooksSize ? 1 : 13)
      fresh(), lend(10, books, plain::queues_size(2)), calls();
    for (size_t queues = 0; queues <= plain::queues_size(3) + 20; queues += queues < 80 ? 1 : 499)
      fresh(), lend(10, plain::kBooksSize, queues), calls();
    for (size_t room = 1; room <= 3; ++room)
      for (size_t off = 0; off <= 40; ++off)
        fresh(), lend(10, plain::kBooksSize, plain::queues_size(room) + off - 20), calls();
    for (size_t event = 0; event <= 40; ++event) {
      fresh(), cut(c_.event, event, true), calls();
      books_.poke(0, 0), calls();
    }
    c_.usual();
  }

  // A view that could be formed: every length of the count, and numbers near its identifier.
  void forms() {
    cut(list_, 10, false), cut(books_, plain::kBooksSize, false), cut(queues_, plain::queues_size(2), false);
    for (size_t count = 0; count <= 40; ++count) {
      for (bool sound : {true, false}) {
        c_.dvs_group_start(list_, books_, queues_, 2, 3), c_.dvs_group_step(list_, books_, queues_, plain::kCreate, 9, 3);
        if (!sound) books_.poke(0, 0);
        cut(c_.count, count, true);
        for (uint32_t view : {8u, 0u, 9u}) c_.dvs_group_form(list_, books_, queues_, view);
      }
    }
    c_.usual();
    for (uint32_t id : kWords) {
      c_.dvs_group_start(list_, books_, queues_, 8, 255), c_.dvs_group_step(list_, books_, queues_, plain::kCreate, id, 255);
      for (uint32_t view : kWords) c_.dvs_group_form(list_, books_, queues_, view);
    }
  }

  // Two views that were attempted and one that was not: every length of the buffer, of the count and of what was found, numbers
  // near every limit, in a group that is sound and in one that is not.
  void queries() {
    cut(list_, 15, false), cut(books_, plain::kBooksSize, false), cut(queues_, plain::queues_size(3), false);
    c_.dvs_group_start(list_, books_, queues_, 8, 255);
    for (uint32_t id : {7u, 9u}) c_.dvs_group_step(list_, books_, queues_, plain::kCreate, id, 31);
    queues_.poke(plain::kQueuesMarks + 3, 5);
    auto calls = [&](uint32_t set, uint32_t id) {
      c_.dvs_group_crossing(list_, books_, queues_, set), c_.dvs_group_holding(list_, books_, queues_, set);
      c_.dvs_group_newest_before(list_, books_, queues_, id);
    };
    for (bool sound : {true, false}) {
      queues_.poke(plain::kQueuesLayout, sound ? plain::kLayout : 0);
      for (size_t size = 0; size <= 140; ++size)
        for (size_t count = 0; count <= 8; ++count)
          for (uint32_t set : {31u, 0xe0u, 0u})
            cut(c_.views, size, true), cut(c_.count, count, true), cut(c_.found, size % 64, true), calls(set, 9);
      c_.usual();
      for (uint32_t set = 0; set <= 257; ++set) calls(set, set);
      for (uint32_t word : kWords) calls(word, word);
      for (size_t at = 0; at < plain::kQueuesHead; ++at)
        for (unsigned bit = 0; bit < 8; ++bit) {
          uint8_t was = queues_.mine()[at];
          queues_.poke(at, static_cast<uint8_t>(was ^ 1u << bit)), c_.every_call(9, list_, books_, queues_), calls(255, 9);
          queues_.poke(at, was);
        }
    }
  }

  // Every length of the steps with every length of the answers: only whole records, as many of each, are taken. A list by
  // itself is applied to a group that is sound and to one that is not.
  void run_lengths() {
    cut(list_, 10, false), cut(books_, plain::kBooksSize, false), cut(queues_, plain::queues_size(2), false);
    for (size_t i = 0; i < 5; ++i) plain::put_step(c_.steps.mine() + plain::kStepSize * i, {plain::kSend, 0, i});
    for (size_t steps = 0; steps <= 4 * plain::kStepSize; ++steps)
      for (size_t answers = 0; answers <= 4 * plain::kAnswerSize; ++answers) {
        cut(c_.steps, steps, true), cut(c_.answers, answers, true);
        c_.dvs_group_run(list_, books_, queues_, 2, steps % 2 ? 0 : 3);
        for (uint8_t members : {2, 0, 2}) books_.poke(plain::kAtMembers, members), c_.dvs_group_steps(list_, books_, queues_);
      }
    for (uint32_t members : kWords)
      for (uint32_t set : kWords) c_.dvs_group_run(list_, books_, queues_, members, set);
    c_.usual();
  }

  void group_numbers() {
    cut(list_, 10, false), cut(books_, plain::kBooksSize, false), cut(queues_, plain::queues_size(2), false);
    for (uint32_t members : kWords)
      for (uint32_t set : kWords) c_.dvs_group_start(list_, books_, queues_, members, set);
    c_.dvs_group_start(list_, books_, queues_, 3, 7);
    for (uint32_t kind : kWords)
      for (uint32_t first : kWords)
        for (uint64_t second : {uint64_t{0}, uint64_t{1}, UINT64_MAX})
          c_.dvs_group_step(list_, books_, queues_, kind, first, second);
    for (uint32_t kind = 0; kind <= 13; ++kind)
      for (uint32_t first : kWords)
        for (uint64_t second : kLongs) c_.dvs_group_step(list_, books_, queues_, kind, first, second);
  }

  // Every number of items in an inward list, and the sender of each, or of the place behind the last, no member.
  void inward_columns() {
    cut(book_, plain::kBookSize, false), c_.dvs_start(book_, 3, 7, 0);
    for (unsigned count = 0; count <= plain::kOrdered + 1; ++count) {
      book_.poke(plain::kAtTaken, static_cast<uint8_t>(count < plain::kOrdered ? count : plain::kOrdered));
      book_.poke(plain::kAtInward0, static_cast<uint8_t>(count)), c_.dvs_check(book_);
      for (unsigned i = 0; i <= count && i < plain::kOrdered; ++i) {
        size_t sender = plain::kAtInward0 + plain::kItemSenders + i;
        book_.poke(sender, 3), c_.dvs_check(book_), book_.poke(sender, 2);
      }
    }
  }

  // An info in view 1: the settled view, and open views at every fourth identifier above it, off those by `off`, but for
  // every `alike`-th of them.
  void inform(uint32_t settled, unsigned opens, uint32_t off, unsigned alike, uint8_t set, uint32_t sender) {
    plain::Message m;
    m.kind = plain::kInfo, m.view = 1;
    m.views[m.count++] = View{settled, set};
    for (uint32_t id = settled - settled % 4 + 4; m.count <= opens; id += 4)
      m.views[m.count] = View{m.count % alike ? id + off : id, set}, ++m.count;
    uint8_t bytes[plain::kLongest];
    plain::write(m, bytes, sizeof bytes);
    c_.bytes.set(bytes, plain::length(m), kBack);
    c_.dvs_deliver(book_, sender);
  }

  // Every number of open views beside every number of views in an info: none of its open views, every third or each of
  // them open already, and its settled view below all that are open, between two of them, one of them, above them all.
  void long_infos() {
    cut(book_, plain::kBookSize, false);
    for (unsigned own = 0; own <= plain::kOpen; ++own)
      for (unsigned opens = 0; opens <= plain::kOpen; ++opens)
        for (unsigned alike : {1u, 3u, 2 * plain::kViews})
          for (uint32_t settled : {0u, 2 * own + 1, 4 * (own / 2), 4 * own + 1}) {
            c_.dvs_start(book_, 3, 7, 0), c_.dvs_join(book_, 1, 7);
            inform(0, own, 0, 1, 7, 0), inform(settled, opens, 2, alike, 3, 1);
            c_.dvs_attempt(book_);
          }
  }

  // Every number of entries in an order of all four kinds, and each of them, or the place behind the last, at fault.
  void order_columns() {
    cut(list_, 5, false), cut(books_, plain::kBooksSize, false), cut(queues_, plain::queues_size(1), false);
    c_.dvs_group_start(list_, books_, queues_, 3, 7);
    constexpr size_t at = plain::kQueuesHead;
    for (unsigned i = 0; i < plain::kOrdered; ++i) {
      plain::Message m;
      m.kind = static_cast<uint8_t>(1 + i % 7 % 4), m.number = m.kind == plain::kTold ? 1 + i : i;
      if (m.kind == plain::kInfo) m.views[m.count++] = View{0, 7};
      plain::Slot entry;
      entry.write(static_cast<uint8_t>(i % 3), m), plain::Order{queues_.mine() + at}.write(i, entry);
    }
    queues_.copy_to_theirs();
    static const struct { size_t column; uint8_t value; } faults[] = {
        {plain::kOrderSenders, 3}, {plain::kOrderKinds, 0}, {plain::kOrderKinds, 5},
        {plain::kOrderCounts, 0},  {plain::kOrderCounts, 33}, {plain::kOrderCounts, 129}};
    for (unsigned count = 0; count <= plain::kOrdered + 1; ++count) {
      queues_.poke(at, static_cast<uint8_t>(count)), c_.dvs_group_check(list_, books_, queues_);
      for (unsigned i = 0; i <= count && i < plain::kOrdered; ++i) {
        auto fault = faults[(i + count) % (sizeof faults / sizeof faults[0])];
        uint8_t was = queues_.mine()[at + fault.column + i];
        queues_.poke(at + fault.column + i, fault.value), c_.dvs_group_check(list_, books_, queues_);
        queues_.poke(at + fault.column + i, was);
      }
    }
  }

 public:
  explicit Edges(Calls& c) : c_(c) {
    for (Lent* lent : {&book_, &list_, &books_, &c_.event, &c_.length, &c_.bytes, &c_.buffer, &c_.message, &c_.answers, &c_.count,
                       &c_.delivery, &c_.views, &c_.found}) {
      uint8_t noise[64];
      r_.fill(noise, sizeof noise);
      memcpy(lent->mine(), noise, lent == &c_.length ? 16 : 64);
    }
  }

  void run() {
    c_.usual();
    book_lengths(), other_lengths(), packet_lengths(), numbers(), group_lengths(), forms(), run_lengths(), group_numbers();
    inward_columns(), long_infos(), order_columns(), queries();
  }
};

}  // namespace outside
