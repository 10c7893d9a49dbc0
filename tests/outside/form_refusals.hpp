// The driver on made-up records, each refusal among its steps with its answer: what its view's queues and its servers'
// books hold before it is what no steps leave there. Every unused place has noise in it, and after a refusal every byte is
// as it was. The library is asked beside the plain implementation as ever.
#pragma once

#include <vector>

#include "lent_group.hpp"

namespace outside {

class FormRefusals : LentGroup {
  static constexpr uint32_t kFormedCount = 42;
  bool right_ = true;
  Random r_{5};
  View first_{0, 15}, lone_{3, 8}, new_{9, 7};  // held by all; made, and joined by nobody; the one to form

  uint8_t* book(unsigned p) { return books_.mine() + plain::kBookSize * p; }
  uint8_t* order() { return queues_.mine() + plain::kQueuesHead + plain::kTableSize * 2; }
  uint8_t* waiting(unsigned p) { return order() + plain::kOrderSize + plain::kWaitingSize * p; }

  // Noise wherever a started group has nothing. Of the head the number of views made, the marks and the layout's number stay.
  void scatter() {
    std::vector<uint8_t> was(books_.mine(), books_.mine() + books_.size());
    r_.fill(books_.mine(), books_.size());
    for (unsigned p = 0; p < 4; ++p) {
      memcpy(book(p), &was[plain::kBookSize * p], plain::kAtTolds + 4);
      for (size_t at : {plain::kAtSide, plain::kAtOpen, plain::kAtOutgoing, plain::kAtInward0, plain::kAtInward1}) book(p)[at] = 0;
    }
    r_.fill(list_.mine() + plain::kViewSize, list_.size() - plain::kViewSize);
    r_.fill(queues_.mine() + plain::kQueuesFree, queues_.size() - plain::kQueuesFree);
    uint8_t* table = queues_.mine() + plain::kQueuesHead;
    table[0] = 0;
    for (unsigned p = 0; p < 4; ++p) table[plain::kOrderSize + plain::kWaitingSize * p] = 0;
    copy_to_theirs();
  }

  // Four servers in the first view, and two further views that nobody joined.
  void fresh() {
    lend(r_, 4), clean_ = false;
    c_.dvs_group_start(list_, books_, queues_, 4, first_.set);
    scatter();
    call(plain::kCreate, lone_.id, lone_.set), call(plain::kCreate, new_.id, new_.set);
  }

  // What a case puts there. The carrier view is the first one, and nothing of it was taken.
  void set_client(unsigned p, unsigned items) {
    book(p)[plain::kAtClient] = 1, plain::put_view(book(p) + plain::kAtClient + 1, new_);
    book(p)[plain::kAtInward0] = static_cast<uint8_t>(items);
    for (unsigned i = 0; i < items; ++i) book(p)[plain::kAtInward0 + plain::kItemSenders + i] = static_cast<uint8_t>(i % 4);
  }
  void set_settled(unsigned p) { plain::put_view(book(p) + plain::kAtSettled, new_); }
  void set_open(unsigned p, const View& v) {
    book(p)[plain::kAtOpen] = 1, plain::put_view(book(p) + plain::kAtOpen + 1, v);
  }
  void set_carrier(unsigned p) { plain::put_view(book(p) + plain::kAtCarrier + 1, new_); }

  plain::Slot entry(uint8_t kind, unsigned sender, bool tells_lone = false) {
    plain::Message m;
    m.kind = kind, m.number = 1 + r_.below(128);
    if (kind == plain::kInfo) m.views[m.count++] = first_;
    if (kind == plain::kInfo && tells_lone) m.views[m.count++] = lone_;
    plain::Slot slot;
    r_.fill(slot.bytes, sizeof slot.bytes);
    slot.write(static_cast<uint8_t>(sender), m);
    return slot;
  }
  void put_waiting(unsigned p, uint8_t kind, unsigned times = 1, bool tells_lone = false) {
    while (times-- > 0) plain::Queue{waiting(p)}.push(entry(kind, p, tells_lone));
  }
  void put_ordered(uint8_t kind, unsigned sender, bool tells_lone = false) {
    plain::Order{order()}.push(entry(kind, sender, tells_lone));
  }
  void put_all_ordered(uint8_t kind) {
    for (unsigned p = 0; p < 3; ++p) put_ordered(kind, p);
  }
  void fill_order(uint8_t kind, unsigned count) {
    while (order()[0] < count) put_ordered(kind, order()[0] % 4u);
  }

  // The case that was put there since `fresh` is sound, and gets this answer; what is refused leaves every byte.
  void expect(const char* what, uint32_t expected) {
    copy_to_theirs();
    uint32_t sound = c_.dvs_group_check(list_, books_, queues_);
    std::vector<uint8_t> bytes[4];
    Lent* ranges[] = {&list_, &books_, &queues_, &c_.count};
    for (unsigned i = 0; i < 4; ++i) bytes[i].assign(ranges[i]->theirs(), ranges[i]->theirs() + ranges[i]->size());
    uint32_t answer = form(new_.id);
    bool same = true;
    for (unsigned i = 0; i < 4; ++i) same = same && memcmp(bytes[i].data(), ranges[i]->theirs(), bytes[i].size()) == 0;
    if (answer == 0) same = plain::get(c_.count.theirs(), plain::kLengthSize) != kFormedCount;
    if (sound != 0 || answer != expected || same != (expected != 0)) {
      printf("DIFFERENCE in dvs_group_form of made-up records, %s: %u, expected %u, or a byte changed\n", what, answer, expected);
      right_ = false;
    }
    fresh();
  }

  void books() {
    for (unsigned p = 0; p < 3; ++p) {
      set_client(p, 0), expect("client view", 19);
      for (unsigned items : {1u, 2u, 128u}) set_client(p, items), expect("client view with items", 4);
      set_settled(p), expect("settled view", 30);
      set_open(p, new_), expect("open view", 0);
      set_open(p, lone_), expect("an open view that fails the test", 45);
      set_carrier(p), expect("carrier view", 44);
      for (unsigned q = 0; q < 3; ++q) set_settled(p), set_client(q, 0), expect("settled here, client view there", 19);
    }
    for (unsigned p = 0; p < 4; ++p) set_carrier(p), book(p)[plain::kAtCarrier] = 0, expect("no carrier view, its bytes unused", 0);
    // A member outside the view is asked for its carrier view, and for nothing else.
    set_carrier(3), expect("carrier view of one outside it", 44);
    set_client(3, 7), expect("client view of one outside it", 0);
    set_settled(3), expect("settled view of one outside it", 0);
    set_open(3, lone_), expect("open view of one outside it", 0);
  }

  // 1 to 8 waiting of each kind, which go before what the driver passes.
  void waiting_entries() {
    for (uint8_t kind : {plain::kClient, plain::kInfo, plain::kRegistered, plain::kTold})
      for (unsigned p = 0; p < 4; ++p)
        for (unsigned n = 1; n <= 8; ++n) {
          put_waiting(p, kind, n);
          expect("entries waiting", p == 3 ? 0 : n == 8 ? 15 : kind == plain::kInfo ? 31 : 20);
        }
    for (unsigned p = 0; p < 3; ++p) {
      put_waiting(p, plain::kInfo, 1, true), expect("an info waiting that tells of a lone view", 21);
      put_waiting(p, plain::kInfo), put_waiting(p, plain::kRegistered), expect("both messages waiting", 0);
    }
  }

  // 1 to 128 ordered of each kind, from the front, behind three infos, and behind three registrations too.
  void ordered_entries() {
    for (uint8_t kind : {plain::kClient, plain::kInfo, plain::kRegistered, plain::kTold})
      for (unsigned n = 1; n <= plain::kOrdered; ++n) {
        bool full = n > plain::kOrdered - 3, full_later = n > plain::kOrdered - 6;
        fill_order(kind, n);
        expect("entries ordered", full ? 16 : kind != plain::kInfo || n < 3 ? 20 : full_later ? 16 : 31);
        if (n < 3) continue;
        put_all_ordered(plain::kInfo), fill_order(kind, n);
        expect("entries behind the infos", full_later ? 16 : 31);
        if (n < 6) continue;
        put_all_ordered(plain::kInfo), put_all_ordered(plain::kRegistered), fill_order(kind, n);
        expect("entries behind both", full_later ? 16 : 0);
      }
  }

  // Of two the first in the order of the steps.
  void first_of_two() {
    fill_order(plain::kTold, 128), put_waiting(2, plain::kClient, 8), expect("passes before orders", 15);
    fill_order(plain::kTold, 128), set_client(0, 0), expect("orders before attempts", 16);
    put_waiting(0, plain::kClient, 8), set_client(2, 1), expect("joins before passes", 4);
    put_ordered(plain::kClient, 0), set_client(0, 0), expect("server 0 before server 2", 19);
    put_ordered(plain::kClient, 0), set_client(2, 0), expect("server 0 before server 2", 20);
    put_waiting(1, plain::kInfo, 1, true), set_client(1, 0), expect("server 0 before server 1", 21);
    put_waiting(1, plain::kInfo, 1, true), set_client(0, 0), expect("server 0 before server 1", 19);
    put_waiting(0, plain::kInfo), put_waiting(0, plain::kClient), set_settled(0), expect("server 0 before server 1", 30);
    put_waiting(2, plain::kInfo), put_waiting(2, plain::kClient), set_settled(2), expect("server 0 before server 2", 31);
  }

 public:
  explicit FormRefusals(Calls& c) : LentGroup(c) {}

  // False if an answer is not the one worked out here.
  bool run() {
    fresh();
    books(), waiting_entries(), ordered_entries(), first_of_two();
    return right_;
  }
};

}  // namespace outside
