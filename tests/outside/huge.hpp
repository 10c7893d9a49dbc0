// Lengths beyond 32 bits whose last four bytes look like a right length: none may be taken for it. The ranges are real
// memory as far as addresses go, and nobody touches more than their fronts.
#pragma once

#include <initializer_list>
#include <vector>

#include "calls.hpp"

namespace outside {

class Huge {
  static constexpr size_t kFar = size_t{1} << 32, kFrontSize = 1 << 17;
  uint8_t* at_ = nullptr;
  uint8_t was_[kFrontSize];
  bool right_ = true;
  unsigned calls_ = 0;

  // Room for five times 32 bits, 10 bytes more, and as much as any queue has behind it.
  static constexpr size_t kAll = 5 * kFar + (size_t{1} << 21);

  // The ranges of calls.inc: those of a group with room for two views, and one step with its answer. A buffer for identifiers may have any length.
  enum Range : unsigned {
#define RANGE(name, length) k_##name,
#include "calls.inc"
    kRanges
  };
  static constexpr size_t ANY = 0, VIEWS = 2, RECORDS = 1, PLACES = 0;
  static constexpr size_t kRight[kRanges] = {
#define RANGE(name, length) length,
#include "calls.inc"
  };
  std::vector<uint8_t> own_[kRanges];
  unsigned far_ = kRanges;  // the range that is lent with a length beyond 32 bits

  uint8_t* at(Range r) { return r == far_ ? at_ : own_[r].data(); }
  size_t size(Range r) { return r == far_ ? kFar + own_[r].size() : own_[r].size(); }

  void lend(const uint8_t* bytes, size_t size) {
    memset(at_, 0, kFrontSize);
    memcpy(at_, bytes, size);
    memcpy(was_, at_, kFrontSize);
  }

  // The answer must be this; what is lent stays but for the first `changed` bytes.
  void expect(const char* name, uint32_t answer, uint32_t expected, size_t changed = 0) {
    ++calls_;
    if (answer == expected && memcmp(at_ + changed, was_ + changed, kFrontSize - changed) == 0) return;
    printf("DIFFERENCE in %s with a length beyond 32 bits: %u, expected %u, or a byte changed\n", name, answer, expected);
    right_ = false;
  }

  // A member, a message and a group as they are started, in the ranges.
  void start() {
    for (unsigned r = 0; r < kRanges; ++r) own_[r].assign(kRight[r], 0);
    own_[k_bytes] = {plain::kRegistered, 0, 0, 0, 0, 0, 0}, own_[k_buffer].resize(plain::kLongest);
    own_[k_message][0] = plain::kRegistered;
    plain::store_fresh(own_[k_book].data(), 2, 3, 0);
    if (dvs_group_start(at(k_list), size(k_list), at(k_books), size(k_books), at(k_queues), size(k_queues), 2, 3) != 0) right_ = false;
  }

  // A call with each of its ranges in turn too long, if it is one that has a right length: it is refused, and nothing changes.
  template <class Call> void each(const char* name, std::initializer_list<unsigned> taken, Call call) {
    for (unsigned r : taken) {
      if (r == kRanges || kRight[r] == ANY) continue;
      start(), lend(own_[r].data(), own_[r].size());
      std::vector<uint8_t> before[kRanges];
      for (unsigned i = 0; i < kRanges; ++i) before[i] = own_[i];
      far_ = r, expect(name, call(), DVS_REFUSED_RECORDS_UNSOUND), far_ = kRanges;
      for (unsigned i = 0; i < kRanges; ++i)
        if (own_[i] != before[i]) expect(name, 1, 0);
    }
  }

  void every_call() {
#define RANGE_OF(range) k_##range
#define NO_RANGE(type, name) kRanges
#define LENT(range) at(k_##range), size(k_##range)
#define ONE(type, name) type{1}
#define CALL(name, ...) each(#name, {name##_takes(RANGE_OF, RANGE_OF, NO_RANGE)}, [&] { return ::name(name##_takes(LENT, LENT, ONE)); });
#include "calls.inc"
#undef RANGE_OF
#undef NO_RANGE
#undef LENT
#undef ONE
  }

  // Ranges that may have any length.
  void member() {
    uint8_t fresh[plain::kBookSize], book[plain::kBookSize], length[plain::kLengthSize] = {}, delivery[plain::kDeliverySize] = {};
    uint8_t registered[7] = {3, 0, 0, 0, 0, 0, 0};
    plain::store_fresh(fresh, 2, 3, 0);
    memcpy(book, fresh, sizeof book);
    // Of a buffer only the message's place is written.
    lend(fresh, sizeof fresh);
    if (dvs_join(book, sizeof book, 1, 3) != 0) right_ = false;
    expect("dvs_pass", dvs_pass(book, sizeof book, at_, kFar, length, sizeof length), 0, 12);
    memcpy(book, fresh, sizeof book);
    lend(registered, sizeof registered);
    expect("dvs_deliver", dvs_deliver(book, sizeof book, at_, kFar + 7, 0), 38);
    if (memcmp(book, fresh, sizeof book) != 0) expect("a book", 1, 0);
    // The packet's first message is taken, and behind it is none.
    expect("dvs_deliver_packet", dvs_deliver_packet(book, sizeof book, at_, kFar + 7, 0, delivery, sizeof delivery), 0);
    expect("a packet's count", static_cast<uint32_t>(dvs_delivery_count(delivery)), 1);
    expect("a packet's stop", dvs_delivery_stopped(delivery), 33);
    expect("the messages taken", book[plain::kAtTaken], 1);
  }

  void messages() {
    uint8_t registered[7] = {3, 0, 0, 0, 0, 0, 0}, record[plain::kRecordSize] = {3}, length[plain::kLengthSize];
    lend(registered, sizeof registered);
    expect("dvs_read", dvs_read(at_, kFar + 7, record, sizeof record), 38);
    expect("dvs_read_front", dvs_read_front(at_, kFar + 7, record, sizeof record, length, sizeof length), 0);
    expect("the bytes it took", static_cast<uint32_t>(dvs_length(length)), 7);
    expect("dvs_write", dvs_write(record, sizeof record, at_, kFar, length, sizeof length), 0, 7);
  }

  // Lists and steps of whole records.
  void group() {
    start();
    uint8_t *l = at(k_list), *b = at(k_books), *q = at(k_queues), *event = at(k_event), *count = at(k_count), *step = at(k_steps), *answer = at(k_answers);
    size_t books_size = size(k_books), queues_size = size(k_queues);
    lend(l, 10);
    for (size_t far : {kFar * 5 + 10, kFar + 4 + 10}) {
      expect("dvs_group_step", dvs_group_step(at_, far, b, books_size, q, queues_size, 8, 0, 5, event, 16), 4);
      expect("dvs_group_form", dvs_group_form(at_, far, b, books_size, q, queues_size, 0, count, 4), 4);
      expect("dvs_group_steps", dvs_group_steps(at_, far, b, books_size, q, queues_size, step, 13, answer, 17), 4);
      expect("dvs_group_start", dvs_group_start(at_, far, b, books_size, q, queues_size, 2, 3), 3);
      expect("dvs_group_start", dvs_group_start(at_, far + 1, b, books_size, q, queues_size, 2, 3), 4);
    }
    // 330382100 steps of 13 bytes are 4 bytes more than 32 bits hold; the answers are one record.
    lend(step, 13);
    size_t steps = plain::kStepSize * ((kFar + plain::kStepSize) / plain::kStepSize);
    expect("dvs_group_run", dvs_group_run(l, 10, b, books_size, q, queues_size, 2, 3, at_, steps, answer, 17), 4);
    expect("dvs_group_steps", dvs_group_steps(l, 10, b, books_size, q, queues_size, at_, steps, answer, 17), 4);
    queries();
  }

  // A buffer whose length, in bytes or in identifiers, is 0 or one identifier's in 32 bits: it has room for the first view, whose place alone is written.
  // Bytes that are no whole identifier are still refused.
  void queries() {
    uint8_t *l = at(k_list), *b = at(k_books), *q = at(k_queues), *count = at(k_count);
    size_t list_size = size(k_list), books_size = size(k_books), queues_size = size(k_queues);
    const std::vector<uint8_t> noise(64, 0x5a);
    for (auto query : {dvs_group_crossing, dvs_group_holding})
      for (size_t far : {kFar, kFar + 4, 4 * kFar, 4 * kFar + 4}) {
        lend(noise.data(), noise.size());
        expect("a query", query(l, list_size, b, books_size, q, queues_size, 3, at_, far, count, 4), 0, 4);
        expect("the identifier that it found", dvs_identifier(at_, 0) + static_cast<uint32_t>(dvs_length(count)), 1, 4);
        expect("a query", query(l, list_size, b, books_size, q, queues_size, 3, at_, far + 3, count, 4), 4, 4);
      }
  }

 public:
  Huge() = default;
  Huge(const Huge&) = delete;
  Huge& operator=(const Huge&) = delete;

  // False on a difference. A machine that has no such addresses to give is told so, and passes.
  bool run() {
    void* all = mmap(nullptr, kAll, PROT_READ | PROT_WRITE, MAP_PRIVATE | MAP_ANONYMOUS | MAP_NORESERVE, -1, 0);
    if (all == MAP_FAILED) return printf("no room for lengths beyond 32 bits here: they were not tried\n"), true;
    at_ = static_cast<uint8_t*>(all);
    every_call(), member(), messages(), group();
    munmap(all, kAll);
    printf("%u calls with lengths beyond 32 bits\n", calls_);
    return right_;
  }
};

}  // namespace outside
