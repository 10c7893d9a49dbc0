// How much stack a call takes, beside what include/dvs.h says: each is made on a painted stack of its own, and the deepest
// byte that it left another colour is looked for. Not with a sanitizer, which has places of its own there.
#pragma once

#include <ucontext.h>

#include <functional>
#include <vector>

#include "../../include/dvs.h"
#include "generate.hpp"

namespace outside {

#if defined(__clang__)
#if __has_feature(address_sanitizer)
#define OUTSIDE_SANITIZED
#endif
#elif defined(__SANITIZE_ADDRESS__)
#define OUTSIDE_SANITIZED
#endif

class Stack {
  // What the header says is enough: of the driver on made-up ranges, and of any other call.
  static constexpr size_t kDriver = 88 << 10, kOther = 8 << 10;
  static constexpr size_t kSize = 256 << 10;
  static constexpr uint8_t kPaint = 0xa5;
  static inline const std::function<void()>* call_ = nullptr;

  std::vector<uint8_t> stack_ = std::vector<uint8_t>(kSize);
  ucontext_t here_, there_;
  size_t driver_ = 0, other_ = 0;

  // The ranges of calls.inc, with whatever they hold.
  struct Ranges {
#define RANGE(name, length) std::vector<uint8_t> name;
#include "calls.inc"
  } lent_;

  // The deepest that the call comes is kept in `deepest`.
  void measure(size_t& deepest, const std::function<void()>& call) {
    memset(stack_.data(), kPaint, kSize);
    call_ = &call;
    getcontext(&there_);
    there_.uc_stack.ss_sp = stack_.data(), there_.uc_stack.ss_size = kSize, there_.uc_link = &here_;
    makecontext(&there_, [] { (*call_)(); }, 0);
    swapcontext(&here_, &there_);
    size_t free = 0;
    while (free < kSize && stack_[free] == kPaint) ++free;
    if (kSize - free > deepest) deepest = kSize - free;
  }

  // Lends a group's ranges with room for so many views, a list of one step of each kind, and all else at its length.
  void lend(size_t VIEWS) {
    constexpr size_t RECORDS = 12, PLACES = DVS_VIEWS, ANY = DVS_LONGEST;
#define RANGE(name, length) lent_.name.resize(length);
#include "calls.inc"
    for (uint8_t kind = 1; kind <= RECORDS; ++kind) plain::put_step(&lent_.steps[DVS_STEP_SIZE * (kind - 1u)], {kind, kind % 3u, 1});
  }
  uint32_t newest() { return dvs_view_identifier(&lent_.list[DVS_VIEW_SIZE * (lent_.queues[0] - 1u)]); }

#define LENT(range) lent_.range.data(), lent_.range.size()
#define NAMED(type, name) name
  uint32_t step(uint32_t kind, uint32_t first, uint64_t second) { return dvs_group_step(dvs_group_step_takes(LENT, LENT, NAMED)); }
  uint32_t form(uint32_t view) { return dvs_group_form(dvs_group_form_takes(LENT, LENT, NAMED)); }

  // Every call, each on what the ranges hold now. The driver has a limit of its own if no calls lead to them.
  void every_call(Random& r, bool made_up) {
    uint32_t members = 8, first_set = 255, own = 7, view = newest(), set = 255, sender = r.below(8), range = DVS_SIZE_QUEUES, views = 32;
    uint32_t kind = r.between(1, 12), first = r.below(8);
    uint64_t entry = 5, second = view;
    const Ranges before = lent_;
    auto of = [&](const char* name) -> size_t& { return made_up && strcmp(name, "dvs_group_form") == 0 ? driver_ : other_; };
#define CALL(name, ...) measure(of(#name), [&] { static_cast<void>(name(name##_takes(LENT, LENT, NAMED))); }), lent_ = before;
#define GIVES(type, name) CALL(name, )
#include "calls.inc"
  }
#undef LENT
#undef NAMED

  // Every call on a book and on a group that no steps need have left, and every step of the group's members.
  void made_up(Random& r) {
    lend(r.between(1, DVS_VIEWS));
    auto range = [](std::vector<uint8_t>& bytes) { return plain::Range{bytes.data(), bytes.size()}; };
    random_group(r, range(lent_.list), range(lent_.books), range(lent_.queues), true);
    random_book(r, lent_.book.data());
    plain::Message message = random_message(r, lent_.book.data());
    plain::store_record(message, lent_.message.data());
    // One message, then a packet of them.
    lent_.bytes.resize(plain::length(message));
    plain::write(message, lent_.bytes.data(), lent_.bytes.size());
    every_call(r, true);
    const std::vector<uint8_t> one = lent_.bytes;
    for (unsigned n = r.below(130); n > 0; --n) lent_.bytes.insert(lent_.bytes.end(), one.begin(), one.end());
    every_call(r, true);
    uint32_t view = newest();
    for (uint32_t p = 0; p < lent_.books[0]; ++p)
      for (uint32_t kind = 2; kind <= 12; ++kind) measure(other_, [&] { step(kind, p, view); });
    measure(other_, [&] { step(DVS_STEP_CREATE, view + 1, 1); });
  }

  // Eight members, and as many views formed as there is room for: on ranges that calls lead to the driver keeps nothing.
  void formed(Random& r) {
    lend(DVS_VIEWS);
    uint8_t *list = lent_.list.data(), *books = lent_.books.data(), *queues = lent_.queues.data();
    measure(other_, [&] { dvs_group_start(list, lent_.list.size(), books, lent_.books.size(), queues, lent_.queues.size(), 8, 255); });
    for (uint32_t id = 1; id < DVS_VIEWS; ++id) step(DVS_STEP_CREATE, id, 255), measure(other_, [&] { form(id); });
    every_call(r, false);
  }

 public:
  // False if a call takes more than the header says.
  bool run() {
#ifdef OUTSIDE_SANITIZED
    return true;
#endif
    for (uint64_t n = 0; n < 40; ++n) {
      Random r(8, n);
      made_up(r);
    }
    Random r(9);
    formed(r);
    printf("%zu bytes of stack at most, %zu in dvs_group_form on made-up ranges\n", other_, driver_);
    if (other_ <= kOther && driver_ <= kDriver) return true;
    printf("DIFFERENCE with include/dvs.h, which says less\n");
    return false;
  }
};

}  // namespace outside
