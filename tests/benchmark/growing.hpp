// A group whose records are made by steps alone, the structs' beside the library's, and every answer is compared; and
// single steps that can be timed on it.
#pragma once

#include "group_sides.hpp"

namespace benchmark {

constexpr unsigned kCalls = 8;  // of one timed run of a single step

class Growing {
  const unsigned members_, held_;
  Ranges library_;
  Structured structs_;
  Before before_;
  std::vector<Step> made_;
  plain::Event event_;
  uint32_t view_ = 0;  // the last one made

  uint32_t all() const { return (1u << members_) - 1; }

  void step(uint32_t kind, uint32_t first, uint64_t second = 0) {
    Step s = {kind, first, second};
    if (library_.step(s) || structs_.step(s, event_)) fail("a step is refused while records are made");
    if (!library_.shows(event_)) fail("an event is otherwise while records are made");
    if (kBefore && before_.step(s)) fail("a step is refused by the earlier library while records are made");
    made_.push_back(s);
  }

  void each(uint32_t kind, unsigned from = 0) {
    for (unsigned p = from; p < members_; ++p) step(kind, p);
  }

  // A view's order begins with everybody's info and registration; in the first view there are client messages alone.
  bool client(unsigned i) const { return view_ == 0 || i >= 2 * members_; }
  unsigned sender(unsigned i) const { return i % members_; }

  // The view's message number i comes to wait for its sender.
  void bring(unsigned i) {
    if (client(i)) step(DVS_STEP_SEND, sender(i), i);
    else if (i >= members_) step(DVS_STEP_REGISTER, sender(i));
    step(DVS_STEP_PASS, sender(i));
  }

  // It is ordered and taken by everyone. Member 0 hands out one message late: there is always one left to hand.
  void finish(unsigned i) {
    step(DVS_STEP_ORDER, sender(i), view_);
    each(DVS_STEP_DELIVER);
    if (i > 0 && client(i - 1)) step(DVS_STEP_HAND, 0);
    if (client(i)) each(DVS_STEP_HAND, 1);
    if (view_ > 0 && i + 1 == members_) each(DVS_STEP_ATTEMPT);
    if (view_ > 0 && i + 1 == 2 * members_) each(DVS_STEP_COLLECT);
  }

  unsigned last() const { return held_ ? held_ - 1 : 0; }

  // In the last view all messages but one, and that one waits.
  void fill() {
    for (unsigned i = 0; i < last(); ++i) bring(i), finish(i);
    bring(last());
  }

  template <class Side> static Run send_by(Side& side) {
    uint8_t* outgoing = side.books.data() + plain::kAtOutgoing;
    return again([&side] { return side.step({DVS_STEP_SEND, 0, 7}); }, [=] { *outgoing = 0; });
  }

  // A step again and again: what it changed of the used parts is put back by hand.
  template <class Call, class Do> static Run again(Call step, Do put_back) {
    return [=] {
      uint64_t accepted = 0;
      for (unsigned i = 0; i < kCalls; ++i) accepted += step() == DVS_ACCEPTED, put_back();
      return accepted;
    };
  }

 public:
  Growing(unsigned members, unsigned held, unsigned room)
      : members_(members), held_(held), library_(room), before_(kBefore ? room : 0) {
    if (library_.start(members, all()) || structs_.start(members, all(), room)) fail("a start is refused");
    if (kBefore && before_.start(members, all())) fail("a start is refused by the earlier library");
    fill();
  }

  const Ranges& library() const { return library_; }
  const Structured& structs() const { return structs_; }
  const Before& before() const {
    if (kBefore && !library_.same_below_head(before_))
      fail("the earlier library leaves other bytes while records are made");
    return before_;
  }

  // The last message waits no more.
  void finish_last() { finish(last()); }
  // The next so many steps: message after message comes to everyone.
  std::vector<Step> more(size_t count) {
    made_.clear();
    for (unsigned i = last() + 1; made_.size() < count; ++i) bring(i), finish(i);
    made_.resize(count);
    return made_;
  }

  void next_view() {
    if (held_ == 0) return step(DVS_STEP_CREATE, ++view_, all());
    finish(last());
    step(DVS_STEP_CREATE, ++view_, all());
    for (unsigned p = 0; p < members_; ++p) step(DVS_STEP_JOIN, p, view_);
    fill();
  }

  Run send() { return send_by(library_); }
  Run before_send() { return before(), send_by(before_); }
  Run order() {
    unsigned p = sender(last());
    uint8_t* order = library_.queues.data() + plain::kQueuesHead + plain::kTableSize * view_;
    uint8_t* waiting = order + plain::kOrderSize + plain::kWaitingSize * p;
    return again([=] { return library_.step({DVS_STEP_ORDER, p, view_}); }, [=] { --*order, *waiting = 1; });
  }
  Run hand() {
    uint8_t *at = library_.books.data() + plain::kAtHanded, handed = *at;
    return again([=] { return library_.step({DVS_STEP_HAND, 0, 0}); }, [=] { *at = handed; });
  }
  Run structs_send() {
    return again([=] { return structs_.step({DVS_STEP_SEND, 0, 7}, event_); }, [=] { structs_.forget_sent(0); });
  }
};

}  // namespace benchmark
