// The specification's own cases with its own answers: the whole case of the bench, the views that pass and fail, and the
// messages. Here no answer comes from the plain implementation, which is called beside the library as ever.
#pragma once

#include "calls.hpp"

namespace outside {

class Papers {
  Calls& c_;
  Lent list_{"list", 5 * 8}, books_{"books", plain::kBooksSize}, queues_{"queues", plain::queues_size(8)};
  bool right_ = true;

  void expect(const char* what, uint32_t answer, uint32_t expected) {
    if (answer == expected) return;
    printf("DIFFERENCE with the specification, %s: %u, expected %u\n", what, answer, expected);
    right_ = false;
  }

  uint32_t step(uint32_t kind, uint32_t first, uint64_t second = 0) {
    return c_.dvs_group_step(list_, books_, queues_, kind, first, second);
  }

  void start(uint32_t members, uint32_t set, size_t room = 8) {
    list_.resize(5 * room, kBack), books_.resize(plain::kBooksSize, kBack), queues_.resize(plain::queues_size(room), kBack);
    expect("start", c_.dvs_group_start(list_, books_, queues_, members, set), 0);
  }

  // The view is made, its members join it, and each takes the infos of all.
  void meet(uint32_t id, uint32_t set) {
    expect("create", step(DVS_STEP_CREATE, id, set), 0);
    for (uint32_t p = 0; p < 8; ++p)
      if (set >> p & 1)
        expect("meeting", step(DVS_STEP_JOIN, p, id) + step(DVS_STEP_PASS, p) + step(DVS_STEP_ORDER, p, id), 0);
    for (uint32_t p = 0; p < 8; ++p)
      while ((set >> p & 1) && step(DVS_STEP_DELIVER, p) == 0) {
      }
  }

  // What the event says, as a bench line would.
  void expect_event(uint8_t kind, uint8_t member, uint32_t view, uint8_t set, uint8_t sender, uint64_t entry) {
    uint8_t event[DVS_EVENT_SIZE] = {kind, member};
    plain::put(event + DVS_EVENT_VIEW, 4, view), plain::put(event + DVS_EVENT_ENTRY, 8, entry);
    event[DVS_EVENT_SET] = set, event[DVS_EVENT_SENDER] = sender;
    expect("event", memcmp(event, c_.event.theirs(), sizeof event) != 0, 0);
  }

  void whole_case() {
    start(2, 3);
    expect("send 0 5", step(DVS_STEP_SEND, 0, 5), 0), expect_event(8, 0, 0, 0, 0, 5);
    expect("pass 0", step(DVS_STEP_PASS, 0), 0), expect_event(0, 0, 0, 0, 0, 0);
    expect("order 0 0", step(DVS_STEP_ORDER, 0, 0), 0);
    expect("deliver 1", step(DVS_STEP_DELIVER, 1), 0);
    expect("hand 1", step(DVS_STEP_HAND, 1), 0), expect_event(9, 1, 0, 0, 0, 5);
    expect("attempt 1", step(DVS_STEP_ATTEMPT, 1), 19);
  }

  // View 1 is attempted by a member, where all members have the first view.
  void attempt(const char* what, uint32_t members, uint32_t set, uint32_t by, uint32_t expected) {
    start(members, (1u << members) - 1), meet(1, set);
    expect(what, step(DVS_STEP_ATTEMPT, by), expected);
  }

  void views() {
    attempt("{2,3,4} against {0,1,2,3,4}", 5, 28, 2, 0), expect_event(6, 2, 1, 28, 0, 0);
    attempt("{0,1} against {0,1,2,3,4}", 5, 3, 0, 21);
    attempt("{0,1,2} by server 2", 5, 7, 2, 0), meet(2, 28);
    expect("{2,3,4} after {0,1,2}", step(DVS_STEP_ATTEMPT, 2), 21);
    attempt("{0,1} against {0,1,2}", 3, 3, 0, 0);
    attempt("{0,1} against {0,1,2,3}", 4, 3, 0, 21);
    start(5, 31);
    expect("collect in the first view", step(DVS_STEP_COLLECT, 0), 30);
    expect("create", step(DVS_STEP_CREATE, 1, 3), 0);
    expect("the same identifier twice", step(DVS_STEP_CREATE, 1, 3), 8);
    start(2, 3, 1);
    expect("create in a list of length 1", step(DVS_STEP_CREATE, 1, 3), 9);
    start(1, 1);
    for (unsigned n = 1; n <= 129; ++n) {
      expect("send and pass", step(DVS_STEP_SEND, 0, n) + step(DVS_STEP_PASS, 0), 0);
      expect("the 128th ordered, the 129th", step(DVS_STEP_ORDER, 0, 0), n <= 128 ? 0 : 16);
    }
  }

  void message(const char* what, std::initializer_list<uint8_t> bytes, uint32_t expected) {
    c_.bytes.set(bytes.begin(), bytes.size(), kBack);
    expect(what, c_.dvs_read(), expected);
  }

  void messages() {
    const uint8_t* record = c_.message.theirs();
    message("registered in view 0", {3, 0, 0, 0, 0, 0, 0}, 0);
    expect("its record", record[DVS_MESSAGE_KIND] == DVS_REGISTERED && plain::get(record + DVS_MESSAGE_VIEW, 4) == 0, 1);
    message("info in view 1", {2, 0, 0, 0, 1, 1, 0, 0, 0, 0, 7, 0}, 0);
    expect("its record", record[DVS_MESSAGE_KIND] == DVS_INFO && plain::get(record + DVS_MESSAGE_VIEW, 4) == 1, 1);
    expect("its views", record[DVS_MESSAGE_COUNT] == 1 && plain::get(record + DVS_MESSAGE_VIEWS, 5) == 7, 1);
    message("the same cut", {2, 0, 0, 0, 1, 1, 0, 0, 0, 0, 7}, 32);
    message("the same with one more", {2, 0, 0, 0, 1, 1, 0, 0, 0, 0, 7, 0, 0}, 38);
    expect("its front", c_.dvs_read_front(), 0), expect("the bytes that it took", dvs_length(c_.length.theirs()), 12);
    message("nothing", {}, 32);
    message("an unknown kind", {5}, 33);
    message("33 views", {2, 0, 0, 0, 1, 33}, 34);
  }

 public:
  explicit Papers(Calls& c) : c_(c) {}

  // False if an answer is not the specification's.
  bool run() {
    whole_case(), views(), messages();
    return right_;
  }
};

}  // namespace outside
