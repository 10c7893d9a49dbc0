// Lists of steps with the specification's answers: what each step is answered, what a refused list leaves, and made-up
// records that a step of the list leaves unsound. Here no answer comes from the plain implementation, which is called beside
// the library as ever.
#pragma once

#include "lent_group.hpp"

namespace outside {

class ListCases : LentGroup {
  using Bytes = std::vector<uint8_t>;
  struct Asked { plain::StepRecord step; Bytes answer; };  // the answer's first bytes; the rest are 0

  bool right_ = true;
  Random r_{6};

  void expect(const char* what, bool holds) {
    if (holds) return;
    printf("DIFFERENCE in dvs_group_steps with the specification, %s\n", what);
    right_ = false;
  }

  // The list is given this number, and each step its answer; after a refusal every byte is as it was.
  void answers(const char* what, const std::vector<Asked>& list, uint32_t number = 0) {
    c_.steps.resize(plain::kStepSize * list.size(), kBack), c_.answers.resize(plain::kAnswerSize * list.size(), kBack);
    r_.fill(c_.answers.mine(), c_.answers.size());
    Bytes expected(c_.answers.mine(), c_.answers.mine() + c_.answers.size()), before = left();
    for (size_t i = 0; i < list.size(); ++i) {
      plain::put_step(c_.steps.mine() + plain::kStepSize * i, list[i].step);
      Bytes answer = list[i].answer;
      answer.resize(plain::kAnswerSize);
      if (number == 0) memcpy(&expected[plain::kAnswerSize * i], answer.data(), answer.size());
    }
    c_.steps.copy_to_theirs(), c_.answers.copy_to_theirs();
    expect(what, c_.dvs_group_steps(list_, books_, queues_) == number);
    expect(what, expected.empty() || memcmp(expected.data(), c_.answers.theirs(), expected.size()) == 0);
    expect(what, number == 0 || left() == before);
  }

  // Three members in the first view, and views 1 and 2 of all of them, which nobody has joined.
  void start() {
    lend(r_, 3), clean_ = false;
    c_.dvs_group_start(list_, books_, queues_, 3, 7);
    for (uint32_t id : {1, 2}) call(plain::kCreate, id, 7);
  }
  uint8_t* book(unsigned p) { return books_.mine() + plain::kBookSize * p; }

  void answered() {
    start();
    answers("no step", {});
    answers("accepted and refused steps", {{{plain::kSend, 0, 0x105}, {0, 8, 0, 0, 0, 0, 0, 0, 0, 0, 0, 0, 0, 0, 0, 1, 5}},
                                           {{plain::kHand, 1, 0}, {25}},
                                           {{plain::kPass, 0, 0}, {0}},
                                           {{plain::kOrder, 0, 3}, {10}},
                                           {{plain::kOrder, 0, 0}, {0}},
                                           {{13, 0, 0}, {5}},
                                           {{plain::kDeliver, 1, 0}, {0}},
                                           {{plain::kDeliver, 3, 0}, {6}},
                                           {{plain::kHand, 1, 0}, {0, 9, 1, 0, 0, 0, 0, 0, 0, 0, 0, 0, 0, 0, 0, 1, 5}},
                                           {{plain::kCreate, 3, 7}, {9}},
                                           {{plain::kJoin, 2, 2}, {0}}});
    answers("what the list before left", {{{plain::kDeliver, 1, 0}, {18}}, {{plain::kJoin, 2, 2}, {12}}});
    expect("what the list left is a sound group", c_.dvs_group_check(list_, books_, queues_) == 0);
    books_.poke(plain::kBookSize + plain::kAtSide, 2);
    answers("an unsound group", {{{plain::kSend, 0, 5}, {}}}, 4);
    answers("an unsound group and no step", {}, 4);
  }

  // A member's client view is view 2, with items; its carrier view is view 1, or none. The group is sound. When the member
  // joins view 2 it has taken nothing of it, which is less than the items: from then on every step is refused with 4.
  void made_up(unsigned p, bool carrier, uint8_t items) {
    start();
    book(p)[plain::kAtCarrier] = carrier, plain::put_view(book(p) + plain::kAtCarrier + 1, View{1, 7});
    plain::put_view(book(p) + plain::kAtClient + 1, View{2, 7});
    book(p)[plain::kAtInward0] = items, copy_to_theirs();
  }
  void unsound() {
    const Asked join0{{plain::kJoin, 0, 2}, {0}}, other{{plain::kHand, 1, 0}, {25}}, unknown{{0, 0, 0}, {5}};
    for (unsigned p = 0; p < 3; ++p)
      for (bool carrier : {true, false})
        for (uint8_t items : {1, 3, 128}) {
          const plain::StepRecord join{plain::kJoin, p, 2}, elsewhere{plain::kJoin, (p + 1) % 3, 2}, hand{plain::kHand, p, 0};
          made_up(p, carrier, items);
          answers("steps before the join", {{elsewhere, {0}}, unknown, {{plain::kHand, (p + 1) % 3, 0}, {25}}});
          answers("steps after the join", {{elsewhere, {12}}, {join, {0}}, {hand, {4}}, {elsewhere, {4}}, {{0, 0, 0}, {4}}});
          expect("the list leaves an unsound group", c_.dvs_group_check(list_, books_, queues_) == 4);
          answers("a list after it", {{hand, {}}}, 4);
          made_up(p, carrier, items);
          answers("the join last", {unknown, {join, {0}}});
          answers("a list after the join", {unknown}, 4);
        }
    made_up(0, true, 0);
    answers("no items: the group stays sound", {join0, other, unknown, {{plain::kDeliver, 0, 0}, {18}}});
  }

 public:
  explicit ListCases(Calls& c) : LentGroup(c) {}

  // False if an answer is not the specification's.
  bool run() {
    answered(), unsound();
    return right_;
  }
};

}  // namespace outside
