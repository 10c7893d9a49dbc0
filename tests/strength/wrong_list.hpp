// A list of steps by code of its own, over the library's single steps, with one fault in it: WRONG_FUNCTION is the function before the colon and
// WRONG_FAULT one of
//
//   dvs_group_steps: list-right                   none, and nothing is reported
//   dvs_group_steps: list-stops-at-refusal        the steps after a refused one are not made, and their answers are 0
//   dvs_group_steps: list-checks-4-never          an unsound group is accepted, and its steps are made as if it were sound
//   dvs_group_steps: list-checks-4-once           a group that a step leaves unsound is taken for sound by the steps after it
//   dvs_group_steps: list-checks-4-in-steps       an unsound group is accepted, with 4 in every answer
//   dvs_group_steps: list-ends-at-unsound         the call returns 4 if a step leaves an unsound group
//   dvs_group_steps: list-keeps-refused           a refused step's answer is not written
//   dvs_group_steps: list-keeps-refused-event     of a refused step's answer the number alone is written
//   dvs_group_steps: list-keeps-no-event          of the answer of a step without event the number alone is written
//   dvs_group_steps: list-writes-on-4             a refused call writes 0 to the answers
//   dvs_group_steps: list-takes-one               the first step alone is made and answered
//   dvs_group_steps: list-takes-one-alone         a list of one is right; in a longer one every step is applied to what the first began with
//   dvs_group_steps: list-refuses-none            an empty list is refused with 4
//   dvs_group_steps: list-accepts-none            an empty list is accepted without a look at the group
//   dvs_group_steps: list-takes-part              bytes after the last whole step are ignored
//   dvs_group_steps: list-takes-more-answers      more answers than steps are taken
//   dvs_group_steps: list-gives-refusal           the last refusal of a step is the call's answer
//   dvs_group_steps: list-puts-back               after a refusal the group is as it was
//   dvs_group_steps: list-narrows-first           of a step's first operand the last byte counts
//   dvs_group_steps: list-narrows-second          of its second operand the last four bytes count
//   dvs_group_steps: list-marks-nothing           its attempts leave the marks as they were
//   dvs_group_steps: list-ignores-marks           a mark past the views made is no fault
//   dvs_group_steps: list-ignores-layout          the number of another layout is no fault
#pragma once

#include <utility>
#include <vector>

#include "../outside/layout.hpp"
#include "wrong_group.hpp"

struct WrongList : WrongGroup {
  uint32_t step(const uint8_t* record, uint8_t* event) const {
    plain::StepRecord s = plain::get_step(record);
    if (is("narrows-first")) s.first &= 255;
    if (is("narrows-second")) s.second &= UINT32_MAX;
    return WrongGroup::step(s.kind, s.first, s.second, event);
  }

  // A step on a group that a join left unsound: the carrier view has more items than were taken. They are hidden from the step, and what the client
  // has of them, so that the step takes the group for sound.
  uint32_t step_as_sound(const uint8_t* record, uint8_t* event) const {
    std::vector<std::pair<uint8_t*, uint8_t>> hidden;
    for (size_t at = 0; at + DVS_BOOK_SIZE <= books_size; at += DVS_BOOK_SIZE) {
      uint8_t* book = books + at;
      if (memcmp(book + plain::kAtCarrier, book + plain::kAtClient, 1 + plain::kViewSize) != 0) continue;
      size_t items = book[plain::kAtSide] == 1 ? plain::kAtInward1 : plain::kAtInward0;
      for (size_t count : {items, size_t{plain::kAtHanded}, size_t{plain::kAtTold}, size_t{plain::kAtReported}})
        if (book[count] > book[plain::kAtTaken]) hidden.emplace_back(book + count, book[count]), book[count] = book[plain::kAtTaken];
    }
    uint32_t refused = step(record, event);
    for (auto [at, count] : hidden) *at = count;
    return refused;
  }

  // Gives the step's number; its answer is written as far as the fault has it.
  uint32_t answer(const uint8_t* record, uint8_t* to) const {
    uint8_t event[DVS_EVENT_SIZE] = {};
    bool hides = (is("checks-4-once") || is("checks-4-never")) && !sound();
    uint32_t refused = hides ? step_as_sound(record, event) : step(record, event);
    if (refused != 0) memset(event, 0, sizeof event);
    if (refused != 0 && is("keeps-refused")) return refused;
    to[DVS_ANSWER_NUMBER] = static_cast<uint8_t>(refused);
    bool keeps = (refused != 0 && is("keeps-refused-event")) || (refused == 0 && event[DVS_EVENT_KIND] == 0 && is("keeps-no-event"));
    if (!keeps) memcpy(to + DVS_ANSWER_EVENT, event, sizeof event);
    return refused;
  }

  bool paired(size_t steps_size, size_t answers_size) const {
    size_t count = steps_size / DVS_STEP_SIZE;
    if (steps_size % DVS_STEP_SIZE != 0 && !is("takes-part")) return false;
    return answers_size == count * DVS_ANSWER_SIZE || (is("takes-more-answers") && answers_size > count * DVS_ANSWER_SIZE);
  }

  std::vector<uint8_t> group() const {
    std::vector<uint8_t> all(list, list + list_size);
    all.insert(all.end(), books, books + books_size), all.insert(all.end(), queues, queues + queues_size);
    return all;
  }
  void put_back(const std::vector<uint8_t>& all) const {
    memcpy(list, all.data(), list_size), memcpy(books, &all[list_size], books_size);
    memcpy(queues, &all[list_size + books_size], queues_size);
  }

  uint32_t steps(const uint8_t* records, size_t steps_size, uint8_t* answers, size_t answers_size) const {
    HiddenHead hidden(fault, queues, queues_size);
    bool checks = !is("checks-4-never") && !is("checks-4-in-steps") && !(is("accepts-none") && steps_size == 0);
    if (!paired(steps_size, answers_size) || (checks && !sound()) || (is("refuses-none") && steps_size == 0)) {
      if (is("writes-on-4") && answers_size > 0) memset(answers, 0, answers_size);
      return DVS_REFUSED_RECORDS_UNSOUND;
    }
    const std::vector<uint8_t> before = group();
    uint32_t last = 0;
    for (size_t i = 0; i < steps_size / DVS_STEP_SIZE; ++i) {
      uint8_t* to = answers + DVS_ANSWER_SIZE * i;
      if (i > 0 && is("takes-one")) break;
      if (i > 0 && is("takes-one-alone")) put_back(before);
      if (last != 0 && is("stops-at-refusal")) {
        memset(to, 0, DVS_ANSWER_SIZE);
        continue;
      }
      uint32_t refused = answer(records + DVS_STEP_SIZE * i, to);
      if (refused != 0) last = refused;
      if (is("ends-at-unsound") && refused == DVS_REFUSED_RECORDS_UNSOUND) return refused;
    }
    if (is("puts-back") && last != 0) put_back(before);
    if (is("marks-nothing")) memcpy(queues + DVS_QUEUES_MARKS, &before[list_size + books_size + DVS_QUEUES_MARKS], 4);
    return is("gives-refusal") ? last : 0;
  }
};
