// The library's own start, step and check with one fault in what they do with the queues' head: WRONG_FUNCTION is the function before the colon and
// WRONG_FAULT one of
//
//   dvs_group_start: start-without-layout     the number of the layout is not written
//   dvs_group_start: start-without-mark       the first view has no mark
//   dvs_group_step: step-marks-nothing        an attempt leaves the marks as they were
//   dvs_group_step: step-marks-newest         an attempt marks the newest view
//   dvs_group_step: step-marks-client         an attempt marks the client view that it leaves
//   dvs_group_step: step-marks-alone          an attempt leaves no other mark
//   dvs_group_step: step-marks-refused        an attempt that is refused with 20 or 21 marks its view too
//   dvs_group_step: step-marks-join           a join marks its view too
//   dvs_group_step: step-marks-create         a create marks its view too
//   dvs_group_step: step-ignores-marks        a mark past the views made is no fault
//   dvs_group_step: step-ignores-layout       the number of another layout is no fault
//   dvs_group_check: check-ignores-marks      a mark past the views made is no fault
//   dvs_group_check: check-ignores-layout     the number of another layout is no fault
//   dvs_group_check: check-shifts-by-width    with 32 views made every mark is past them
//   dvs_group_check: check-wants-first-mark   a first view without a mark is a fault
//   dvs_group_check: check-wants-free-zero    a byte of the head that is not used is a fault, if it is not 0
#pragma once

#include "wrong_group.hpp"

struct WrongMarks : WrongGroup {
  uint32_t marks() const { return dvs_get32(queues + DVS_QUEUES_MARKS); }
  void set_marks(uint32_t marks) const {
    for (unsigned i = 4; i-- > 0; marks >>= 8) queues[DVS_QUEUES_MARKS + i] = static_cast<uint8_t>(marks);
  }

  // The mark of the view that a book has at a place, 0 if the byte before it says that there is none.
  uint32_t mark_of(const uint8_t* place) const {
    for (unsigned i = 0; i < dvs_queues_made(queues); ++i)
      if (place[0] == 1 && memcmp(list + DVS_VIEW_SIZE * i, place + 1, DVS_IDENTIFIER_SIZE) == 0) return 1u << i;
    return 0;
  }

  uint32_t start(uint32_t members, uint32_t first_set) const {
    uint32_t refused = __real_dvs_group_start(list, list_size, books, books_size, queues, queues_size, members, first_set);
    if (refused == 0 && is("without-layout")) queues[DVS_QUEUES_LAYOUT] = 0;
    if (refused == 0 && is("without-mark")) set_marks(0);
    return refused;
  }

  uint32_t step(uint32_t kind, uint32_t first, uint64_t second, uint8_t* event, size_t event_size) const {
    HiddenHead hidden(fault, queues, queues_size);
    bool in_group = event_size == DVS_EVENT_SIZE && sound() && kind != DVS_STEP_CREATE && first < books[DVS_BOOK_MEMBERS];
    const uint8_t* book = in_group ? books + DVS_BOOK_SIZE * size_t{first} : nullptr;
    uint32_t client = in_group ? mark_of(book + DVS_BOOK_CLIENT) : 0, carrier = in_group ? mark_of(book + DVS_BOOK_CARRIER) : 0;
    uint32_t before = queues_size > DVS_QUEUES_LAYOUT ? marks() : 0;
    uint32_t refused = __real_dvs_group_step(list, list_size, books, books_size, queues, queues_size, kind, first, second, event, event_size);
    if (kind == DVS_STEP_ATTEMPT && refused == 0) {
      if (is("marks-nothing")) set_marks(before);
      if (is("marks-newest")) set_marks(before | 1u << (dvs_queues_made(queues) - 1));
      if (is("marks-client")) set_marks(before | client);
      if (is("marks-alone")) set_marks(carrier);
    }
    bool tested = refused == DVS_REFUSED_INFO_MISSING || refused == DVS_REFUSED_TEST_FAILED;
    if (kind == DVS_STEP_ATTEMPT && tested && is("marks-refused")) set_marks(before | carrier);
    if (kind == DVS_STEP_JOIN && refused == 0 && is("marks-join")) set_marks(before | mark_of(book + DVS_BOOK_CARRIER));
    if (kind == DVS_STEP_CREATE && refused == 0 && is("marks-create")) set_marks(before | 1u << (dvs_queues_made(queues) - 1));
    return refused;
  }

  uint32_t check() const {
    uint32_t refused = check_hidden(fault, list, list_size, books, books_size, queues, queues_size);
    if (refused != 0) return refused;
    bool full = dvs_queues_made(queues) == DVS_VIEWS && is("shifts-by-width"), none = (marks() & 1) == 0 && is("wants-first-mark"), noise = false;
    for (size_t at = DVS_QUEUES_LAYOUT + 1; at < DVS_QUEUES_ORDER(0); ++at) noise = noise || (queues[at] != 0 && is("wants-free-zero"));
    return full || none || noise ? DVS_REFUSED_RECORDS_UNSOUND : 0;
  }
};
