// A driver of its own, over the library's steps, with one fault in it: WRONG_FUNCTION is dvs_group_form and WRONG_FAULT one of
//
//   driver-right                      none, and nothing is reported
//   driver-undoes-nothing             what the steps before a refusal changed stays
//   driver-undoes-no-books            the books are not put back
//   driver-undoes-books-but-one       the last server's is not
//   driver-undoes-books-but-slots     their outgoing lists are not
//   driver-undoes-no-queues           the queues of the view are not put back
//   driver-undoes-no-order            its order is not
//   driver-undoes-no-waiting          what waits in it is not
//   driver-undoes-counts              of them the counts alone are
//   driver-undoes-older-queues        the queues of the view before are put back in their place
//   driver-undoes-no-marks            the marks are not put back
//   driver-marks-nothing              the attempts leave the marks as they were
//   driver-ignores-marks              a mark past the views made is no fault
//   driver-ignores-layout             the number of another layout is no fault
//   driver-counts-after-refusal       the count is written after a refusal too
//   driver-counts-short               the count is short by as many as there are servers
//   driver-counts-backwards           the count's last byte stands first
//   driver-goes-on                    it goes on after a refusal, and the last one is given
//   driver-ends-at-refusal            it ends at a refusal and gives none
//   driver-asks-no-newest             44 is not given for an older view
//   driver-asks-no-joined             44 is not given for a view that was joined
//   driver-asks-servers-for-joined    44 is not given where one outside the view has joined it
//   driver-asks-44-before-10          an unknown view gets 44
//   driver-asks-45-before-44          a joined view that fails the test gets 45
//   driver-tests-nothing              45 is left to the attempts
//   driver-tests-settled-alone        45 is asked of settled views alone
//   driver-tests-open-alone           45 is asked of open views alone
//   driver-tests-first-server-alone   45 is asked of one server's views
//   driver-tests-all-members          45 is asked of the views of those outside it too
//   driver-registers-before-attempts  two phases the other way round
//   driver-passes-and-orders-by-one   a server's order stands behind its pass
//   driver-orders-falling             orders by falling server
//   driver-attempts-falling           attempts by falling server
//   driver-collects-falling           collects by falling server
//   driver-delivers-one               a server takes one message in each exchange
//   driver-delivers-all               a server takes whatever is there
#pragma once

#include <vector>

#include "wrong_group.hpp"

struct WrongDriver : WrongGroup {
  uint32_t view;

  unsigned members() const { return books[DVS_BOOK_MEMBERS]; }
  unsigned made() const { return dvs_queues_made(queues); }
  const uint8_t* listed(unsigned i) const { return list + DVS_VIEW_SIZE * i; }
  uint32_t set() const { return dvs_view_set(listed(made() - 1)); }
  bool serves(unsigned p) const { return set() >> p & 1; }
  uint8_t* book(unsigned p) const { return books + DVS_BOOK_SIZE * size_t{p}; }

  static unsigned ones(uint32_t set) { return static_cast<unsigned>(__builtin_popcount(set)); }
  bool majority(const uint8_t* held) const { return 2 * ones(set() & dvs_view_set(held)) > ones(dvs_view_set(held)); }

  bool is_made() const {
    for (unsigned i = 0; i < made(); ++i)
      if (dvs_view_identifier(listed(i)) == view) return true;
    return false;
  }
  bool newest() const { return is("asks-no-newest") || dvs_view_identifier(listed(made() - 1)) == view; }
  bool joined() const {
    for (unsigned p = 0; p < members() && !is("asks-no-joined"); ++p)
      if (book(p)[DVS_BOOK_CARRIER] == 1 && dvs_view_identifier(book(p) + DVS_BOOK_CARRIER + 1) == view)
        if (serves(p) || !is("asks-servers-for-joined")) return true;
    return false;
  }
  bool passes() const {
    for (unsigned p = 0; p < members() && !is("tests-nothing"); ++p) {
      if (!serves(p) && !is("tests-all-members")) continue;
      if (!is("tests-open-alone") && !majority(book(p) + DVS_BOOK_SETTLED)) return false;
      for (unsigned i = 0; i < book(p)[DVS_BOOK_OPENS] && !is("tests-settled-alone"); ++i)
        if (!majority(book(p) + DVS_BOOK_OPENS + 1 + DVS_VIEW_SIZE * i)) return false;
      if (is("tests-first-server-alone")) break;
    }
    return true;
  }
  uint32_t asked() const {
    bool fresh = newest() && !joined();
    if (is("asks-44-before-10") && !fresh) return DVS_REFUSED_VIEW_NOT_FRESH;
    if (!is_made()) return DVS_REFUSED_NO_SUCH_VIEW;
    if (is("asks-45-before-44") && !passes()) return DVS_REFUSED_FORM_TEST_FAILED;
    if (!fresh) return DVS_REFUSED_VIEW_NOT_FRESH;
    return passes() ? 0 : DVS_REFUSED_FORM_TEST_FAILED;
  }

  uint32_t step(uint32_t kind, unsigned p) const {
    uint8_t event[DVS_EVENT_SIZE];
    return WrongGroup::step(kind, p, view, event);
  }
  uint32_t steps(uint32_t kind, unsigned p) const {
    unsigned most = kind != DVS_STEP_DELIVER || is("delivers-one") ? 1 : is("delivers-all") ? DVS_ORDERED : ones(set());
    uint32_t given = 0;
    for (unsigned n = 0; n < most; ++n) {
      uint32_t refused = step(kind, p);
      if (is("delivers-all") && refused == DVS_REFUSED_NONE_TO_DELIVER) return given;
      if (is("passes-and-orders-by-one") && kind == DVS_STEP_PASS && refused == 0) refused = step(DVS_STEP_ORDER, p);
      if (refused != 0) given = refused;
      if (refused != 0 && !is("goes-on")) return given;
    }
    return given;
  }
  uint32_t all_steps() const {
    static const uint32_t right[] = {2, 3, 4, 5, 6, 7, 3, 4, 5, 12}, wrong[] = {2, 3, 4, 5, 7, 6, 3, 4, 5, 12};
    uint32_t given = 0;
    for (unsigned n = 0; n < 10; ++n) {
      uint32_t kind = (is("registers-before-attempts") ? wrong : right)[n];
      if (kind == DVS_STEP_ORDER && is("passes-and-orders-by-one")) continue;
      bool falling = (kind == DVS_STEP_ORDER && is("orders-falling")) || (kind == DVS_STEP_ATTEMPT && is("attempts-falling")) ||
                     (kind == DVS_STEP_COLLECT && is("collects-falling"));
      for (unsigned q = 0; q < DVS_MEMBERS; ++q) {
        unsigned p = falling ? DVS_MEMBERS - 1 - q : q;
        uint32_t refused = serves(p) ? steps(kind, p) : 0;
        if (refused != 0) given = refused;
        if (refused != 0 && !is("goes-on")) return is("ends-at-refusal") ? 0 : given;
      }
    }
    return given;
  }

  void put_back(const std::vector<uint8_t>& old_books, const std::vector<uint8_t>& old_queues) const {
    if (is("undoes-nothing")) return;
    for (unsigned p = 0; p < DVS_MEMBERS && !is("undoes-no-books"); ++p) {
      if (is("undoes-books-but-one") && serves(p) && set() >> p == 1) continue;
      for (size_t i = 0; i < DVS_BOOK_SIZE; ++i)
        if (!is("undoes-books-but-slots") || i <= DVS_BOOK_OUTGOING) book(p)[i] = old_books[DVS_BOOK_SIZE * p + i];
    }
    if (!is("undoes-no-marks")) memcpy(queues, old_queues.data(), DVS_QUEUES_ORDER(0));
    size_t table = DVS_QUEUES_ORDER(made() - 1), waits = DVS_QUEUES_WAITING(made() - 1, 0), end = DVS_QUEUES_ORDER(made());
    for (size_t at = table; at < end && !is("undoes-no-queues"); ++at) {
      if ((is("undoes-no-order") && at < waits) || (is("undoes-no-waiting") && at >= waits)) continue;
      bool count = at == table || (at >= waits && (at - waits) % (DVS_QUEUES_WAITING(0, 1) - DVS_QUEUES_WAITING(0, 0)) == 0);
      if (is("undoes-counts") && !count) continue;
      queues[at] = old_queues[is("undoes-older-queues") && made() > 1 ? at - (end - table) : at];
    }
  }

  uint32_t form(uint8_t* count, size_t count_size) const {
    HiddenHead hidden(fault, queues, queues_size);
    if (count_size != DVS_LENGTH_SIZE || !sound()) return DVS_REFUSED_RECORDS_UNSOUND;
    uint32_t refused = asked(), k = ones(set()), taken = 2 * k * k + 8 * k - (is("counts-short") ? k : 0);
    if (refused == 0) {
      const std::vector<uint8_t> old_books(books, books + books_size), old_queues(queues, queues + queues_size);
      refused = all_steps();
      if (refused != 0) put_back(old_books, old_queues);
      if (is("marks-nothing")) memcpy(queues, old_queues.data(), DVS_QUEUES_ORDER(0));
    }
    if (refused != 0 && !is("counts-after-refusal")) return refused;
    for (unsigned i = 0; i < DVS_LENGTH_SIZE; ++i, taken >>= 8)
      count[is("counts-backwards") ? i : DVS_LENGTH_SIZE - 1 - i] = static_cast<uint8_t>(taken);
    return refused;
  }
};
