// The queries by code of its own, over the library's check, with one fault in it: WRONG_FUNCTION is the function before the colon and WRONG_FAULT one of
//
//   dvs_group_crossing: query-right                none, and nothing is reported
//   dvs_group_crossing: query-lists-made           a view that was made and not attempted is listed
//   dvs_group_crossing: query-lists-held           a view that no book holds any more is not listed
//   dvs_group_crossing: query-forgets-first        the first view is not listed
//   dvs_group_crossing: query-oldest-first         the identifiers rise
//   dvs_group_crossing: query-wants-one-more       46 if the buffer is exactly long enough
//   dvs_group_crossing: query-writes-before-46     the identifiers that have a place are written, then 46 is found
//   dvs_group_crossing: query-counts-before-46     the count is written, then 46 is found
//   dvs_group_crossing: query-gives-what-fits      a buffer that is too short receives a part of the list, and no 46 is returned
//   dvs_group_crossing: query-checks-46-before-7   a set that does not fit, with an empty buffer, is refused with 46
//   dvs_group_crossing: query-takes-part           bytes after the last whole identifier are ignored
//   dvs_group_crossing: query-narrows-set          of the set the last byte counts
//   dvs_group_crossing: query-takes-any-set        a set with members that the group does not have is taken
//   dvs_group_crossing: query-counts-bytes         the count is of bytes
//   dvs_group_crossing: query-clears-the-rest      the bytes after the list are 0
//   dvs_group_crossing: query-ignores-marks        a mark past the views made is no fault
//   dvs_group_crossing: query-ignores-layout       the number of another layout is no fault
//   dvs_group_holding: query-right                 none, and nothing is reported
//   dvs_group_holding: query-tests-the-set         a majority of the set is wanted, and not of the view
//   dvs_group_holding: query-takes-half            exactly half is a majority
//   dvs_group_holding: query-takes-all             a view is listed if all its members are in the set
//   dvs_group_holding: query-lists-made            as above
//   dvs_group_holding: query-forgets-first         as above
//   dvs_group_holding: query-oldest-first          as above
//   dvs_group_holding: query-wants-one-more        as above
//   dvs_group_holding: query-writes-before-46      as above
//   dvs_group_newest_before: before-right          none, and nothing is reported
//   dvs_group_newest_before: before-takes-at-most  the view with this identifier is found too
//   dvs_group_newest_before: before-takes-oldest   the oldest attempted view is found
//   dvs_group_newest_before: before-takes-made     a view that was made and not attempted is found
//   dvs_group_newest_before: before-wants-a-view   an identifier that no view has finds none
//   dvs_group_newest_before: before-refuses-none   none is refused with 10
//   dvs_group_newest_before: before-keeps-none     of none the first byte alone is written
//   dvs_group_newest_before: before-ignores-marks  a mark past the views made is no fault
#pragma once

#include <vector>

#include "wrong_group.hpp"

struct WrongQueries {
  const char* fault;
  const uint8_t *list, *books, *queues;
  size_t list_size, books_size, queues_size;

  bool is(const char* name) const { return strcmp(strchr(fault, '-') + 1, name) == 0; }

  bool sound() const { return check_hidden(fault, list, list_size, books, books_size, queues, queues_size) == 0; }
  unsigned made() const { return dvs_queues_made(queues); }
  const uint8_t* listed(unsigned i) const { return list + DVS_VIEW_SIZE * i; }
  static unsigned ones(uint32_t set) { return static_cast<unsigned>(__builtin_popcount(set)); }

  bool held(uint32_t id) const {
    for (const uint8_t* book = books; book < books + DVS_BOOK_SIZE * size_t{books[DVS_BOOK_MEMBERS]}; book += DVS_BOOK_SIZE) {
      if (dvs_view_identifier(book + DVS_BOOK_SETTLED) == id) return true;
      for (unsigned i = 0; i < book[DVS_BOOK_OPENS]; ++i)
        if (dvs_view_identifier(book + DVS_BOOK_OPENS + 1 + DVS_VIEW_SIZE * i) == id) return true;
    }
    return false;
  }
  bool attempted(unsigned i) const {
    if (is("lists-made") || is("takes-made")) return true;
    if ((i == 0 && is("forgets-first")) || (is("lists-held") && !held(dvs_view_identifier(listed(i))))) return false;
    return dvs_get32(queues + DVS_QUEUES_MARKS) >> i & 1;
  }
  bool wanted(bool holds, uint32_t set, uint32_t of) const {
    if (!holds) return (set & of) != 0;
    if (is("takes-all")) return (of & ~set) == 0;
    return 2 * ones(set & of) + is("takes-half") > ones(is("tests-the-set") ? set : of);
  }

  uint32_t query(bool holds, uint32_t set, uint8_t* views, size_t views_size, uint8_t* count, size_t count_size) const {
    if (views_size % DVS_IDENTIFIER_SIZE != 0 && is("takes-part")) views_size -= views_size % DVS_IDENTIFIER_SIZE;
    if (views_size % DVS_IDENTIFIER_SIZE != 0 || count_size != DVS_LENGTH_SIZE || !sound()) return DVS_REFUSED_RECORDS_UNSOUND;
    if (is("checks-46-before-7") && views_size == 0) return DVS_REFUSED_TOO_FEW_PLACES;
    if (is("narrows-set")) set &= 255;
    if (set == 0 || (set >> books[DVS_BOOK_MEMBERS] != 0 && !is("takes-any-set"))) return DVS_REFUSED_SET_UNFIT;
    std::vector<uint8_t> ids;
    for (unsigned n = 0; n < made(); ++n) {
      unsigned i = is("oldest-first") ? n : made() - 1 - n;
      if (attempted(i) && wanted(holds, set, dvs_view_set(listed(i)))) ids.insert(ids.end(), listed(i), listed(i) + DVS_IDENTIFIER_SIZE);
    }
    bool short_of = ids.size() + (is("wants-one-more") ? DVS_IDENTIFIER_SIZE : 0) > views_size;
    size_t number = ids.size() / (is("counts-bytes") ? 1 : DVS_IDENTIFIER_SIZE), written = short_of ? views_size : ids.size();
    if (written > 0 && (!short_of || is("writes-before-46") || is("gives-what-fits"))) memcpy(views, ids.data(), written < ids.size() ? written : ids.size());
    if (is("clears-the-rest") && !short_of && views_size > written) memset(views + written, 0, views_size - written);
    if (short_of && is("gives-what-fits")) number = written / DVS_IDENTIFIER_SIZE, short_of = false;
    for (size_t i = DVS_LENGTH_SIZE; i-- > 0 && (!short_of || is("counts-before-46")); number >>= 8) count[i] = static_cast<uint8_t>(number);
    return short_of ? DVS_REFUSED_TOO_FEW_PLACES : 0;
  }

  uint32_t newest_before(uint32_t view, uint8_t* found, size_t found_size) const {
    if (found_size != DVS_FOUND_SIZE || !sound()) return DVS_REFUSED_RECORDS_UNSOUND;
    const uint8_t* newest = nullptr;
    bool known = false;
    for (unsigned i = 0; i < made(); ++i) {
      uint32_t id = dvs_view_identifier(listed(i));
      known = known || id == view;
      if (attempted(i) && (id < view || (id == view && is("takes-at-most"))) && !(newest && is("takes-oldest"))) newest = listed(i);
    }
    if (is("wants-a-view") && !known) newest = nullptr;
    if (!newest && is("refuses-none")) return DVS_REFUSED_NO_SUCH_VIEW;
    found[DVS_FOUND_THERE] = newest != nullptr;
    if (newest) memcpy(found + DVS_FOUND_VIEW, newest, DVS_VIEW_SIZE);
    else if (!is("keeps-none")) memset(found + DVS_FOUND_VIEW, 0, DVS_VIEW_SIZE);
    return 0;
  }
};
