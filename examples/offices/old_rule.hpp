// The OLD PROGRAM's rule, kept to show what it did wrong. Only the story's second firm works by it: everywhere else what decides is dvs_attempt.
#pragma once

#include "dvs.hpp"

#include <algorithm>

namespace offices::old_program {

// Twice the members in common must exceed the members of the held view: this much is right.
inline bool majority(dvs::Set view, dvs::Set held) { return 2 * (view & held).count() > held.count(); }

// The old program went through the views that an office held, the settled one first, and stopped at the first that passed. The service asks every
// one of them: a view that fails may be somebody else's primary.
inline std::optional<dvs::View> first_passing(const dvs::BookReader &book, dvs::Set view) {
  if (majority(view, book.settled().set)) return book.settled();
  for (const dvs::View &open : book.open())
    if (majority(view, open.set)) return open;
  return std::nullopt;
}

// An attempt by that rule, played on the library: where it refuses and the old rule would not have, the held views that the old rule did not look at
// are taken out of the book's bytes for the call and put back behind it. No host should do this.
inline dvs::Result<dvs::Event> attempt(dvs::Book &book) {
  constexpr std::size_t kSettled = DVS_BOOK_SETTLED, kCarrier = DVS_BOOK_CARRIER + 1, kOpenCount = DVS_BOOK_OPENS;
  constexpr std::size_t kOpen = kOpenCount + 1, kOpenEnd = kOpen + DVS_VIEW_SIZE * DVS_OPEN;
  const dvs::Result<dvs::Event> answer = book.attempt();
  if (answer.refusal() != dvs::Refusal::test_failed) return answer;
  const std::optional<dvs::View> passing = first_passing(book.look(), book.look().carrier()->set);
  if (!passing) return answer;

  const auto bytes_of = [](const dvs::Book &from) {
    dvs::BookBytes bytes;
    std::copy(from.bytes().begin(), from.bytes().end(), bytes.begin());
    return bytes;
  };
  const dvs::BookBytes before = bytes_of(book);
  const dvs::ViewList open = book.look().open();
  const auto copy = [&before](std::size_t at, std::size_t end, dvs::BookBytes &to, std::size_t place) {
    std::copy(before.data() + at, before.data() + end, to.data() + place);
  };
  dvs::BookBytes bytes = before;
  for (std::size_t i = 0; i < open.size(); ++i)
    if (open[i] == *passing) copy(kOpen + DVS_VIEW_SIZE * i, kOpen + DVS_VIEW_SIZE * (i + 1), bytes, kSettled);
  bytes[kOpenCount] = 0;
  if (!book.load(dvs::wrap(bytes))) return dvs::Refusal::records_unsound;
  const dvs::Result<dvs::Event> event = book.attempt();
  bytes = bytes_of(book);
  copy(kSettled, kSettled + DVS_VIEW_SIZE, bytes, kSettled);
  copy(kOpenCount, kOpenEnd, bytes, kOpenCount);
  copy(kCarrier, kCarrier + DVS_VIEW_SIZE, bytes, kOpen + DVS_VIEW_SIZE * bytes[kOpenCount]++);
  if (!book.load(dvs::wrap(bytes))) return dvs::Refusal::records_unsound;
  return event;
}

}  // namespace offices::old_program
