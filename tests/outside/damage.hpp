// Damage: a few bytes of a range changed, at places where it most often matters. Both copies get the same.
#pragma once

#include <initializer_list>

#include "lent.hpp"
#include "random.hpp"

namespace outside {

// Another value for a byte: a bit off, one off, near a limit, or any.
inline uint8_t other_byte(Random& r, uint8_t was) {
  switch (r.below(4)) {
    case 0: return static_cast<uint8_t>(was ^ 1u << r.below(8));
    case 1: return static_cast<uint8_t>(was + (r.chance(500) ? 1 : 255));
    case 2: return r.odd_byte();
    default: return r.byte();
  }
}

// A place in a queue: its count, or a byte of a used slot, most often one that every entry has.
inline size_t queue_place(Random& r, const uint8_t* queue, unsigned limit) {
  unsigned used = queue[0] < limit ? queue[0] : limit;
  if (used == 0 || r.chance(250)) return r.chance(800) ? 0 : 1 + r.below(limit * plain::kSlotSize);
  return 1 + plain::kSlotSize * r.below(used) + (r.chance(500) ? r.below(12) : r.below(plain::kSlotSize));
}

// A place in an inward list or an order: its count, or a byte of a used place of a column, most often one of the first
// columns, which every entry has.
inline size_t column_place(Random& r, unsigned count, std::initializer_list<size_t> widths) {
  unsigned used = count < plain::kOrdered ? count : plain::kOrdered;
  if (used == 0 || r.chance(200)) return 0;
  size_t at = 1, one_byte = 0;
  for (size_t width : widths) one_byte += width == 1;
  size_t which = r.chance(600) ? r.below(static_cast<unsigned>(one_byte)) : r.below(static_cast<unsigned>(widths.size()));
  for (size_t width : widths) {
    if (which-- == 0) return at + r.below(static_cast<unsigned>(width * used));
    at += width * plain::kOrdered;
  }
  return 0;
}

// A place in a book: its small record, outgoing, or an inward list.
inline size_t book_place(Random& r, const uint8_t* book) {
  unsigned which = r.below(10);
  if (which < 4) return r.below(plain::kAtOpen + 1);
  if (which < 6) return r.below(plain::kAtOutgoing);
  if (which < 8) return plain::kAtOutgoing + queue_place(r, book + plain::kAtOutgoing, plain::kOutgoing);
  if (which == 8) return r.below(plain::kBookSize);
  size_t list = r.chance(500) ? plain::kAtInward0 : plain::kAtInward1;
  return list + column_place(r, book[list], {1, 8});
}

// A place in a group's queues: the number of views made, the marks, the number of the layout, or in a queue of a view made.
inline size_t queues_place(Random& r, const uint8_t* queues, size_t room) {
  if (r.chance(150)) return r.chance(400) ? plain::kQueuesMade : r.chance(800) ? r.below(plain::kQueuesFree) : r.below(plain::kQueuesHead);
  unsigned made = queues[0] >= 1 && queues[0] <= room ? queues[0] : static_cast<unsigned>(room);
  size_t table = plain::kQueuesHead + plain::kTableSize * r.below(made);
  if (r.chance(400)) return table + column_place(r, queues[table], {1, 1, 1, 8, plain::kInfoSize});
  size_t waiting = table + plain::kOrderSize + plain::kWaitingSize * r.below(8);
  return waiting + queue_place(r, queues + waiting, plain::kWaiting);
}

// Two views change places, or one is written over another, or over its neighbour's set.
inline void mix_views(Random& r, Lent& book) {
  size_t places[3 + plain::kOpen] = {plain::kAtSettled, plain::kAtCarrier + 1, plain::kAtClient + 1};
  for (unsigned i = 0; i < plain::kOpen; ++i) places[3 + i] = plain::kAtOpen + 1 + plain::kViewSize * i;
  unsigned most = 3 + (book.mine()[plain::kAtOpen] <= plain::kOpen ? book.mine()[plain::kAtOpen] : 0u);
  size_t a = places[r.below(most)], b = places[r.below(most)];
  unsigned width = r.chance(700) ? 5 : 4;
  for (unsigned i = 0; i < width; ++i) {
    uint8_t of_a = book.mine()[a + i], of_b = book.mine()[b + i];
    book.poke(a + i, of_b);
    if (width == 5) book.poke(b + i, of_a);
  }
}

// A count one beyond its places, where what follows could be read as one more.
inline void count_beyond(Random& r, Lent& book) {
  static const struct { size_t at; uint8_t beyond; } counts[] = {
      {plain::kAtOpen, plain::kOpen + 1}, {plain::kAtOutgoing, plain::kOutgoing + 1},
      {plain::kAtInward0, plain::kOrdered + 1}, {plain::kAtInward1, plain::kOrdered + 1}};
  auto count = r.one_of(counts);
  if (book.mine()[count.at] + 1 == count.beyond || r.chance(300)) book.poke(count.at, count.beyond);
}

inline void damage_book(Random& r, Lent& book) {
  if (r.chance(150)) return count_beyond(r, book);
  if (r.chance(150)) mix_views(r, book);
  for (unsigned n = r.chance(700) ? 1 : r.between(1, 6); n > 0; --n) {
    size_t at = book_place(r, book.mine());
    book.poke(at, other_byte(r, book.mine()[at]));
  }
}

// Any bytes: a message changed, cut or lengthened.
inline size_t damage_bytes(Random& r, uint8_t* bytes, size_t size, size_t most) {
  for (unsigned n = r.below(3); n > 0 && size > 0; --n) {
    size_t at = r.chance(500) ? r.below(size < 16 ? size : 16) : r.below(size);
    bytes[at] = other_byte(r, bytes[at]);
  }
  if (r.chance(200) && size > 0) size -= 1 + (r.chance(600) ? 0 : r.below(size));
  if (r.chance(150)) {
    size_t more = r.chance(600) ? 1 : r.below(20);
    if (size + more <= most) r.fill(bytes + size, more), size += more;
  }
  return size;
}

}  // namespace outside
