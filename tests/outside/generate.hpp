// Sound books and groups that no steps need have left, full of what is near a limit; and messages and packets for a book.
#pragma once

#include <vector>

#include "damage.hpp"
#include "group.hpp"
#include "random.hpp"

namespace outside {

using plain::View;

// Views with rising identifiers that books and queues are made of.
struct Pool {
  unsigned members, count = 0;
  View views[40];

  // At most so many; sets are wide in most pools, so that tests are passed.
  Pool(Random& r, unsigned members_given, unsigned most) : members(members_given) {
    static const uint32_t from[] = {0, 0, 0, 0, 1, 254, 0x7ffffff0, 0xffffffc0, 0xfffffffd};
    bool wide = r.chance(700), dense = r.chance(700);
    uint64_t id = r.one_of(from);
    for (; count < most && id <= UINT32_MAX; id += dense ? 1 : 1 + r.below(300))
      views[count++] = View{static_cast<uint32_t>(id), wide ? r.wide_set(members) : r.set(members)};
  }
};

// A count from 0 to its limit: few, or about the limit, or any.
inline unsigned count_to(Random& r, unsigned limit) {
  unsigned n = r.chance(600) ? r.below(4) : r.chance(500) ? limit - r.below(2) : r.below(limit + 1);
  return n < limit ? n : limit;
}

inline void random_slot(Random& r, const Pool& pool, plain::Slot& slot) {
  plain::Message m;
  m.kind = static_cast<uint8_t>(1 + r.below(4));
  if (m.kind == plain::kClient) m.number = r.odd_long();
  if (m.kind == plain::kTold) m.number = 1 + (r.chance(500) ? r.below(3) : r.below(128));
  if (m.kind == plain::kInfo) {
    unsigned dense = 100 + r.below(900);
    for (unsigned i = r.below(pool.count); i < pool.count && m.count < plain::kViews; ++i)
      if (m.count == 0 || r.chance(dense)) m.views[m.count++] = pool.views[i];
  }
  slot.write(static_cast<uint8_t>(r.below(pool.members)), m);
}

// A sound book of member `own`; `ordered` gives how many messages there are to take in a view. The carrier view is one of
// the first `joined`, and what else the book has seldom is another.
template <class Ordered>
void random_member(Random& r, const Pool& pool, unsigned joined, unsigned own, plain::Member& m, Ordered ordered) {
  unsigned some = r.chance(950) ? joined : pool.count;
  m.members = static_cast<uint8_t>(pool.members), m.own = static_cast<uint8_t>(own);
  unsigned at = some == 0 || r.chance(600) ? 0 : r.below(some), dense = 100 + r.below(901);
  m.settled = pool.views[at], m.opens = 0;
  for (unsigned i = at + 1; i < pool.count && m.opens < plain::kOpen; ++i)
    if (r.chance(dense)) m.open[m.opens++] = pool.views[i];
  m.has_carrier = joined > 0 && r.chance(900), m.has_client = some > 0 && r.chance(900);
  m.carrier = pool.views[joined == 0 ? 0 : r.chance(500) ? joined - 1 : r.below(joined)];
  m.client = some == 0 || r.chance(500) ? m.carrier : pool.views[r.below(some)];
  m.registered = r.chance(300), m.side = r.below(2);
  unsigned most = m.has_carrier ? ordered(m.carrier) : 0;
  m.taken = r.chance(500) ? most : count_to(r, most);
  m.inward[0].count = count_to(r, 128), m.inward[1].count = count_to(r, 128);
  if (m.has_carrier && m.coming().count > m.taken) m.coming().count = m.taken;
  for (plain::Inward& list : m.inward)
    for (unsigned i = 0; i < list.count; ++i)
      list.items[i] = plain::Item{static_cast<uint8_t>(r.below(pool.members)), r.odd_long()};
  unsigned limit = m.has_client ? m.mine().count : 0;
  m.handed = r.chance(400) ? limit : count_to(r, limit);
  m.told = r.chance(300) ? m.handed : count_to(r, limit);
  m.reported = r.chance(300) ? m.handed : count_to(r, r.chance(700) ? m.handed : limit);
  m.infos = r.chance(700) ? 255 : r.byte(), m.registrations = r.chance(700) ? 255 : r.byte();
  bool high = r.chance(600);
  for (uint8_t& told : m.tolds)
    told = static_cast<uint8_t>(high && m.reported < 128 ? r.between(m.reported + 1, 128) : r.below(129));
  m.outgoings = count_to(r, plain::kOutgoing);
  for (unsigned i = 0; i < m.outgoings; ++i) random_slot(r, pool, m.outgoing[i]);
}

// The bytes of such a book, over noise.
inline void random_book(Random& r, uint8_t* book) {
  unsigned members = r.chance(300) ? 8 : r.between(1, 8);
  Pool pool(r, members, r.chance(500) ? 40 : r.between(1, 6));
  r.fill(book, plain::kBookSize);
  plain::Member m;
  memcpy(m.outgoing, book + plain::kAtOutgoing + 1, sizeof m.outgoing);
  random_member(r, pool, pool.count, r.below(members), m, [](const View&) { return 128u; });
  if (!m.has_carrier && r.chance(500)) m.inward[1 - m.side].count = 0;
  plain::store(m, book);
  if (pool.members < 8 && r.chance(500)) r.fill(book + plain::kAtTolds + members, 8 - members);
}

// The bytes of a sound group, over noise; the ranges' lengths are right. Where the newest view is `fresh` nobody has joined
// it, and its queues are empty more often than not.
inline void random_group(Random& r, plain::Range list, plain::Range books, plain::Range queues, bool fresh = false) {
  unsigned members = r.chance(300) ? 8 : r.between(1, 8);
  auto room = static_cast<unsigned>(list.size / plain::kViewSize);
  Pool pool(r, members, r.chance(300) ? room : r.between(1, room));
  for (plain::Range range : {list, books, queues}) r.fill(range.at, range.size);
  for (unsigned i = 0; i < pool.count; ++i) plain::put_view(list.at + plain::kViewSize * i, pool.views[i]);
  queues.at[plain::kQueuesMade] = static_cast<uint8_t>(pool.count), queues.at[plain::kQueuesLayout] = plain::kLayout;
  // Any views have marks, or all of them: a view that is any member's may have none, and so may the first.
  uint64_t all = (uint64_t{1} << pool.count) - 1;
  plain::put(queues.at + plain::kQueuesMarks, plain::kMarksSize, r.chance(300) ? all : r.bits() & all);
  auto order = [&](unsigned i) { return queues.at + plain::kQueuesHead + plain::kTableSize * i; };
  for (unsigned i = 0; i < pool.count; ++i) {
    bool empty = fresh && i + 1 == pool.count;
    order(i)[0] = static_cast<uint8_t>(empty && r.chance(800) ? 0 : count_to(r, plain::kOrdered));
    for (unsigned k = 0; k < order(i)[0]; ++k) {
      plain::Slot entry;
      random_slot(r, pool, entry);
      plain::Order{order(i)}.write(k, entry);
    }
    for (unsigned p = 0; p < members; ++p) {
      uint8_t* queue = order(i) + plain::kOrderSize + plain::kWaitingSize * p;
      queue[0] = static_cast<uint8_t>(empty && r.chance(850) ? 0 : count_to(r, plain::kWaiting));
      for (unsigned k = 0; k < queue[0]; ++k) random_slot(r, pool, plain::Queue{queue}.slots()[k]);
    }
  }
  for (unsigned p = 0; p < members; ++p) {
    uint8_t* book = books.at + plain::kBookSize * p;
    plain::Member m;
    memcpy(m.outgoing, book + plain::kAtOutgoing + 1, sizeof m.outgoing);
    random_member(r, pool, pool.count - fresh, p, m, [&](const View& v) {
      unsigned i = 0;
      while (!(pool.views[i] == v)) ++i;
      return unsigned{order(i)[0]};
    });
    plain::store(m, book);
  }
}

// Some member's client view comes above its carrier view, which no steps lead to. A sound group of two views or more stays
// sound: what the member took is cut to what the carrier view has.
inline void raise_client(Random& r, plain::Range list, plain::Range books, plain::Range queues) {
  unsigned made = queues.at[0], at = r.below(made - 1);
  uint8_t* book = books.at + plain::kBookSize * r.below(books.at[plain::kAtMembers]);
  auto put = [&](size_t place, unsigned i) { memcpy(book + place + 1, list.at + plain::kViewSize * i, plain::kViewSize); };
  book[plain::kAtCarrier] = r.chance(800), put(plain::kAtCarrier, at);
  book[plain::kAtClient] = 1, put(plain::kAtClient, r.between(at + 1, made - 1));
  uint8_t &taken = book[plain::kAtTaken], &coming = book[book[plain::kAtSide] ? plain::kAtInward0 : plain::kAtInward1];
  uint8_t most = book[plain::kAtCarrier] ? queues.at[plain::kQueuesHead + plain::kTableSize * at] : uint8_t{0};
  if (taken > most) taken = most;
  if (coming > taken) coming = taken;
}

// A message that could come to a book now: in its carrier view, most of the time fit for it. The views of an info are
// the book's own with others, some of them with another set.
inline plain::Message random_message(Random& r, const uint8_t* book) {
  unsigned members = book[plain::kAtMembers] - 1u < 8 ? book[plain::kAtMembers] : 8;
  plain::Message m;
  m.kind = plain::kInfo;
  if (r.chance(500)) m.kind = static_cast<uint8_t>(1 + r.below(4));
  m.view = static_cast<uint32_t>(plain::get(book + plain::kAtCarrier + 1, 4));
  if (r.chance(40)) m.view = r.odd_word();
  if (m.kind == plain::kClient) m.number = r.odd_long();
  if (m.kind == plain::kTold) m.number = r.chance(950) ? 1 + r.below(128) : r.odd_long();
  if (m.kind != plain::kInfo) return m;
  unsigned most = r.chance(400) ? 32 : r.between(1, 6);
  unsigned at = 0, opens = book[plain::kAtOpen] <= plain::kOpen ? book[plain::kAtOpen] : 0;
  uint64_t id = plain::get(book + plain::kAtSettled, 4);
  if (r.chance(200)) id = r.odd_word();
  else if (r.chance(300)) id = id + r.below(4);
  else if (opens > 0 && r.chance(500)) at = r.below(opens), id = plain::get(book + plain::kAtOpen + 1 + 5 * at, 4);
  for (; m.count < most && id <= UINT32_MAX; id += 1 + (r.chance(600) ? 0 : r.below(4))) {
    View v{static_cast<uint32_t>(id), r.wide_set(members)};
    for (unsigned i = 0; i < opens; ++i) {
      View own = plain::get_view(book + plain::kAtOpen + 1 + plain::kViewSize * i);
      if (own.id == v.id && r.chance(600)) v = own;
    }
    m.views[m.count++] = v;
  }
  return m;
}

// None, a few or many messages for a book one behind the other, one of them damaged now and then, the last most often.
inline void random_packet(Random& r, const uint8_t* book, std::vector<uint8_t>& packet) {
  packet.clear();
  for (unsigned n = r.chance(50) ? 0 : r.chance(950) ? r.between(1, 5) : r.between(100, 140); n > 0; --n) {
    uint8_t bytes[200];
    plain::Message m = random_message(r, book);
    plain::encode(m, bytes);
    size_t size = plain::length(m);
    if (r.chance(n == 1 ? 200 : 30)) size = damage_bytes(r, bytes, size, sizeof bytes);
    packet.insert(packet.end(), bytes, bytes + size);
  }
}

}  // namespace outside
