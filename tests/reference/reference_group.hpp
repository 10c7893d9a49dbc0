// The group once more, as plain C++ written from the specification alone: fixed places, no heap, no exceptions.
// With -DNO_CHECK the steps leave out refusal 4, to see what it costs.
#pragma once

#include <cstddef>
#include <cstdint>
#include <cstring>

namespace reference {

// The specification's limits.
constexpr unsigned kMembers = 8, kViews = 32, kOpen = kViews - 1;
constexpr unsigned kOutgoing = 16, kWaiting = 8, kOrdered = 128;

#ifdef NO_CHECK
constexpr bool kCheck = false;
#else
constexpr bool kCheck = true;
#endif

// The refusals, numbered as in the specification's table.
enum Refusal : uint8_t {
  kAccepted = 0,
#include "refusals.inc"
};

struct View { uint32_t id; uint8_t set; };

enum MessageKind : uint8_t { kClient = 1, kInfo = 2, kRegistered = 3, kTold = 4 };

// A sender with its message. An info's views stand behind it, the settled one first.
struct Entry {
  uint8_t sender, kind, count;
  uint64_t number;
  View views[kViews];
};

struct Item { uint8_t sender; uint64_t number; };

// A first-in first-out queue of fixed size, a power of two.
template <class T, unsigned N> struct Queue {
  static_assert((N & (N - 1)) == 0, "places are found by masking");
  uint8_t head, count;
  T places[N];
  void clear() { head = count = 0; }
  bool full() const { return count == N; }
  T& at(unsigned i) { return places[(head + i) & (N - 1)]; }
  const T& at(unsigned i) const { return places[(head + i) & (N - 1)]; }
  T& push() { return at(count++); }
  void pop() { head = (head + 1) & (N - 1); --count; }
};

// A list that only grows.
template <class T> struct Log {
  uint8_t count;
  T places[kOrdered];
};

struct Book {
  View settled, carrier, client, open[kOpen];
  bool has_carrier, has_client, registered;
  uint8_t opens, handed, told, reported, taken;
  uint8_t infos, registrations, tolds[kMembers];  // what was received in the carrier view, by sender
  uint8_t side;                                   // which inward list is the client view's
  Log<Item> inward[2];                            // the other one is a carrier view's that is not attempted
  Queue<Entry, kOutgoing> outgoing;

  bool in_step() const { return has_carrier && has_client && carrier.id == client.id; }
};

struct Channel {
  Queue<Entry, kWaiting> waiting[kMembers];
  Log<Entry> order;
};

enum Event : uint8_t { kOk, kAttempted, kDidRegister, kSent, kHanded, kSafe };

struct Reply {
  Refusal refusal = kAccepted;
  Event event = kOk;
  uint8_t member = 0, who = 0;  // who: the new view's set, or the sender
  uint32_t id = 0;
  uint64_t number = 0;
};

// A list of views: their identifiers, the newest first.
struct Found {
  Refusal refusal = kAccepted;
  unsigned count = 0;
  uint32_t ids[kViews] = {};
};

inline Reply refuse(Refusal r) { Reply reply; reply.refusal = r; return reply; }

inline Reply show(Event event, uint8_t member, uint32_t id, uint8_t who = 0, uint64_t number = 0) {
  Reply reply;
  reply.event = event, reply.member = member, reply.id = id, reply.who = who, reply.number = number;
  return reply;
}

inline unsigned ones(unsigned set) { return static_cast<unsigned>(__builtin_popcount(set)); }

inline bool majority(uint8_t set, uint8_t held) { return 2 * ones(set & held) > ones(held); }

inline bool shares(uint8_t set, uint8_t other) { return (set & other) != 0; }

struct Group {
  uint8_t members, length, made;  // length: how many view records were lent
  View list[kViews];
  bool attempted[kViews];  // by the view's place in the list
  Channel channels[kViews];
  Book books[kMembers];

  Refusal start(uint64_t members_given, uint64_t first, uint64_t length_given);
  Reply step(uint8_t kind, uint64_t first, uint64_t second);
  // The driver: `number` is how many steps it took.
  Reply form(uint64_t id);
  // The queries: the attempted views that share a member with the set, and those of which it holds a majority, in so many
  // places; the newest attempted view below the identifier, or null.
  Found crossing(uint64_t set, size_t places) const { return list_attempted(shares, set, places); }
  Found holding(uint64_t set, size_t places) const { return list_attempted(majority, set, places); }
  const View* before(uint32_t id) const;

 private:
  bool set_allowed(uint64_t set) const { return set != 0 && set >> members == 0; }
  unsigned find(uint64_t id) const;
  bool listed(const View& v) const;
  Found list_attempted(bool (*belongs)(uint8_t, uint8_t), uint64_t set, size_t places) const;
  bool sound_entry(const Entry& e) const;
  bool sound_book(const Book& b) const;
  bool sound() const;
  Reply create(uint64_t id, uint64_t set);
  Reply join(Book& b, unsigned p, uint64_t id);
  Reply pass(Book& b, unsigned p);
  Reply order(unsigned p, uint64_t id);
  Reply deliver(Book& b);
  Reply attempt(Book& b, uint8_t p);
  Reply enroll(Book& b, uint8_t p);
  Reply send(Book& b, uint8_t p, uint64_t number);
  Reply hand(Book& b, uint8_t p);
  Reply tell(Book& b, uint8_t p);
  Reply safe(Book& b, uint8_t p);
  Reply collect(Book& b);
  bool joined(uint64_t id) const;
  bool passes_held(const View& v) const;
};

inline Refusal Group::start(uint64_t members_given, uint64_t first, uint64_t length_given) {
  if (members_given < 1 || members_given > kMembers) return kMembersOutOfRange;
  if (first == 0 || first >> members_given != 0) return kFirstSetUnfit;
  if (length_given < 1 || length_given > kViews) return kListLength;
  members = static_cast<uint8_t>(members_given);
  length = static_cast<uint8_t>(length_given);
  made = 1;
  list[0] = View{0, static_cast<uint8_t>(first)};
  attempted[0] = true;
  for (auto& w : channels[0].waiting) w.clear();
  channels[0].order.count = 0;
  for (unsigned p = 0; p < kMembers; ++p) {
    Book& b = books[p];
    b.settled = b.carrier = b.client = list[0];
    b.has_carrier = b.has_client = b.registered = first >> p & 1;
    b.opens = b.handed = b.told = b.reported = b.taken = b.infos = b.registrations = b.side = 0;
    memset(b.tolds, 0, sizeof b.tolds);
    b.inward[0].count = b.inward[1].count = 0;
    b.outgoing.clear();
  }
  return kAccepted;
}

// The place of a made view, or `made`. Identifiers rise, so a binary search would do; 32 at most are not worth it.
inline unsigned Group::find(uint64_t id) const {
  unsigned i = 0;
  while (i < made && list[i].id != id) ++i;
  return i;
}

inline bool Group::listed(const View& v) const {
  unsigned i = find(v.id);
  return i < made && list[i].set == v.set;
}

inline bool Group::sound_entry(const Entry& e) const {
  if (e.sender >= members) return false;
  switch (e.kind) {
    case kClient: case kRegistered: return true;
    case kTold: return e.number >= 1 && e.number <= kOrdered;
    case kInfo:
      if (e.count < 1 || e.count > kViews) return false;
      for (unsigned i = 0; i < e.count; ++i)
        if (!listed(e.views[i]) || (i > 0 && e.views[i].id <= e.views[i - 1].id)) return false;
      return true;
    default: return false;
  }
}

inline bool Group::sound_book(const Book& b) const {
  if (b.opens > kOpen || b.side > 1 || b.outgoing.head >= kOutgoing || b.outgoing.count > kOutgoing) return false;
  if (!listed(b.settled)) return false;
  for (unsigned i = 0; i < b.opens; ++i)
    if (!listed(b.open[i]) || b.open[i].id <= (i ? b.open[i - 1] : b.settled).id) return false;
  if ((b.has_carrier && !listed(b.carrier)) || (b.has_client && !listed(b.client))) return false;
  for (auto& list : b.inward) {
    if (list.count > kOrdered) return false;
    for (unsigned i = 0; i < list.count; ++i)
      if (list.places[i].sender >= members) return false;
  }
  if (b.taken > (b.has_carrier ? channels[find(b.carrier.id)].order.count : 0)) return false;
  if (b.has_carrier && b.inward[b.in_step() ? b.side : 1 - b.side].count > b.taken) return false;
  unsigned inward = b.has_client ? b.inward[b.side].count : 0;
  if (b.handed > inward || b.told > inward || b.reported > inward) return false;
  for (unsigned q = 0; q < members; ++q)
    if (b.tolds[q] > kOrdered) return false;
  for (unsigned i = 0; i < b.outgoing.count; ++i)
    if (!sound_entry(b.outgoing.at(i))) return false;
  return true;
}

// Refusal 4: all lent records, as far as they are used.
inline bool Group::sound() const {
  if (members < 1 || members > kMembers || length < 1 || length > kViews || made < 1 || made > length) return false;
  for (unsigned i = 0; i < made; ++i)
    if (!set_allowed(list[i].set) || (i > 0 && list[i].id <= list[i - 1].id)) return false;
  for (unsigned i = 0; i < made; ++i) {
    const Channel& c = channels[i];
    if (c.order.count > kOrdered) return false;
    for (unsigned j = 0; j < c.order.count; ++j)
      if (!sound_entry(c.order.places[j])) return false;
    for (unsigned p = 0; p < members; ++p) {
      auto& w = c.waiting[p];
      if (w.head >= kWaiting || w.count > kWaiting) return false;
      for (unsigned j = 0; j < w.count; ++j)
        if (!sound_entry(w.at(j))) return false;
    }
  }
  for (unsigned p = 0; p < members; ++p)
    if (!sound_book(books[p])) return false;
  return true;
}

inline Reply Group::step(uint8_t kind, uint64_t first, uint64_t second) {
  if (kCheck && !sound()) return refuse(kRecordsUnsound);
  if (kind < 1 || kind > 12) return refuse(kUnknownStep);
  if (kind == 1) return create(first, second);
  if (first >= members) return refuse(kNoSuchMember);
  auto p = static_cast<uint8_t>(first);
  Book& b = books[p];
  switch (kind) {
    case 2: return join(b, p, second);
    case 3: return pass(b, p);
    case 4: return order(p, second);
    case 5: return deliver(b);
    case 6: return attempt(b, p);
    case 7: return enroll(b, p);
    case 8: return send(b, p, second);
    case 9: return hand(b, p);
    case 10: return tell(b, p);
    case 11: return safe(b, p);
    default: return collect(b);
  }
}

inline Reply Group::create(uint64_t id, uint64_t set) {
  if (!set_allowed(set)) return refuse(kSetUnfit);
  if (id <= list[made - 1].id) return refuse(kIdentifierNotAbove);
  if (made == length) return refuse(kListFull);
  list[made] = View{static_cast<uint32_t>(id), static_cast<uint8_t>(set)};
  attempted[made] = false;
  for (auto& w : channels[made].waiting) w.clear();
  channels[made].order.count = 0;
  ++made;
  return Reply();
}

inline Reply Group::join(Book& b, unsigned p, uint64_t id) {
  unsigned i = find(id);
  if (i == made) return refuse(kNoSuchView);
  if (!(list[i].set >> p & 1)) return refuse(kNotInSet);
  if (b.has_carrier && id <= b.carrier.id) return refuse(kNotAboveCarrier);
  b.carrier = list[i];
  b.has_carrier = true;
  b.inward[1 - b.side].count = 0;
  b.taken = b.infos = b.registrations = 0;
  memset(b.tolds, 0, sizeof b.tolds);
  b.outgoing.clear();
  Entry& e = b.outgoing.push();
  e.sender = static_cast<uint8_t>(p);
  e.kind = kInfo;
  e.count = static_cast<uint8_t>(1 + b.opens);
  e.views[0] = b.settled;
  memcpy(e.views + 1, b.open, b.opens * sizeof(View));
  return Reply();
}

// Copies what an entry uses: most carry no views.
inline void copy(Entry& to, const Entry& from) {
  memcpy(&to, &from, offsetof(Entry, views));
  if (from.kind == kInfo) memcpy(to.views, from.views, from.count * sizeof(View));
}

inline Reply Group::pass(Book& b, unsigned p) {
  if (!b.has_carrier) return refuse(kNoCarrierView);
  if (b.outgoing.count == 0) return refuse(kNoneOutgoing);
  auto& waiting = channels[find(b.carrier.id)].waiting[p];
  if (waiting.full()) return refuse(kWaitingFull);
  copy(waiting.push(), b.outgoing.at(0));
  b.outgoing.pop();
  return Reply();
}

inline Reply Group::order(unsigned p, uint64_t id) {
  unsigned i = find(id);
  if (i == made) return refuse(kNoSuchView);
  auto& waiting = channels[i].waiting[p];
  if (waiting.count == 0) return refuse(kNoneWaiting);
  auto& order = channels[i].order;
  if (order.count == kOrdered) return refuse(kOrderFull);
  copy(order.places[order.count++], waiting.at(0));
  waiting.pop();
  return Reply();
}

// Drops open views that are not above the settled one.
inline void prune(Book& b) {
  unsigned drop = 0;
  while (drop < b.opens && b.open[drop].id <= b.settled.id) ++drop;
  b.opens = static_cast<uint8_t>(b.opens - drop);
  memmove(b.open, b.open + drop, b.opens * sizeof(View));
}

// Adds a view to the open ones, unless it is not above the settled one or its identifier is open already.
inline void open_view(Book& b, const View& v) {
  if (v.id <= b.settled.id) return;
  unsigned at = 0;
  while (at < b.opens && b.open[at].id < v.id) ++at;
  if (at < b.opens && b.open[at].id == v.id) return;
  memmove(b.open + at + 1, b.open + at, (b.opens - at) * sizeof(View));
  b.open[at] = v;
  ++b.opens;
}

inline Reply Group::deliver(Book& b) {
  if (!b.has_carrier) return refuse(kNoCarrierView);
  auto& order = channels[find(b.carrier.id)].order;
  if (b.taken >= order.count) return refuse(kNoneToDeliver);
  const Entry& e = order.places[b.taken++];
  auto bit = static_cast<uint8_t>(1u << e.sender);
  switch (e.kind) {
    case kInfo:
      b.infos |= bit;
      if (e.views[0].id > b.settled.id) b.settled = e.views[0];
      prune(b);
      for (unsigned i = 1; i < e.count; ++i) open_view(b, e.views[i]);
      break;
    case kRegistered: b.registrations |= bit; break;
    case kTold: b.tolds[e.sender] = static_cast<uint8_t>(e.number); break;
    default: {
      auto& inward = b.inward[b.in_step() ? b.side : 1 - b.side];
      inward.places[inward.count++] = Item{e.sender, e.number};
    }
  }
  return Reply();
}

inline Reply Group::attempt(Book& b, uint8_t p) {
  if (!b.has_carrier) return refuse(kNoCarrierView);
  if (b.has_client && b.carrier.id <= b.client.id) return refuse(kNotAboveClient);
  if (b.carrier.set & ~b.infos) return refuse(kInfoMissing);
  bool passes = majority(b.carrier.set, b.settled.set);
  for (unsigned i = 0; i < b.opens; ++i) passes = passes && majority(b.carrier.set, b.open[i].set);
  if (!passes) return refuse(kTestFailed);
  attempted[find(b.carrier.id)] = true;
  open_view(b, b.carrier);
  b.client = b.carrier;
  b.has_client = true;
  b.registered = false;
  b.handed = b.told = b.reported = 0;
  b.inward[b.side].count = 0;
  b.side ^= 1;
  return show(kAttempted, p, b.client.id, b.client.set);
}

inline void gain(Book& b, uint8_t p, MessageKind kind, uint64_t number) {
  Entry& e = b.outgoing.push();
  e.sender = p, e.kind = kind, e.count = 0, e.number = number;
}

inline Reply Group::enroll(Book& b, uint8_t p) {
  if (!b.has_client) return refuse(kNoClientView);
  if (b.registered) return refuse(kAlreadyRegistered);
  if (b.in_step()) {
    if (b.outgoing.full()) return refuse(kOutgoingFull);
    gain(b, p, kRegistered, 0);
  }
  b.registered = true;
  return show(kDidRegister, p, b.client.id);
}

inline Reply Group::send(Book& b, uint8_t p, uint64_t number) {
  if (!b.has_client) return refuse(kNoClientView);
  if (b.in_step()) {
    if (b.outgoing.full()) return refuse(kOutgoingFull);
    gain(b, p, kClient, number);
  }
  return show(kSent, p, b.client.id, 0, number);
}

inline Reply Group::hand(Book& b, uint8_t p) {
  if (!b.has_client) return refuse(kNoClientView);
  auto& inward = b.inward[b.side];
  if (b.handed >= inward.count) return refuse(kNoneToHand);
  const Item& item = inward.places[b.handed++];
  return show(kHanded, p, b.client.id, item.sender, item.number);
}

inline Reply Group::tell(Book& b, uint8_t p) {
  if (!b.has_client) return refuse(kNoClientView);
  if (!b.in_step()) return refuse(kClientNotCarrier);
  if (b.handed == 0 || b.handed == b.told) return refuse(kNothingNewToTell);
  if (b.outgoing.full()) return refuse(kOutgoingFull);
  gain(b, p, kTold, b.handed);
  b.told = b.handed;
  return Reply();
}

inline Reply Group::safe(Book& b, uint8_t p) {
  if (!b.has_client) return refuse(kNoClientView);
  if (!b.in_step()) return refuse(kClientNotCarrier);
  if (b.reported >= b.handed) return refuse(kNoneToReport);
  for (unsigned q = 0; q < members; ++q)
    if ((b.client.set >> q & 1) && b.tolds[q] <= b.reported) return refuse(kToldTooLow);
  const Item& item = b.inward[b.side].places[b.reported++];
  return show(kSafe, p, b.client.id, item.sender, item.number);
}

inline Reply Group::collect(Book& b) {
  if (!b.has_carrier) return refuse(kNoCarrierView);
  if (b.carrier.id <= b.settled.id) return refuse(kNotAboveSettled);
  if (b.carrier.set & ~b.registrations) return refuse(kRegistrationMissing);
  b.settled = b.carrier;
  prune(b);
  return Reply();
}

// Whether the view is some member's carrier view.
inline bool Group::joined(uint64_t id) const {
  for (unsigned p = 0; p < members; ++p)
    if (books[p].has_carrier && books[p].carrier.id == id) return true;
  return false;
}

// The test against every view held by any of the view's servers.
inline bool Group::passes_held(const View& v) const {
  for (unsigned p = 0; p < members; ++p) {
    if (!(v.set >> p & 1)) continue;
    if (!majority(v.set, books[p].settled.set)) return false;
    for (unsigned i = 0; i < books[p].opens; ++i)
      if (!majority(v.set, books[p].open[i].set)) return false;
  }
  return true;
}

inline Reply Group::form(uint64_t id) {
  // Joins; passes, orders, deliveries of infos; attempts; registers; the same of registrations; collects.
  static const uint8_t kinds[] = {2, 3, 4, 5, 6, 7, 3, 4, 5, 12};
  if (kCheck && !sound()) return refuse(kRecordsUnsound);
  if (find(id) == made) return refuse(kNoSuchView);
  if (list[made - 1].id != id || joined(id)) return refuse(kViewNotFresh);
  const View v = list[made - 1];
  if (!passes_held(v)) return refuse(kFormTestFailed);
  const Group before = *this;
  Reply reply;
  for (uint8_t kind : kinds)
    for (unsigned p = 0; p < kMembers; ++p)
      for (unsigned n = 0; n < (v.set >> p & 1) * (kind == 5 ? ones(v.set) : 1); ++n, ++reply.number)
        if (Refusal r = step(kind, p, id).refusal) return *this = before, refuse(r);
  return reply;
}

inline Found Group::list_attempted(bool (*belongs)(uint8_t, uint8_t), uint64_t set, size_t places) const {
  Found found;
  if (kCheck && !sound()) return found.refusal = kRecordsUnsound, found;
  if (!set_allowed(set)) return found.refusal = kSetUnfit, found;
  for (unsigned i = made; i-- > 0;)
    if (attempted[i] && belongs(static_cast<uint8_t>(set), list[i].set)) found.ids[found.count++] = list[i].id;
  if (found.count > places) return found.refusal = kTooFewPlaces, found;
  return found;
}

inline const View* Group::before(uint32_t id) const {
  unsigned i = made;
  while (i > 0 && !(attempted[i - 1] && list[i - 1].id < id)) --i;
  return i > 0 ? &list[i - 1] : nullptr;
}

}  // namespace reference
