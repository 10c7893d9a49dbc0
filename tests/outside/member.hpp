// A member's book as plain data, when it is sound, and the member's steps: each answers by its first unmet condition and
// changes nothing then. The group has the same steps; what sets the member by itself apart is in alone.hpp.
#pragma once

#include "wire.hpp"

namespace plain {

// A queue entry as its whole slot: what its kind does not use moves with it.
struct Slot {
  uint8_t bytes[kSlotSize];

  uint8_t sender() const { return bytes[kSlotSender]; }
  uint8_t kind() const { return bytes[kSlotKind]; }
  uint64_t number() const { return get(bytes + kSlotNumber, 8); }
  unsigned count() const { return bytes[kSlotCount]; }
  View view(unsigned i) const { return get_view(bytes + kSlotViews + kViewSize * i); }

  // The message it holds, as sent in a view. Asks for a sound entry.
  Message message(uint32_t view_id) const {
    Message m;
    m.kind = kind(), m.view = view_id;
    if (numbers_of(m.kind)) m.number = number();
    if (m.kind == kInfo) m.count = count();
    for (unsigned i = 0; i < m.count; ++i) m.views[i] = view(i);
    return m;
  }

  // Only what the kind holds is written.
  void write(uint8_t sender, const Message& m) {
    bytes[kSlotSender] = sender, bytes[kSlotKind] = m.kind;
    if (m.kind != kInfo) return put(bytes + kSlotNumber, 8, m.number);
    bytes[kSlotCount] = static_cast<uint8_t>(m.count);
    for (unsigned i = 0; i < m.count; ++i) put_view(bytes + kSlotViews + kViewSize * i, m.views[i]);
  }
};

struct Item { uint8_t sender; uint64_t number; };

struct Inward {
  unsigned count;
  Item items[kOrdered];
};

// Which views a book may name: those whose set fits the members, and in a group only listed ones.
struct Setting {
  unsigned members;
  const uint8_t* list = nullptr;  // view records, or none for the member by itself
  unsigned made = 0;

  bool known(const View& v) const {
    if (!set_fits(v.set, members)) return false;
    if (!list) return true;
    for (unsigned i = 0; i < made; ++i)
      if (get_view(list + kViewSize * i) == v) return true;
    return false;
  }

  bool sound(const Slot& e) const {
    if (e.sender() >= members) return false;
    if (e.kind() == kTold) return e.number() >= 1 && e.number() <= kOrdered;
    if (e.kind() != kInfo) return e.kind() == kClient || e.kind() == kRegistered;
    if (e.count() < 1 || e.count() > kViews) return false;
    for (unsigned i = 0; i < e.count(); ++i)
      if (!known(e.view(i)) || (i > 0 && e.view(i).id <= e.view(i - 1).id)) return false;
    return true;
  }
};

struct Member {
  uint8_t members, own;
  View settled, carrier, client, open[kOpen + 2];  // room for one too many, before 43 is asked
  bool has_carrier, has_client, registered;
  unsigned opens, handed, told, reported, taken, side, outgoings;
  uint8_t infos, registrations, tolds[kMembers];
  Slot outgoing[kOutgoing];
  Inward inward[2];

  // Client view and carrier view are compared by identifier.
  bool in_step() const { return has_carrier && has_client && carrier.id == client.id; }
  // The carrier view's inward list, and the client view's.
  Inward& coming() { return inward[in_step() ? side : 1 - side]; }
  const Inward& coming() const { return inward[in_step() ? side : 1 - side]; }
  const Inward& mine() const { return inward[side]; }

  // Refusal 4, of what the bytes mean; `most` is how many messages there can be to take.
  bool sound(const Setting& in, unsigned most) const {
    if (members != in.members) return false;
    if (!in.known(settled)) return false;
    for (unsigned i = 0; i < opens; ++i)
      if (!in.known(open[i]) || open[i].id <= (i ? open[i - 1] : settled).id) return false;
    if ((has_carrier && !in.known(carrier)) || (has_client && !in.known(client))) return false;
    unsigned limit = has_client ? mine().count : 0;
    if (handed > limit || told > limit || reported > limit) return false;
    if (taken > (has_carrier ? most : 0)) return false;
    if (has_carrier && coming().count > taken) return false;
    for (unsigned q = 0; q < members; ++q)
      if (tolds[q] > kOrdered) return false;
    for (unsigned i = 0; i < outgoings; ++i)
      if (!in.sound(outgoing[i])) return false;
    for (const Inward& list : inward)
      for (unsigned i = 0; i < list.count; ++i)
        if (list.items[i].sender >= members) return false;
    return true;
  }

  void queue(const Message& m) { outgoing[outgoings++].write(own, m); }

  // Opens a view, unless it is not above the settled one or its identifier is open already.
  static void open_view(View* open, unsigned& opens, const View& settled, const View& v) {
    unsigned at = 0;
    if (v.id <= settled.id) return;
    while (at < opens && open[at].id < v.id) ++at;
    if (at < opens && open[at].id == v.id) return;
    for (unsigned i = opens++; i > at; --i) open[i] = open[i - 1];
    open[at] = v;
  }

  static void prune(View* open, unsigned& opens, const View& settled) {
    unsigned kept = 0;
    for (unsigned i = 0; i < opens; ++i)
      if (open[i].id > settled.id) open[kept++] = open[i];
    opens = kept;
  }

  // The view has been found fit for this member.
  Refusal join(const View& v) {
    if (has_carrier && v.id <= carrier.id) return kNotAboveCarrier;
    inward[1 - side].count = 0;
    carrier = v, has_carrier = true;
    taken = infos = registrations = 0;
    memset(tolds, 0, sizeof tolds);
    Message info;
    info.kind = kInfo, info.count = 1 + opens, info.views[0] = settled;
    for (unsigned i = 0; i < opens; ++i) info.views[i + 1] = open[i];
    outgoings = 0;
    queue(info);
    return kAccepted;
  }

  // The first outgoing message leaves; the others move up by whole slots.
  void pop() {
    --outgoings;
    for (unsigned i = 0; i < outgoings; ++i) outgoing[i] = outgoing[i + 1];
  }

  // A message of the carrier view's order that there is room for.
  Refusal take(const Message& m, uint8_t sender) {
    auto bit = static_cast<uint8_t>(1u << sender);
    if (m.kind == kInfo) {
      View now = settled, views[2 * kViews];
      unsigned count = opens;
      for (unsigned i = 0; i < opens; ++i) views[i] = open[i];
      if (m.views[0].id > settled.id) {
        now = m.views[0];
        for (unsigned i = 0; i < opens; ++i)
          if (open[i].id == now.id) now = open[i];
      }
      prune(views, count, now);
      for (unsigned i = 1; i < m.count; ++i) open_view(views, count, now, m.views[i]);
      if (count > kOpen) return kTooManyOpen;
      settled = now, opens = count, infos |= bit;
      for (unsigned i = 0; i < count; ++i) open[i] = views[i];
    } else if (m.kind == kRegistered) {
      registrations |= bit;
    } else if (m.kind == kTold) {
      tolds[sender] = static_cast<uint8_t>(m.number);
    } else {
      coming().items[coming().count] = Item{sender, m.number};
      ++coming().count;
    }
    ++taken;
    return kAccepted;
  }

  Refusal attempt(Event& e) {
    if (!has_carrier) return kNoCarrierView;
    if (has_client && carrier.id <= client.id) return kNotAboveClient;
    if (carrier.set & ~infos) return kInfoMissing;
    bool passes = majority(carrier.set, settled.set);
    for (unsigned i = 0; i < opens; ++i) passes = passes && majority(carrier.set, open[i].set);
    if (!passes) return kTestFailed;
    View views[kOpen + 1];
    unsigned count = opens;
    for (unsigned i = 0; i < opens; ++i) views[i] = open[i];
    open_view(views, count, settled, carrier);
    if (count > kOpen) return kTooManyOpen;
    opens = count;
    for (unsigned i = 0; i < count; ++i) open[i] = views[i];
    client = carrier, has_client = true, registered = false;
    handed = told = reported = 0;
    inward[side].count = 0;
    side = 1 - side;
    e.kind = kAttempt, e.member = own, e.view = client.id, e.set = client.set;
    return kAccepted;
  }

  Refusal enroll(Event& e) {
    if (!has_client) return kNoClientView;
    if (registered) return kAlreadyRegistered;
    if (in_step() && outgoings == kOutgoing) return kOutgoingFull;
    Message m;
    m.kind = kRegistered;
    if (in_step()) queue(m);
    registered = true;
    e.kind = kRegister, e.member = own, e.view = client.id;
    return kAccepted;
  }

  Refusal send(uint64_t entry, Event& e) {
    if (!has_client) return kNoClientView;
    if (in_step() && outgoings == kOutgoing) return kOutgoingFull;
    Message m;
    m.kind = kClient, m.number = entry;
    if (in_step()) queue(m);
    e.kind = kSend, e.member = own, e.view = client.id, e.entry = entry;
    return kAccepted;
  }

  Refusal hand(Event& e) {
    if (!has_client) return kNoClientView;
    if (handed >= mine().count) return kNoneToHand;
    const Item& item = mine().items[handed++];
    e.kind = kHand, e.member = own, e.view = client.id, e.sender = item.sender, e.entry = item.number;
    return kAccepted;
  }

  Refusal tell() {
    if (!has_client) return kNoClientView;
    if (!in_step()) return kClientNotCarrier;
    if (handed == 0 || handed == told) return kNothingNewToTell;
    if (outgoings == kOutgoing) return kOutgoingFull;
    Message m;
    m.kind = kTold, m.number = handed;
    queue(m);
    told = handed;
    return kAccepted;
  }

  Refusal safe(Event& e) {
    if (!has_client) return kNoClientView;
    if (!in_step()) return kClientNotCarrier;
    if (reported >= handed) return kNoneToReport;
    for (unsigned q = 0; q < members; ++q)
      if ((client.set >> q & 1) && tolds[q] < reported + 1) return kToldTooLow;
    const Item& item = mine().items[reported++];
    e.kind = kSafe, e.member = own, e.view = client.id, e.sender = item.sender, e.entry = item.number;
    return kAccepted;
  }

  Refusal collect() {
    if (!has_carrier) return kNoCarrierView;
    if (carrier.id <= settled.id) return kNotAboveSettled;
    if (carrier.set & ~registrations) return kRegistrationMissing;
    settled = carrier;
    prune(open, opens, settled);
    return kAccepted;
  }
};

}  // namespace plain
