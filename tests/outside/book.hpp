// A member's book loaded from its bytes and stored over them: places that are not used keep what they held.
#pragma once

#include "member.hpp"

namespace plain {

// False where the bytes mean no book: a mark that is neither 0 nor 1, or a count beyond its places.
inline bool load(const uint8_t* b, Member& m) {
  if (b[kAtCarrier] > 1 || b[kAtClient] > 1 || b[kAtRegistered] > 1 || b[kAtSide] > 1) return false;
  if (b[kAtOpen] > kOpen || b[kAtOutgoing] > kOutgoing) return false;
  if (b[kAtInward0] > kOrdered || b[kAtInward1] > kOrdered) return false;
  m.members = b[kAtMembers], m.own = b[kAtOwn];
  m.settled = get_view(b + kAtSettled);
  m.has_carrier = b[kAtCarrier] == 1, m.carrier = get_view(b + kAtCarrier + 1);
  m.has_client = b[kAtClient] == 1, m.client = get_view(b + kAtClient + 1);
  m.registered = b[kAtRegistered] == 1;
  m.handed = b[kAtHanded], m.told = b[kAtTold], m.reported = b[kAtReported], m.taken = b[kAtTaken];
  m.infos = b[kAtInfos], m.registrations = b[kAtRegistrations], m.side = b[kAtSide];
  memcpy(m.tolds, b + kAtTolds, kMembers);
  m.opens = b[kAtOpen];
  for (unsigned i = 0; i < m.opens; ++i) m.open[i] = get_view(b + kAtOpen + 1 + kViewSize * i);
  // The slots that are not used are loaded too: a message gained writes over what its slot held.
  m.outgoings = b[kAtOutgoing];
  memcpy(m.outgoing, b + kAtOutgoing + 1, sizeof m.outgoing);
  for (unsigned s = 0; s < 2; ++s) {
    const uint8_t* at = b + (s ? kAtInward1 : kAtInward0);
    m.inward[s].count = *at;
    for (unsigned i = 0; i < m.inward[s].count; ++i)
      m.inward[s].items[i] = Item{at[kItemSenders + i], get(at + kItemNumbers + 8 * i, 8)};
  }
  return true;
}

inline void store(const Member& m, uint8_t* b) {
  b[kAtMembers] = m.members, b[kAtOwn] = m.own;
  put_view(b + kAtSettled, m.settled);
  b[kAtCarrier] = m.has_carrier;
  if (m.has_carrier) put_view(b + kAtCarrier + 1, m.carrier);
  b[kAtClient] = m.has_client;
  if (m.has_client) put_view(b + kAtClient + 1, m.client);
  b[kAtRegistered] = m.registered;
  b[kAtHanded] = static_cast<uint8_t>(m.handed), b[kAtTold] = static_cast<uint8_t>(m.told);
  b[kAtReported] = static_cast<uint8_t>(m.reported), b[kAtTaken] = static_cast<uint8_t>(m.taken);
  b[kAtInfos] = m.infos, b[kAtRegistrations] = m.registrations, b[kAtSide] = static_cast<uint8_t>(m.side);
  memcpy(b + kAtTolds, m.tolds, kMembers);
  b[kAtOpen] = static_cast<uint8_t>(m.opens);
  for (unsigned i = 0; i < m.opens; ++i) put_view(b + kAtOpen + 1 + kViewSize * i, m.open[i]);
  b[kAtOutgoing] = static_cast<uint8_t>(m.outgoings);
  memcpy(b + kAtOutgoing + 1, m.outgoing, sizeof m.outgoing);
  for (unsigned s = 0; s < 2; ++s) {
    uint8_t* at = b + (s ? kAtInward1 : kAtInward0);
    *at = static_cast<uint8_t>(m.inward[s].count);
    for (unsigned i = 0; i < m.inward[s].count; ++i) {
      at[kItemSenders + i] = m.inward[s].items[i].sender;
      put(at + kItemNumbers + 8 * i, 8, m.inward[s].items[i].number);
    }
  }
}

// The book of a member at the start: every byte of it is written.
inline void store_fresh(uint8_t* b, unsigned members, uint8_t first_set, unsigned own) {
  memset(b, 0, kBookSize);
  View first{0, first_set};
  bool in = first_set >> own & 1;
  b[kAtMembers] = static_cast<uint8_t>(members), b[kAtOwn] = static_cast<uint8_t>(own);
  put_view(b + kAtSettled, first);
  b[kAtCarrier] = b[kAtClient] = b[kAtRegistered] = in;
  // Written for a member outside the first set too, where the marks say that they are not used.
  put_view(b + kAtCarrier + 1, first), put_view(b + kAtClient + 1, first);
}

}  // namespace plain
