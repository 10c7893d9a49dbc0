// The member by itself: its calls on a book as plain data, and as a host makes them, with a book of any bytes and any
// length, plain numbers, and byte ranges. Each gives its number and leaves what the accepted step makes of what was lent.
#pragma once

#include "book.hpp"

namespace plain {

inline Refusal start_refusal(uint32_t members, uint32_t first_set, uint32_t own) {
  if (members < 1 || members > kMembers) return kMembersOutOfRange;
  if (!set_fits(first_set, members)) return kFirstSetUnfit;
  return own < members ? kAccepted : kNoSuchMember;
}

// A book as plain data, with the calls that set the member by itself apart from a group's.
struct ByItself : Member {
  // 4, of what the book's bytes mean, and 6: before anything else of a call.
  Refusal admit() const {
    if (members < 1 || members > kMembers || !sound(Setting{members}, kOrdered)) return kRecordsUnsound;
    return own < members ? kAccepted : kNoSuchMember;
  }

  Refusal join(uint32_t view, uint32_t set) {
    if (!set_fits(set, members)) return kSetUnfit;
    if (!(set >> own & 1)) return kNotInSet;
    return Member::join(View{view, static_cast<uint8_t>(set)});
  }

  Refusal pass(Range buffer, uint32_t& size) {
    if (!has_carrier) return kNoCarrierView;
    if (outgoings == 0) return kNoneOutgoing;
    Message message = outgoing[0].message(carrier.id);
    if (Refusal r = write(message, buffer.at, buffer.size)) return r;
    size = static_cast<uint32_t>(length(message));
    pop();
    return kAccepted;
  }

  Refusal deliver(const uint8_t* bytes, size_t size, uint32_t sender) {
    if (!has_carrier) return kNoCarrierView;
    Message message;
    if (Refusal r = read(bytes, size, message)) return r;
    return arrive(message, sender);
  }

  // The same of the message at the front, whatever lies behind it.
  Refusal deliver_front(const uint8_t* bytes, size_t size, uint32_t sender, size_t& taken_bytes) {
    if (!has_carrier) return kNoCarrierView;
    Message message;
    if (Refusal r = read_front(bytes, size, message, taken_bytes)) return r;
    return arrive(message, sender);
  }

 private:
  // A message that was read.
  Refusal arrive(const Message& message, uint32_t sender) {
    for (unsigned i = 0; i < message.count; ++i)
      if (!set_fits(message.views[i].set, members)) return kSetUnfit;
    if (message.view != carrier.id) return kAnotherView;
    if (sender >= kMembers || !(carrier.set >> sender & 1)) return kSenderNotInView;
    if (taken >= kOrdered) return kOrderFull;
    return take(message, static_cast<uint8_t>(sender));
  }
};

// The same over a lent book, which each call loads, and stores where it is accepted.
class Alone {
  Range book_;
  ByItself m_;

  template <class Do> Refusal change(Do what) {
    if (book_.size != kBookSize || !load(book_.at, m_)) return kRecordsUnsound;
    Refusal r = m_.admit();
    if (r == kAccepted) r = what();
    if (r == kAccepted) store(m_, book_.at);
    return r;
  }

  template <class Do> Refusal show(Range event, Do what) {
    if (event.size != kEventSize) return kRecordsUnsound;
    Event e;
    Refusal r = change([&] { return what(e); });
    if (r == kAccepted) e.store(event.at);
    return r;
  }

 public:
  explicit Alone(Range book) : book_(book) {}

  Refusal start(uint32_t members, uint32_t first_set, uint32_t own) {
    if (book_.size != kBookSize) return kRecordsUnsound;
    if (Refusal r = start_refusal(members, first_set, own)) return r;
    store_fresh(book_.at, members, static_cast<uint8_t>(first_set), own);
    return kAccepted;
  }

  Refusal pass(Range buffer, Range length) {
    if (length.size != kLengthSize) return kRecordsUnsound;
    uint32_t size = 0;
    Refusal r = change([&] { return m_.pass(buffer, size); });
    if (r == kAccepted) put(length.at, kLengthSize, size);
    return r;
  }

  Refusal join(uint32_t view, uint32_t set) { return change([&] { return m_.join(view, set); }); }
  Refusal deliver(const uint8_t* bytes, size_t size, uint32_t sender) {
    return change([&] { return m_.deliver(bytes, size, sender); });
  }

  // "A packet of several is delivered one by one, up to the first refusal": each is a call of its own on the book that the
  // one before it left.
  Refusal deliver_packet(const uint8_t* bytes, size_t size, uint32_t sender, Range delivery) {
    if (delivery.size != kDeliverySize || check() == kRecordsUnsound) return kRecordsUnsound;
    uint32_t delivered = 0;
    Refusal stopped = kAccepted;
    for (size_t at = 0; at < size && stopped == kAccepted;) {
      size_t front = 0;
      stopped = change([&] { return m_.deliver_front(bytes + at, size - at, sender, front); });
      if (stopped == kAccepted) ++delivered, at += front;
    }
    put(delivery.at + kDelivered, 4, delivered), delivery.at[kStopped] = static_cast<uint8_t>(stopped);
    return kAccepted;
  }
  Refusal attempt(Range event) { return show(event, [&](Event& e) { return m_.attempt(e); }); }
  Refusal enroll(Range event) { return show(event, [&](Event& e) { return m_.enroll(e); }); }
  Refusal send(uint64_t entry, Range event) { return show(event, [&](Event& e) { return m_.send(entry, e); }); }
  Refusal hand(Range event) { return show(event, [&](Event& e) { return m_.hand(e); }); }
  Refusal tell() { return change([&] { return m_.tell(); }); }
  Refusal safe(Range event) { return show(event, [&](Event& e) { return m_.safe(e); }); }
  Refusal collect() { return change([&] { return m_.collect(); }); }

  Refusal check() {
    if (book_.size != kBookSize || !load(book_.at, m_)) return kRecordsUnsound;
    return m_.admit();
  }
};

}  // namespace plain
