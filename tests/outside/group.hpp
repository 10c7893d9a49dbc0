// The whole group in three lent ranges of any bytes and any length: start, one step of any kind and operands, and a list of
// steps, after a start or by itself. A member's book is loaded and stored; the carrier's queues are changed in place.
#pragma once

#include "alone.hpp"

namespace plain {

// A count byte and slots. A push writes the next slot whole; a pop moves the others up by whole slots.
struct Queue {
  uint8_t* at;

  unsigned count() const { return at[0]; }
  Slot* slots() const { return reinterpret_cast<Slot*>(at + 1); }
  void push(const Slot& e) { memmove(&slots()[at[0]], &e, kSlotSize), ++at[0]; }
  void pop() { --at[0], memmove(slots(), slots() + 1, at[0] * kSlotSize); }

  bool sound(unsigned limit, const Setting& in) const {
    if (count() > limit) return false;
    for (unsigned i = 0; i < count(); ++i)
      if (!in.sound(slots()[i])) return false;
    return true;
  }
};

// A view's order: a count byte and columns. An entry that is put there writes its sender, its kind and what its kind has.
struct Order {
  uint8_t* at;

  unsigned count() const { return at[0]; }

  // The entry in a slot of its own: a told's count is the number there.
  Slot entry(unsigned i) const {
    Slot e;
    uint8_t kind = at[kOrderKinds + i], count = at[kOrderCounts + i];
    e.bytes[kSlotSender] = at[kOrderSenders + i], e.bytes[kSlotKind] = kind, e.bytes[kSlotCount] = count;
    put(e.bytes + kSlotNumber, 8, kind == kTold ? count : get(at + kOrderNumbers + 8 * i, 8));
    if (kind == kInfo) memcpy(e.bytes + kSlotViews, at + kOrderViews + kInfoSize * i, kInfoSize);
    return e;
  }

  void write(unsigned i, const Slot& e) {
    at[kOrderSenders + i] = e.sender(), at[kOrderKinds + i] = e.kind();
    if (e.kind() == kClient) put(at + kOrderNumbers + 8 * i, 8, e.number());
    if (e.kind() == kTold) at[kOrderCounts + i] = static_cast<uint8_t>(e.number());
    if (e.kind() != kInfo) return;
    at[kOrderCounts + i] = static_cast<uint8_t>(e.count());
    memcpy(at + kOrderViews + kInfoSize * i, e.bytes + kSlotViews, e.count() * kViewSize);
  }

  void push(const Slot& e) { write(count(), e), ++at[0]; }

  bool sound(const Setting& in) const {
    if (count() > kOrdered) return false;
    for (unsigned i = 0; i < count(); ++i)
      if (!in.sound(entry(i))) return false;
    return true;
  }
};

class Group {
  Range list_, books_, queues_;
  Member m_;

  size_t room() const { return list_.size / kViewSize; }
  unsigned members() const { return books_.at[kAtMembers]; }
  unsigned made() const { return queues_.at[kQueuesMade]; }
  uint64_t marks() const { return get(queues_.at + kQueuesMarks, kMarksSize); }
  View view(unsigned i) const { return get_view(list_.at + kViewSize * i); }
  uint8_t* book(unsigned p) const { return books_.at + kBookSize * p; }
  Order order(unsigned i) const { return Order{queues_.at + kQueuesHead + kTableSize * i}; }
  Queue waiting(unsigned i, unsigned p) const { return Queue{order(i).at + kOrderSize + kWaitingSize * p}; }

  // The place of a made view, or the number made.
  unsigned find(uint64_t id) const {
    unsigned i = 0;
    while (i < made() && view(i).id != id) ++i;
    return i;
  }

  bool lengths() const {
    return list_.size % kViewSize == 0 && books_.size == kBooksSize &&
           (room() < 1 || room() > kViews || queues_.size == queues_size(room()));
  }

  // Refusal 4: all lent records, as far as they are used.
  bool sound() {
    if (!lengths() || room() < 1 || room() > kViews) return false;
    if (members() < 1 || members() > kMembers || made() < 1 || made() > room()) return false;
    for (unsigned i = 0; i < made(); ++i)
      if (!set_fits(view(i).set, members()) || (i > 0 && view(i).id <= view(i - 1).id)) return false;
    // "a mark past the views made; in the queues' head the number of another layout": 32 views leave no such mark.
    if (marks() >> made() != 0 || queues_.at[kQueuesLayout] != kLayout) return false;
    Setting in{members(), list_.at, made()};
    for (unsigned i = 0; i < made(); ++i) {
      if (!order(i).sound(in)) return false;
      for (unsigned p = 0; p < members(); ++p)
        if (!waiting(i, p).sound(kWaiting, in)) return false;
    }
    for (unsigned p = 0; p < members(); ++p) {
      if (!load(book(p), m_) || m_.own != p) return false;
      unsigned at = m_.has_carrier ? find(m_.carrier.id) : made();
      if (!m_.sound(in, at < made() ? order(at).count() : 0)) return false;
    }
    return true;
  }

  Refusal create(uint64_t id, uint64_t set) {
    if (!set_fits(set, members())) return kSetUnfit;
    if (id <= view(made() - 1).id) return kIdentifierNotAbove;
    if (made() == room()) return kListFull;
    put_view(list_.at + kViewSize * made(), View{static_cast<uint32_t>(id), static_cast<uint8_t>(set)});
    order(made()).at[0] = 0;
    for (unsigned p = 0; p < kMembers; ++p) waiting(made(), p).at[0] = 0;
    ++queues_.at[kQueuesMade];
    return kAccepted;
  }

  Refusal join(unsigned p, uint64_t id) {
    unsigned i = find(id);
    if (i == made()) return kNoSuchView;
    if (!(view(i).set >> p & 1)) return kNotInSet;
    return m_.join(view(i));
  }

  Refusal pass(unsigned p) {
    if (!m_.has_carrier) return kNoCarrierView;
    if (m_.outgoings == 0) return kNoneOutgoing;
    Queue to = waiting(find(m_.carrier.id), p);
    if (to.count() == kWaiting) return kWaitingFull;
    to.push(m_.outgoing[0]);
    m_.pop();
    return kAccepted;
  }

  Refusal order_one(unsigned p, uint64_t id) {
    unsigned i = find(id);
    if (i == made()) return kNoSuchView;
    Queue from = waiting(i, p);
    Order to = order(i);
    if (from.count() == 0) return kNoneWaiting;
    if (to.count() == kOrdered) return kOrderFull;
    to.push(from.slots()[0]);
    from.pop();
    return kAccepted;
  }

  Refusal deliver() {
    if (!m_.has_carrier) return kNoCarrierView;
    Order from = order(find(m_.carrier.id));
    if (m_.taken == from.count()) return kNoneToDeliver;
    Slot e = from.entry(m_.taken);
    return m_.take(e.message(m_.carrier.id), e.sender());
  }

  // "An accepted attempt marks its view", which is the carrier view.
  Refusal attempt(Event& e) {
    Refusal r = m_.attempt(e);
    if (r == kAccepted) put(queues_.at + kQueuesMarks, kMarksSize, marks() | uint64_t{1} << find(m_.carrier.id));
    return r;
  }

  Refusal member_step(uint32_t kind, unsigned p, uint64_t second, Event& e) {
    switch (kind) {
      case kJoin: return join(p, second);
      case kPass: return pass(p);
      case kOrder: return order_one(p, second);
      case kDeliver: return deliver();
      case kAttempt: return attempt(e);
      case kRegister: return m_.enroll(e);
      case kSend: return m_.send(second, e);
      case kHand: return m_.hand(e);
      case kTell: return m_.tell();
      case kSafe: return m_.safe(e);
      default: return m_.collect();
    }
  }

  // Whole records of both, as many answers as steps.
  static bool paired(Range steps, Range answers) {
    size_t count = steps.size / kStepSize;
    return steps.size == count * kStepSize && answers.size == count * kAnswerSize;
  }

  // Every step in turn with its answer: its number, and its event or 16 times 0.
  void answer_each(Range steps, Range answers) {
    for (size_t i = 0; i < steps.size / kStepSize; ++i) {
      StepRecord asked = get_step(steps.at + kStepSize * i);
      uint8_t* answer = answers.at + kAnswerSize * i;
      memset(answer, 0, kAnswerSize);
      answer[0] = static_cast<uint8_t>(step(asked.kind, asked.first, asked.second, Range{answer + 1, kEventSize}));
    }
  }

 public:
  Group(Range list, Range books, Range queues) : list_(list), books_(books), queues_(queues) {}

  Refusal start(uint32_t members, uint32_t first_set) {
    if (!lengths()) return kRecordsUnsound;
    if (members < 1 || members > kMembers) return kMembersOutOfRange;
    if (!set_fits(first_set, members)) return kFirstSetUnfit;
    if (room() < 1 || room() > kViews) return kListLength;
    memset(list_.at, 0, list_.size);
    memset(books_.at, 0, books_.size);
    memset(queues_.at, 0, queues_.size);
    put_view(list_.at, View{0, static_cast<uint8_t>(first_set)});
    for (unsigned p = 0; p < members; ++p) store_fresh(book(p), members, static_cast<uint8_t>(first_set), p);
    queues_.at[kQueuesMade] = 1, queues_.at[kQueuesLayout] = kLayout;
    put(queues_.at + kQueuesMarks, kMarksSize, 1);
    return kAccepted;
  }

  Refusal step(uint32_t kind, uint32_t first, uint64_t second, Range event) {
    if (event.size != kEventSize || !sound()) return kRecordsUnsound;
    if (kind < kCreate || kind > kCollect) return kUnknownStep;
    Event e;
    Refusal r;
    if (kind == kCreate) {
      r = create(first, second);
    } else {
      if (first >= members()) return kNoSuchMember;
      load(book(first), m_);
      r = member_step(kind, first, second, e);
      if (r == kAccepted) store(m_, book(first));
    }
    if (r == kAccepted) e.store(event.at);
    return r;
  }

  // A list of steps after a start.
  Refusal run(uint32_t members, uint32_t first_set, Range steps, Range answers) {
    if (!paired(steps, answers)) return kRecordsUnsound;
    if (Refusal r = start(members, first_set)) return r;
    answer_each(steps, answers);
    return kAccepted;
  }

  // A list of steps by itself. Each checks for 4 again: on made-up records a step can leave what is not sound.
  Refusal steps(Range steps, Range answers) {
    if (!paired(steps, answers) || !sound()) return kRecordsUnsound;
    answer_each(steps, answers);
    return kAccepted;
  }

  Refusal check() { return sound() ? kAccepted : kRecordsUnsound; }
};

}  // namespace plain
