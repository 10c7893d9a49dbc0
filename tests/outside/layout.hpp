// The specification's limits and refusals, the places of docs/LAYOUT.md, and big-endian numbers. Plain C++, nothing of the
// library: tests/outside is a second implementation to compare with.
#pragma once

#include <cstddef>
#include <cstdint>
#include <cstring>

namespace plain {

constexpr unsigned kMembers = 8, kViews = 32, kOpen = 31, kOutgoing = 16, kWaiting = 8, kOrdered = 128;

// Lengths of ranges and of what stands in them.
constexpr size_t kViewSize = 5, kSlotSize = 171, kBookSize = 5234, kEventSize = 16, kLengthSize = 4;
constexpr size_t kRecordSize = 174, kLongest = 167, kBooksSize = kMembers * kBookSize;
constexpr size_t kStepSize = 13, kAnswerSize = 17, kDeliverySize = 5, kIdentifierSize = 4, kFoundSize = 6;
constexpr size_t kQueuesHead = 64, kWaitingSize = 1 + kWaiting * kSlotSize;

// Places in a book.
enum Place : size_t {
  kAtMembers = 0, kAtOwn = 1, kAtSettled = 2, kAtCarrier = 7, kAtClient = 13, kAtRegistered = 19, kAtHanded = 20,
  kAtTold = 21, kAtReported = 22, kAtTaken = 23, kAtInfos = 24, kAtRegistrations = 25, kAtTolds = 26, kAtSide = 34,
  kAtOpen = 35, kAtOutgoing = 191, kAtInward0 = 2928, kAtInward1 = 4081
};

// The columns of an inward list and of a view's order, behind the count, 128 places each. A told's count stands where an
// info has its number of views.
constexpr size_t kItemSenders = 1, kItemNumbers = kItemSenders + kOrdered, kInwardSize = kItemNumbers + 8 * kOrdered;
constexpr size_t kOrderSenders = 1, kOrderKinds = kOrderSenders + kOrdered, kOrderCounts = kOrderKinds + kOrdered;
constexpr size_t kOrderNumbers = kOrderCounts + kOrdered, kOrderViews = kOrderNumbers + 8 * kOrdered;
constexpr size_t kInfoSize = kViews * kViewSize, kOrderSize = kOrderViews + kInfoSize * kOrdered;
constexpr size_t kTableSize = kOrderSize + kMembers * kWaitingSize;
static_assert(kInwardSize == kAtInward1 - kAtInward0 && kAtInward1 + kInwardSize == kBookSize, "the inward lists");
static_assert(kTableSize == 32841, "the queues of one view");

// Places in the queues' head, and the number of the layout that a start writes there.
constexpr size_t kQueuesMade = 0, kQueuesMarks = 1, kMarksSize = 4, kQueuesLayout = 5, kQueuesFree = 6;
constexpr uint8_t kLayout = 1;

constexpr size_t queues_size(size_t views) { return kQueuesHead + kTableSize * views; }

// Places in a queue entry's slot, and in a message's record.
constexpr size_t kSlotSender = 0, kSlotKind = 1, kSlotNumber = 2, kSlotCount = 10, kSlotViews = 11;
constexpr size_t kRecordKind = 0, kRecordView = 1, kRecordNumber = 5, kRecordCount = 13, kRecordViews = 14;

// Places in a delivery, and in a view that was found.
constexpr size_t kDelivered = 0, kStopped = 4, kThere = 0, kFoundView = 1;

// The refusals, numbered as in the specification's table.
enum Refusal : uint32_t {
  kAccepted = 0,
#include "../reference/refusals.inc"
};

enum MessageKind : uint8_t { kClient = 1, kInfo = 2, kRegistered = 3, kTold = 4 };

// The steps' kinds; an outward event has its step's kind.
enum Step : uint32_t {
  kCreate = 1, kJoin = 2, kPass = 3, kOrder = 4, kDeliver = 5, kAttempt = 6, kRegister = 7, kSend = 8, kHand = 9,
  kTell = 10, kSafe = 11, kCollect = 12
};

// A lent range.
struct Range { uint8_t* at; size_t size; };

struct View { uint32_t id; uint8_t set; };

inline bool operator==(const View& a, const View& b) { return a.id == b.id && a.set == b.set; }

inline uint64_t get(const uint8_t* at, size_t width) {
  uint64_t value = 0;
  for (size_t i = 0; i < width; ++i) value = value << 8 | at[i];
  return value;
}

inline void put(uint8_t* at, size_t width, uint64_t value) {
  for (size_t i = width; i-- > 0; value >>= 8) at[i] = static_cast<uint8_t>(value);
}

// The step in a run's record, its kind in one byte, its operands in four and eight.
struct StepRecord { uint8_t kind; uint32_t first; uint64_t second; };

inline StepRecord get_step(const uint8_t* at) {
  return StepRecord{at[0], static_cast<uint32_t>(get(at + 1, 4)), get(at + 5, 8)};
}

inline void put_step(uint8_t* at, const StepRecord& s) { at[0] = s.kind, put(at + 1, 4, s.first), put(at + 5, 8, s.second); }

inline View get_view(const uint8_t* at) { return View{static_cast<uint32_t>(get(at, 4)), at[4]}; }

inline void put_view(uint8_t* at, const View& v) { put(at, 4, v.id), at[4] = v.set; }

inline unsigned ones(unsigned set) {
  unsigned count = 0;
  for (; set; set >>= 1) count += set & 1;
  return count;
}

// A set of members is neither empty nor beyond them.
inline bool set_fits(uint64_t set, unsigned members) { return set != 0 && set < (uint64_t{1} << members); }

// "twice the members in common must exceed the members of the held view"
inline bool majority(uint8_t set, uint8_t held) { return 2 * ones(set & held) > ones(held); }

// An outward event, or nothing (kind 0) for a step that shows none.
struct Event {
  uint8_t kind = 0, member = 0, set = 0, sender = 0;
  uint32_t view = 0;
  uint64_t entry = 0;

  void store(uint8_t* at) const {
    at[0] = kind, at[1] = member, at[6] = set, at[7] = sender;
    put(at + 2, 4, view), put(at + 8, 8, entry);
  }
};

}  // namespace plain
