// The queries in three lent ranges of any bytes and any length: which attempted views a set crosses or holds, and the newest
// attempted view before an identifier. They read the marks, and change nothing but what they give.
#pragma once

#include <algorithm>
#include <vector>

#include "group.hpp"

namespace plain {

class Queries {
  Range list_, books_, queues_;

  // The attempted views of a sound group, as the marks have them: newest first.
  std::vector<View> attempted() const {
    std::vector<View> all;
    for (unsigned i = 0; i < queues_.at[kQueuesMade]; ++i)
      if (get(queues_.at + kQueuesMarks, kMarksSize) >> i & 1) all.push_back(get_view(list_.at + kViewSize * i));
    std::sort(all.begin(), all.end(), [](const View& a, const View& b) { return a.id > b.id; });
    return all;
  }

  bool sound() const { return Group(list_, books_, queues_).check() == kAccepted; }

  // Lists the identifiers of those that are wanted. `wanted` is given the set and the view's set.
  template <class Wanted> Refusal list(uint32_t set, Range views, Range count, Wanted wanted) const {
    if (views.size % kIdentifierSize != 0 || count.size != kLengthSize || !sound()) return kRecordsUnsound;
    if (!set_fits(set, books_.at[kAtMembers])) return kSetUnfit;
    std::vector<uint32_t> ids;
    for (const View& v : attempted())
      if (wanted(static_cast<uint8_t>(set), v.set)) ids.push_back(v.id);
    if (kIdentifierSize * ids.size() > views.size) return kTooFewPlaces;
    for (size_t i = 0; i < ids.size(); ++i) put(views.at + kIdentifierSize * i, kIdentifierSize, ids[i]);
    put(count.at, kLengthSize, ids.size());
    return kAccepted;
  }

 public:
  Queries(Range list, Range books, Range queues) : list_(list), books_(books), queues_(queues) {}

  // "every attempted view that shares a member with it"
  Refusal crossing(uint32_t set, Range views, Range count) const {
    return list(set, views, count, [](uint8_t own, uint8_t other) { return (own & other) != 0; });
  }

  // "every attempted view of which it holds a majority: a view with this set would pass the test against it"
  Refusal holding(uint32_t set, Range views, Range count) const {
    return list(set, views, count, [](uint8_t own, uint8_t held) { return majority(own, held); });
  }

  // "the newest attempted view with an identifier below it, or the answer that there is none"
  Refusal newest_before(uint32_t id, Range found) const {
    if (found.size != kFoundSize || !sound()) return kRecordsUnsound;
    memset(found.at, 0, found.size);
    for (const View& v : attempted()) {
      if (v.id >= id) continue;
      found.at[kThere] = 1, put_view(found.at + kFoundView, v);
      break;
    }
    return kAccepted;
  }
};

}  // namespace plain
