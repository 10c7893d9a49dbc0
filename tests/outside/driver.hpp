// The driver in three lent ranges of any bytes and any length: one call that forms the newest view by the steps of
// group.hpp. They are put to a copy, which is kept where all of them were accepted.
#pragma once

#include <vector>

#include "group.hpp"

namespace plain {

class Driver {
  Range list_, books_, queues_;

  unsigned members() const { return books_.at[kAtMembers]; }
  unsigned made() const { return queues_.at[kQueuesMade]; }
  View view(unsigned i) const { return get_view(list_.at + kViewSize * i); }
  View newest() const { return view(made() - 1); }

  Member member(unsigned p) const {
    Member m;
    load(books_.at + kBookSize * p, m);
    return m;
  }

  bool is_made(uint32_t id) const {
    for (unsigned i = 0; i < made(); ++i)
      if (view(i).id == id) return true;
    return false;
  }

  // "not yet joined by anybody (no member's carrier view)"
  bool joined(uint32_t id) const {
    for (unsigned p = 0; p < members(); ++p)
      if (member(p).has_carrier && member(p).carrier.id == id) return true;
    return false;
  }

  // "its set passes the test against every view held by any of its servers"
  bool passes_held(const View& v) const {
    for (unsigned p = 0; p < members(); ++p) {
      if (!(v.set >> p & 1)) continue;
      Member m = member(p);
      if (!majority(v.set, m.settled.set)) return false;
      for (unsigned i = 0; i < m.opens; ++i)
        if (!majority(v.set, m.open[i].set)) return false;
    }
    return true;
  }

  // "joins, infos, attempts, registrations and collects in that order; infos and registrations go by passes, orders, then
  // deliveries, and each kind of step by rising server, one's steps together"
  static std::vector<StepRecord> steps(const View& v) {
    std::vector<StepRecord> all;
    for (Step kind : {kJoin, kPass, kOrder, kDeliver, kAttempt, kRegister, kPass, kOrder, kDeliver, kCollect})
      for (unsigned p = 0; p < kMembers; ++p)
        for (unsigned n = 0; (v.set >> p & 1) && n < (kind == kDeliver ? ones(v.set) : 1); ++n)
          all.push_back({static_cast<uint8_t>(kind), p, v.id});
    return all;
  }

 public:
  Driver(Range list, Range books, Range queues) : list_(list), books_(books), queues_(queues) {}

  Refusal form(uint32_t id, Range count) const {
    if (count.size != kLengthSize || Group(list_, books_, queues_).check()) return kRecordsUnsound;
    if (!is_made(id)) return kNoSuchView;
    if (newest().id != id || joined(id)) return kViewNotFresh;
    if (!passes_held(newest())) return kFormTestFailed;
    std::vector<uint8_t> books(books_.at, books_.at + books_.size), queues(queues_.at, queues_.at + queues_.size);
    Group tried(list_, Range{books.data(), books.size()}, Range{queues.data(), queues.size()});
    uint8_t event[kEventSize];
    for (const StepRecord& s : steps(newest()))
      if (Refusal r = tried.step(s.kind, s.first, s.second, Range{event, kEventSize})) return r;
    memcpy(books_.at, books.data(), books.size());
    memcpy(queues_.at, queues.data(), queues.size());
    put(count.at, kLengthSize, steps(newest()).size());
    return kAccepted;
  }
};

}  // namespace plain
