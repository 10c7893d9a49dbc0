// A whole group's three ranges, lent for one case after another, and the calls on them. As long as they were not damaged,
// the calls are put to tests/reference/reference_group.hpp too, a third implementation, and the queries must answer what the
// events have shown, whatever the marks are.
#pragma once

#include <algorithm>
#include <functional>
#include <map>
#include <memory>
#include <vector>

#include "../reference/reference_group.hpp"
#include "calls.hpp"
#include "random.hpp"

namespace outside {

using plain::View;

class LentGroup {
  unsigned calls_ = 0;

  // The steps of a list while they are made one by one, and the answers that the list must have.
  bool listing_ = false;
  std::vector<uint8_t> listed_, answered_;

  // Whether some member of a sound group has a client view, and no carrier view or a lower one.
  bool client_above() {
    for (unsigned p = 0; p < members(); ++p) {
      const uint8_t* book = books_.mine() + plain::kBookSize * p;
      View carrier = plain::get_view(book + plain::kAtCarrier + 1), client = plain::get_view(book + plain::kAtClient + 1);
      if (book[plain::kAtClient] && (!book[plain::kAtCarrier] || client.id > carrier.id)) return true;
    }
    return false;
  }

  void note(const plain::StepRecord& step, uint32_t answer) {
    uint8_t record[plain::kStepSize], shown[plain::kAnswerSize] = {static_cast<uint8_t>(answer)};
    plain::put_step(record, step);
    if (answer == plain::kAccepted) memcpy(shown + 1, c_.event.theirs(), plain::kEventSize);
    listed_.insert(listed_.end(), record, record + sizeof record);
    answered_.insert(answered_.end(), shown, shown + sizeof shown);
  }

  // The event that the third implementation showed, as bytes.
  static void store_third(const reference::Reply& reply, uint8_t* event) {
    static const uint8_t kinds[] = {0, plain::kAttempt, plain::kRegister, plain::kSend, plain::kHand, plain::kSafe};
    plain::Event e;
    e.kind = kinds[reply.event], e.member = reply.member, e.view = reply.id, e.entry = reply.number;
    (reply.event == reference::kAttempted ? e.set : e.sender) = reply.who;
    e.store(event);
  }

  // Of a step, or of the driver as kind 0.
  [[noreturn]] void third_differs(uint32_t kind, uint32_t first, uint64_t second, uint32_t third, uint32_t answer) {
    printf("\nDIFFERENCE of tests/reference/reference_group.hpp in step %u %u %" PRIu64 ": %u, expected %u\n", kind, first,
           second, third, answer);
    c_.tally.say_again();
  }

  // What a query answered, beside what it must list: the views shown as attempted, as far as they are wanted.
  template <class Wanted> uint32_t as_shown(const char* name, uint32_t answer, Wanted wanted) {
    if (!clean_ || (answer != plain::kAccepted && answer != plain::kTooFewPlaces)) return answer;
    std::vector<uint8_t> ids;
    for (auto [id, set] : shown_) {
      if (!wanted(set)) continue;
      ids.resize(ids.size() + plain::kIdentifierSize);
      plain::put(&ids[ids.size() - plain::kIdentifierSize], plain::kIdentifierSize, id);
    }
    bool fits = ids.size() <= c_.views.size(), right = fits == (answer == plain::kAccepted);
    if (right && fits) right = plain::kIdentifierSize * listed() == ids.size() && std::equal(ids.begin(), ids.end(), c_.views.theirs());
    if (right) return answer;
    not_shown(name);
  }
  [[noreturn]] void not_shown(const char* name) {
    printf("\nDIFFERENCE in %s: it does not answer what the events have shown\n", name);
    c_.tally.say_again();
  }

 protected:
  Calls& c_;
  Lent list_{"list", 256}, books_{"books", plain::kBooksSize, false};
  Lent queues_{"queues", plain::queues_size(plain::kViews), false};
  std::unique_ptr<reference::Group> third_ = std::make_unique<reference::Group>();
  bool clean_ = false;  // whether the third implementation has made the same steps
  // The views that the events have shown as attempted since the start, and the first one: identifiers and sets, newest first.
  std::map<uint32_t, uint8_t, std::greater<uint32_t>> shown_;

  explicit LentGroup(Calls& c) : c_(c) {}

  size_t room() const { return list_.size() / plain::kViewSize; }
  unsigned members() { return books_.mine()[plain::kAtMembers]; }
  // As many as there are books for, if the bytes have a larger number.
  unsigned some_members() { return members() <= plain::kMembers ? members() : plain::kMembers; }
  unsigned made() { return queues_.mine()[plain::kQueuesMade]; }
  View view(unsigned i) { return plain::get_view(list_.mine() + plain::kViewSize * i); }
  // The last view made, or the first where the bytes have no such number.
  View newest() { return view(made() - 1 < room() ? made() - 1 : 0); }

  // The group was started, and what is compared beside it starts too.
  void begin(unsigned members, uint32_t set) {
    auto first = static_cast<uint8_t>(set);
    third_->start(members, first, room()), shown_ = {{0, first}}, clean_ = true;
  }

  // A buffer for identifiers of another length, with noise in it.
  void lend_views(Random& r, size_t size) {
    c_.views.resize(size, r.chance(500) ? kFront : kBack);
    r.fill(c_.views.mine(), size), c_.views.copy_to_theirs();
  }

  void lend(Random& r, unsigned room) {
    list_.resize(plain::kViewSize * room, r.chance(500) ? kFront : kBack);
    books_.resize(plain::kBooksSize, r.chance(500) ? kFront : kBack);
    queues_.resize(plain::queues_size(room), r.chance(500) ? kFront : kBack);
    c_.event.resize(plain::kEventSize, r.chance(500) ? kFront : kBack);
    c_.count.resize(plain::kLengthSize, r.chance(500) ? kFront : kBack);
    c_.found.resize(plain::kFoundSize, r.chance(500) ? kFront : kBack);
    for (Lent* lent : {&c_.event, &c_.count, &c_.found}) lent->copy_to_theirs();
    lend_views(r, plain::kIdentifierSize * plain::kViews);
  }

  void copy_to_theirs() {
    for (Lent* lent : {&list_, &books_, &queues_}) lent->copy_to_theirs();
  }

  // Small most of the time: every byte of the ranges is compared after every call.
  static unsigned some_room(Random& r) {
    if (r.chance(700)) return r.between(1, 2);
    if (r.chance(800)) return r.between(3, 4);
    return r.chance(800) ? r.between(5, 9) : r.between(10, 32);
  }

  // What the library left in the three ranges.
  std::vector<uint8_t> left() {
    std::vector<uint8_t> all;
    for (Lent* lent : {&list_, &books_, &queues_}) all.insert(all.end(), lent->theirs(), lent->theirs() + lent->size());
    return all;
  }
  void put_back(const std::vector<uint8_t>& all) {
    const uint8_t* from = all.data();
    for (Lent* lent : {&list_, &books_, &queues_}) memcpy(lent->mine(), from, lent->size()), from += lent->size();
    copy_to_theirs();
  }

  uint32_t call(uint32_t kind, uint32_t first, uint64_t second) {
    if (++calls_ % 4 == 0) c_.dvs_group_check(list_, books_, queues_);
    uint32_t answer = c_.dvs_group_step(list_, books_, queues_, kind, first, second);
    if (listing_ && kind <= 255) note({static_cast<uint8_t>(kind), first, second}, answer);
    if (!clean_ || kind > 255) return answer;
    if (answer == plain::kAccepted && kind == plain::kAttempt)
      shown_.emplace(dvs_event_view(c_.event.theirs()), static_cast<uint8_t>(dvs_event_set(c_.event.theirs())));
    reference::Reply reply = third_->step(static_cast<uint8_t>(kind), first, second);
    uint8_t event[plain::kEventSize];
    store_third(reply, event);
    bool same_event = answer != plain::kAccepted || memcmp(event, c_.event.mine(), sizeof event) == 0;
    if (reply.refusal == answer && same_event) return answer;
    third_differs(kind, first, second, reply.refusal, answer);
  }

  // The steps that `make` makes one by one, made once more by one list on what they began with: it leaves the same bytes and
  // gives the same answers. A refused list is one whose every step is refused with 4.
  template <class Make>
  uint32_t as_list(Random& r, Make make) {
    const std::vector<uint8_t> before = left();
    listed_.clear(), answered_.clear();
    listing_ = true, make(), listing_ = false;
    const std::vector<uint8_t> after = left();
    put_back(before);
    size_t count = listed_.size() / plain::kStepSize;
    c_.steps.set(listed_.data(), listed_.size(), r.chance(500) ? kFront : kBack);
    c_.answers.resize(plain::kAnswerSize * count, r.chance(500) ? kFront : kBack);
    r.fill(c_.answers.mine(), c_.answers.size()), c_.answers.copy_to_theirs();
    bool above = members() <= plain::kMembers && client_above();
    uint32_t answer = c_.dvs_group_steps(list_, books_, queues_);
    bool same = left() == after;
    for (size_t i = 0; i < answered_.size(); ++i)
      same = same && (answer == plain::kAccepted ? c_.answers.theirs()[i] == answered_[i]
                                                 : answered_[i] == (i % plain::kAnswerSize ? 0 : answer));
    if (above && answer == plain::kAccepted)
      c_.tally.count_above(count > 0 && answered_[plain::kAnswerSize * (count - 1)] == plain::kRecordsUnsound);
    if (same) return answer;
    printf("\nDIFFERENCE in dvs_group_steps, %zu steps: answers or ranges are not those of dvs_group_step\n", count);
    c_.tally.say_again();
  }

  // The driver.
  uint32_t form(uint32_t id) {
    uint32_t answer = c_.dvs_group_form(list_, books_, queues_, id);
    if (!clean_) return answer;
    if (answer == plain::kAccepted) shown_.emplace(id, newest().set);
    reference::Reply reply = third_->form(id);
    uint64_t count = plain::get(c_.count.mine(), plain::kLengthSize);
    if (reply.refusal == answer && (answer != plain::kAccepted || reply.number == count)) return answer;
    third_differs(0, id, 0, reply.refusal, answer);
  }

  // The queries, and how many identifiers the last one listed.
  uint32_t crossing(uint32_t set) {
    return as_shown("dvs_group_crossing", c_.dvs_group_crossing(list_, books_, queues_, set), [=](uint8_t of) { return (set & of) != 0; });
  }
  uint32_t holding(uint32_t set) {
    return as_shown("dvs_group_holding", c_.dvs_group_holding(list_, books_, queues_, set),
                    [=](uint8_t of) { return 2 * plain::ones(set & of) > plain::ones(of); });
  }
  uint32_t newest_before(uint32_t id) {
    uint32_t answer = c_.dvs_group_newest_before(list_, books_, queues_, id);
    if (!clean_ || answer != plain::kAccepted) return answer;
    auto below = shown_.upper_bound(id);
    View v = below == shown_.end() ? View{0, 0} : View{below->first, below->second};
    const uint8_t* found = c_.found.theirs();
    if (dvs_found(found) == (v.set != 0) && plain::get_view(dvs_found_view(found)) == v) return answer;
    not_shown("dvs_group_newest_before");
  }
  size_t listed() { return dvs_length(c_.count.theirs()); }
};

}  // namespace outside
