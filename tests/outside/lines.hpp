// The library's group by lines, for tests/reference/compare.py: lines of the bench, and those for the driver and the queries,
// which the bench does not have. tests/reference/form_script.py lists them with their answers. So the library's driver and
// its queries are compared with the reference in Python. Each line must be readable. The plain implementations are called
// beside the library as ever.
#pragma once

#include <iterator>
#include <string>

#include "lent_group.hpp"

namespace outside {

class Lines : LentGroup {
  // A step has its kind as its place.
  static constexpr const char* kNames[] = {"group",   "create",   "join", "pass",     "order",   "deliver",
                                           "attempt", "register", "send", "hand",     "tell",    "safe",
                                           "collect", "form",     "lend", "crossing", "holding", "before"};
  enum { kGroup = 0, kForm = 13, kLend = 14, kCrossing = 15, kHolding = 16, kBefore = 17 };
  using ListQuery = decltype(&dvs_group_crossing);
  static constexpr size_t kMostPlaces = 64;  // of a buffer of identifiers

  Random r_{1};
  unsigned room_ = 8;  // how many view records the next group is lent
  Lent views_{"views", kMostPlaces * DVS_IDENTIFIER_SIZE}, number_{"count", DVS_LENGTH_SIZE}, found_{"found", DVS_FOUND_SIZE};

  static unsigned kind_of(const std::string& name) {
    unsigned kind = 0;
    while (kind < std::size(kNames) && name != kNames[kind]) ++kind;
    return kind;
  }

  uint32_t start(uint32_t members, uint32_t set) {
    lend(r_, room_);
    third_->start(members, set, room_), clean_ = true;
    return c_.dvs_group_start(list_, books_, queues_, members, set);
  }

  void show_event() {
    const uint8_t* event = c_.event.theirs();
    uint32_t kind = dvs_event_kind(event);
    if (kind == 0) return void(printf("ok\n"));
    printf("%s %u %u", kNames[kind], dvs_event_member(event), dvs_event_view(event));
    if (kind == DVS_STEP_ATTEMPT) printf(" %u", dvs_event_set(event));
    if (kind == DVS_STEP_HAND || kind == DVS_STEP_SAFE) printf(" %u", dvs_event_sender(event));
    if (kind >= DVS_STEP_SEND) printf(" %" PRIu64, dvs_event_entry(event));
    printf("\n");
  }

  // A range for the answer to a query, of any bytes before the call.
  void lend_any(Lent& lent, size_t size) {
    static const Flush places[] = {kFront, kBack, kNull};
    lent.resize(size, r_.one_of(places));
    r_.fill(lent.mine(), size), lent.copy_to_theirs();
  }

  // A query's call on the group, with what comes after the group's ranges.
  template <class Query, class... Rest> uint32_t ask(Query query, Rest... rest) {
    return query(list_.theirs(), list_.size(), books_.theirs(), books_.size(), queues_.theirs(), queues_.size(), rest...);
  }

  // Ends the program unless the number and the bytes are those of tests/reference/reference_group.hpp.
  void want_third(const char* name, uint64_t operand, uint32_t answer, uint32_t third, bool same_bytes) {
    if (answer == third && same_bytes) return;
    printf("DIFFERENCE in %s %" PRIu64 ": the library answers %u, tests/reference/reference_group.hpp %u%s\n", name, operand,
           answer, third, same_bytes ? "" : ", and the lent bytes are not the same");
    c_.tally.say_again();
  }

  // The list is to fill the front of the buffer. The rest stays as it was, and all of it after a refusal.
  void show_list(const char* name, ListQuery query, uint32_t set, size_t places, const reference::Found& third) {
    lend_any(views_, places * DVS_IDENTIFIER_SIZE), lend_any(number_, DVS_LENGTH_SIZE);
    uint32_t refused = ask(query, set, views_.theirs(), views_.size(), number_.theirs(), number_.size());
    if (third.refusal == reference::kAccepted) {
      plain::put(number_.mine(), DVS_LENGTH_SIZE, third.count);
      for (unsigned i = 0; i < third.count; ++i) plain::put(views_.mine() + 4 * i, 4, third.ids[i]);
    }
    want_third(name, set, refused, third.refusal, views_.same() && number_.same());
    if (refused) return void(printf("refused %u\n", refused));
    size_t number = dvs_length(number_.theirs());
    printf("%s %zu", name, number);
    for (size_t i = 0; i < number; ++i) printf(" %u", dvs_identifier(views_.theirs(), i));
    printf("\n");
  }

  void show_before(uint32_t id) {
    lend_any(found_, DVS_FOUND_SIZE);
    uint32_t refused = ask(dvs_group_newest_before, id, found_.theirs(), found_.size());
    const reference::View* third = third_->before(id);
    memset(found_.mine(), 0, found_.size());
    if (third) found_.mine()[0] = 1, plain::put_view(found_.mine() + 1, View{third->id, third->set});
    want_third("before", id, refused, plain::kAccepted, found_.same());
    if (!dvs_found(found_.theirs())) return void(printf("none\n"));
    const uint8_t* view = dvs_found_view(found_.theirs());
    printf("before %u %u\n", dvs_view_identifier(view), dvs_view_set(view));
  }

  void answer(unsigned kind, uint32_t first, uint64_t second) {
    switch (kind) {
      case kLend: return room_ = first, void(printf("ok\n"));
      case kCrossing: return show_list("crossing", dvs_group_crossing, first, second, third_->crossing(first, second));
      case kHolding: return show_list("holding", dvs_group_holding, first, second, third_->holding(first, second));
      case kBefore: return show_before(first);
      default: return make(kind, first, second);
    }
  }

  // A start, a step or the driver.
  void make(unsigned kind, uint32_t first, uint64_t second) {
    uint32_t refused = kind == kGroup  ? start(first, static_cast<uint32_t>(second))
                       : kind == kForm ? form(first)
                                       : call(kind, first, second);
    if (refused) {
      printf("refused %u\n", refused);
    } else if (kind == kGroup) {
      printf("ok\n");
    } else if (kind == kForm) {
      printf("formed %" PRIu64 "\n", static_cast<uint64_t>(dvs_length(c_.count.theirs())));
    } else {
      show_event();
    }
  }

 public:
  explicit Lines(Calls& c) : LentGroup(c) {}

  // False at a line without a name that it knows and a number, and at one that lends more than there is.
  bool run() {
    char line[80], name[16];
    while (fgets(line, sizeof line, stdin)) {
      uint32_t first = 0;
      uint64_t second = 0;
      int words = sscanf(line, "%15s %" SCNu32 " %" SCNu64, name, &first, &second);
      unsigned kind = words < 2 ? std::size(kNames) : kind_of(name);
      bool lends = (kind != kLend || first <= plain::kViews) && (kind < kCrossing || second <= kMostPlaces);
      if (kind == std::size(kNames) || !lends) return fprintf(stderr, "unreadable: %s", line), false;
      answer(kind, first, second);
    }
    return true;
  }
};

}  // namespace outside
