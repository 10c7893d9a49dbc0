// Every call of calls.inc, made with its plain twin beside it: the same number must come out, and every byte of every lent
// range must be the same afterwards.
#pragma once

#include <tuple>
#include <type_traits>
#include <utility>
#include <vector>

#include "../../include/dvs.h"
#include "tally.hpp"
#include "twins.hpp"

namespace outside {

class Calls {
  // In the place of a range, and of a number, that a case gives with the call. All other ranges are this class's own.
  struct GivenRange {};
  template <class Type> struct GivenNumber {};
  static constexpr GivenRange book{}, list{}, books{}, queues{};

  // What a call takes, in its order: in the places of what is given is what the case gives, one after another.
  template <size_t Next, class Case> static std::tuple<> taken(const Case&) {
    static_assert(Next == std::tuple_size<Case>::value, "the call does not take all that is given");
    return {};
  }
  template <size_t Next, class Case, class... Rest> static auto taken(const Case& given, Lent& own, Rest&&... rest) {
    return std::tuple_cat(std::tie(own), taken<Next>(given, rest...));
  }
  template <size_t Next, class Case, class... Rest> static auto taken(const Case& given, const GivenRange&, Rest&&... rest) {
    return std::tuple_cat(std::tie(std::get<Next>(given)), taken<Next + 1>(given, rest...));
  }
  template <size_t Next, class Case, class Type, class... Rest>
  static auto taken(const Case& given, const GivenNumber<Type>&, Rest&&... rest) {
    return std::tuple_cat(std::make_tuple(static_cast<Type>(std::get<Next>(given))), taken<Next + 1>(given, rest...));
  }

  // How many ranges and how many numbers a case gives with a call.
  template <size_t Ranges, size_t Numbers> struct Shape {
    static constexpr size_t kRanges = Ranges;
    using Each = std::make_index_sequence<Numbers>;
  };
  template <class Parameter> static constexpr bool kIsLent = std::is_same<Parameter, Lent>::value;
  template <class Parameter> static constexpr bool kIsRange = std::is_same<Parameter, GivenRange>::value;
  template <class... Parameters> static auto shape(const Parameters&...)
      -> Shape<(size_t{kIsRange<Parameters>} + ... + 0), (size_t{!kIsRange<Parameters> && !kIsLent<Parameters>} + ... + 0)>;
  template <class Call, size_t... Each> static void with_numbers(Call call, uint64_t number, std::index_sequence<Each...>) {
    call((static_cast<void>(Each), number)...);
  }

  // A parameter as the library takes it, and as the twin does.
  static std::tuple<uint8_t*, size_t> theirs(Lent& lent) { return {lent.theirs(), lent.size()}; }
  static plain::Range mine(Lent& lent) { return lent.range(); }
  template <class Number> static std::tuple<Number> theirs(Number n) { return {n}; }
  template <class Number> static Number mine(Number n) { return n; }

  // A call that is made: its ranges and its numbers, each in their order.
  struct Made {
    const char* name;
    std::vector<Lent*> ranges = {};
    std::vector<uint64_t> numbers = {};

    void add(Lent& lent) { ranges.push_back(&lent); }
    void add(uint64_t number) { numbers.push_back(number); }

    uint64_t bytes() const {
      uint64_t sum = 0;
      for (Lent* lent : ranges) sum += lent->size();
      return sum;
    }
    bool same() const {
      bool all = true;
      for (Lent* lent : ranges) all = all && lent->same();
      return all;
    }
    void print() const {
      printf("%s", name);
      for (uint64_t n : numbers) printf(" %" PRIu64, n);
      for (Lent* lent : ranges) printf(" %s[%zu]", lent->name(), lent->size());
      printf("\n");
    }
  };

  [[noreturn]] void report(const Made& made, uint32_t theirs, uint32_t mine) {
    printf("\nDIFFERENCE in ");
    made.print();
    printf("  the library answers %" PRIu32 ", expected %" PRIu32 "\n", theirs, mine);
    for (Lent* lent : made.ranges)
      if (!lent->same() || lent->before()) print_difference(*lent);
    tally.say_again();
  }

  // The call and its twin. What they answer, and how many bytes they were lent, goes to `count`.
  template <class Theirs, class Mine, class Taken, class Count>
  uint32_t both(const char* name, Theirs their_call, Mine my_call, const Taken& taken, Count count) {
    Made made{name};
    auto call = [&](auto&... parameter) {
      (made.add(parameter), ...);
      for (Lent* lent : made.ranges) lent->remember();
      if (tally.verbose) made.print();
      uint32_t answer = std::apply(their_call, std::tuple_cat(theirs(parameter)...)), expected = my_call(mine(parameter)...);
      if (tally.verbose) printf("  %" PRIu32 "\n", answer);
      if (answer != expected || !made.same()) report(made, answer, expected);
      return expected;
    };
    uint32_t answer = std::apply(call, taken);
    count(answer, made.bytes());
    return answer;
  }

 public:
  Tally& tally;
  // What calls are lent besides books and a group's ranges. Their contents are whatever the last call left.
  Lent event{"event", 64}, buffer{"buffer", 512}, length{"length", 16}, bytes{"bytes", 1 << 16}, message{"message", 256};
  Lent steps{"steps", 4096 * plain::kStepSize}, answers{"answers", 4096 * plain::kAnswerSize};
  Lent count{"count", 64}, delivery{"delivery", 64}, views{"views", 256}, found{"found", 64};

  explicit Calls(Tally& t) : tally(t) { usual(); }

  // The lengths that are right, with the contents there are.
  void usual() {
    event.resize(DVS_EVENT_SIZE, kBack), length.resize(DVS_LENGTH_SIZE, kBack), bytes.resize(0, kBack);
    buffer.resize(DVS_LONGEST, kBack), message.resize(DVS_MESSAGE_SIZE, kBack);
    steps.resize(2 * DVS_STEP_SIZE, kBack), answers.resize(2 * DVS_ANSWER_SIZE, kBack), count.resize(DVS_LENGTH_SIZE, kBack);
    delivery.resize(DVS_DELIVERY_SIZE, kBack), views.resize(DVS_IDENTIFIER_SIZE * DVS_VIEWS, kBack), found.resize(DVS_FOUND_SIZE, kBack);
    for (Lent* lent : {&event, &length, &buffer, &message, &steps, &answers, &count, &delivery, &views, &found}) lent->copy_to_theirs();
  }

  // Each call under its own name. A case gives a book, or a group's three ranges, and the call's numbers.
#define LENT(range) range
#define GIVEN(type, name) GivenNumber<type>()
#define BOTH(name, count) both(#name, ::name, twin::name, taken<0>(std::tie(given...), name##_takes(LENT, LENT, GIVEN)), count)
#define CALL(name, ...)                                                                                                \
  template <class... Case> uint32_t name(Case&&... given) {                                                            \
    return BOTH(name, [&](uint32_t answer, uint64_t lent) { tally.count(kFn_##name, answer, lent); });                 \
  }
#define SPLIT(name, ...)
#include "calls.inc"

  // A packet is counted by what it came to, which is in the delivery if the answer is 0.
  template <class... Case> uint32_t dvs_deliver_packet(Case&&... given) {
    return BOTH(dvs_deliver_packet, [&](uint32_t answer, uint64_t lent) {
      if (answer != plain::kAccepted) return tally.count(kFn_dvs_deliver_packet, answer, lent);
      tally.count(delivered() == 0 ? kFn_dvs_deliver_packet_none : kFn_dvs_deliver_packet_some, stopped(), lent);
    });
  }
  uint32_t delivered() { return static_cast<uint32_t>(plain::get(delivery.mine() + plain::kDelivered, 4)); }
  uint32_t stopped() { return delivery.mine()[plain::kStopped]; }

  // A step is counted by its kind, the first number after the three ranges.
  template <class... Case> uint32_t dvs_group_step(Case&&... given) {
    return BOTH(dvs_group_step, [&](uint32_t answer, uint64_t lent) {
      auto kind = static_cast<uint32_t>(std::get<3>(std::tie(given...)));
      tally.count(static_cast<Function>(kFn_dvs_group_step + (kind <= DVS_STEP_COLLECT ? kind : 0)), answer, lent);
    });
  }

  // Every call on these ranges: a book, a group's three, or none. Each of its numbers is this one.
  template <class... Ranges> void every_call(uint64_t number, Ranges&... ranges) {
#define SHAPE(name) decltype(shape(name##_takes(LENT, LENT, GIVEN)))
#define CALL(name, ...)                                                                                                \
  if constexpr (SHAPE(name)::kRanges == sizeof...(Ranges))                                                             \
    with_numbers([&](auto... numbers) { this->name(ranges..., numbers...); }, number, typename SHAPE(name)::Each());
#include "calls.inc"
  }
#undef LENT
#undef GIVEN
#undef BOTH
#undef SHAPE
};

// What the library says of itself, beside the header's macros. False on a difference.
inline bool library_agrees() {
  if (dvs_version() != DVS_VERSION) return printf("DIFFERENCE in dvs_version: %" PRIu32 "\n", dvs_version()), false;
  for (uint32_t range = 0; range <= 300; ++range) {
    for (uint64_t views = 0; views <= 300; ++views) {
      bool some = views >= 1 && views <= plain::kViews;
      uint64_t sizes[] = {0, DVS_BOOK_SIZE, DVS_EVENT_SIZE, DVS_LENGTH_SIZE, DVS_MESSAGE_SIZE, DVS_LONGEST,
                          some ? DVS_LIST_SIZE(views) : 0, DVS_BOOKS_SIZE, some ? DVS_QUEUES_SIZE(views) : 0,
                          DVS_STEP_SIZE, DVS_ANSWER_SIZE, DVS_DELIVERY_SIZE, DVS_FOUND_SIZE};
      // The last views beyond 32 bits' half and whole, so that none is taken for a smaller number.
      uint32_t given = views < 298 ? static_cast<uint32_t>(views) : UINT32_MAX - static_cast<uint32_t>(300 - views);
      uint32_t asked = range < 298 ? range : 0x80000000u + (range - 298);
      uint64_t expected = asked < sizeof sizes / sizeof sizes[0] ? sizes[asked] : 0, size = dvs_size(asked, given);
      if (size == expected) continue;
      printf("DIFFERENCE in dvs_size %" PRIu32 " %" PRIu32 ": %" PRIu64 ", expected %" PRIu64 "\n", asked, given, size, expected);
      return false;
    }
  }
  return true;
}

}  // namespace outside
