// A group on each side: one start, one step by its numbers, a view formed by one call, a start with a list of steps,
// and of structs the queries too.
//
//   library    the three lent ranges, refusal 4 checked in every step made by itself;
//   structs    tests/reference/reference_group.hpp, whose host keeps structs, refusal 4 checked in every step;
//   unchecked  the same without refusal 4: what the step alone costs;
//   bytes      tests/outside over the library's own ranges, each step parses every book;
//   before     an earlier library, over ranges of its own.
#pragma once

#include "earlier.hpp"
#include "independent.hpp"
#include "parts.hpp"

namespace benchmark {

// The specification's twelve steps by number; kind 0 is a start.
struct Step { uint32_t kind, first; uint64_t second; };

// Steps as records of a list, and room for an answer to each.
struct List {
  std::vector<uint8_t> steps, answers;

  explicit List(const std::vector<Step>& all)
      : steps(DVS_STEP_SIZE * all.size()), answers(DVS_ANSWER_SIZE * all.size()) {
    for (size_t i = 0; i < all.size(); ++i)
      plain::put_step(&steps[DVS_STEP_SIZE * i], {static_cast<uint8_t>(all[i].kind), all[i].first, all[i].second});
  }
  size_t size() const { return steps.size() / DVS_STEP_SIZE; }
  // The event of a step, and how many of the steps from one on were accepted.
  const uint8_t* event(size_t i) const { return dvs_answer_event(answers.data(), static_cast<uint32_t>(i)); }
  uint64_t accepted(size_t from, size_t many) const {
    uint64_t sum = 0;
    for (size_t i = from; i < from + many; ++i) sum += answers[DVS_ANSWER_SIZE * i] == DVS_ACCEPTED;
    return sum;
  }
};

// The kinds of steps that form a view, each by every one of its servers, rising; a server delivers one by each of them.
constexpr uint32_t kForming[] = {DVS_STEP_JOIN,     DVS_STEP_PASS, DVS_STEP_ORDER, DVS_STEP_DELIVER, DVS_STEP_ATTEMPT,
                                 DVS_STEP_REGISTER, DVS_STEP_PASS, DVS_STEP_ORDER, DVS_STEP_DELIVER, DVS_STEP_COLLECT};

// A group as structs. Its type is hidden: there are two, compiled from one header.
#define GROUP_OF_STRUCTS(Name)                                                     \
  class Name {                                                                     \
    void* group_;                                                                  \
                                                                                   \
   public:                                                                         \
    Name();                                                                        \
    ~Name();                                                                       \
    Name(const Name&);                                                             \
    Name& operator=(const Name&) = delete;                                         \
    uint32_t start(uint32_t members, uint32_t first_set, unsigned room);           \
    uint32_t step(const Step& step, plain::Event& event);                          \
    uint32_t form(uint32_t view, uint32_t& count);                                 \
    uint32_t crossing(uint32_t set, uint32_t* views, uint32_t places, uint32_t& count);   \
    uint32_t holding(uint32_t set, uint32_t* views, uint32_t places, uint32_t& count);    \
    uint32_t newest_before(uint32_t view, bool& there, plain::View& found);        \
    void take_book(unsigned p, const Name& from);  /* an attempt can be timed again */ \
    void forget_sent(unsigned p);  /* empties outgoing: a send can be timed again */ \
    void go_back(const Name& to);  /* what entries change: they can be timed again */ \
  };
GROUP_OF_STRUCTS(Structured)
GROUP_OF_STRUCTS(Unchecked)
#undef GROUP_OF_STRUCTS

// The calls of a group, by the library or by an earlier one.
#define GROUP_CALLS(f) f(group_start) f(group_step) f(group_form) f(group_run)
struct Library { GROUP_CALLS(BY_DVS) };
#ifdef BEFORE
extern "C" { GROUP_CALLS(OF_BEFORE) }
struct Earlier { GROUP_CALLS(BY_BEFORE) };
#else
using Earlier = Library;
#endif

// A group as three ranges, stepped by a library or by the independent implementation.
template <class By> struct RangesBy {
  std::vector<uint8_t> list, books, queues;
  uint8_t event[DVS_EVENT_SIZE] = {};

  explicit RangesBy(unsigned room)
      : list(DVS_LIST_SIZE(room)), books(DVS_BOOKS_SIZE), queues(DVS_QUEUES_SIZE(room)) {}

  uint32_t start(uint32_t members, uint32_t first_set) {
    return By::group_start(list.data(), list.size(), books.data(), books.size(), queues.data(), queues.size(), members,
                           first_set);
  }
  uint32_t step(const Step& s) {
    return By::group_step(list.data(), list.size(), books.data(), books.size(), queues.data(), queues.size(), s.kind,
                          s.first, s.second, event, sizeof event);
  }
  // A start and a list of steps; gives how many of them were accepted, the start too.
  uint64_t run(uint32_t members, uint32_t first_set, List& all) {
    uint32_t refused = By::group_run(list.data(), list.size(), books.data(), books.size(), queues.data(), queues.size(),
                                     members, first_set, all.steps.data(), all.steps.size(), all.answers.data(),
                                     all.answers.size());
    return refused ? 0 : 1 + all.accepted(0, all.size());
  }
  uint32_t form(uint32_t view, uint32_t& count) {
    uint8_t bytes[DVS_LENGTH_SIZE] = {};
    uint32_t answer = By::group_form(list.data(), list.size(), books.data(), books.size(), queues.data(), queues.size(),
                                     view, bytes, sizeof bytes);
    count = dvs_get32(bytes);
    return answer;
  }
  uint32_t start_independent(uint32_t members, uint32_t first_set) {
    return independent::group_start(list.data(), list.size(), books.data(), books.size(), queues.data(), queues.size(),
                                    members, first_set);
  }
  uint32_t step_independent(const Step& s) {
    return independent::group_step(list.data(), list.size(), books.data(), books.size(), queues.data(), queues.size(),
                                   s.kind, s.first, s.second, event, sizeof event);
  }
  bool shows(const plain::Event& other) const {
    uint8_t bytes[DVS_EVENT_SIZE];
    other.store(bytes);
    return memcmp(event, bytes, sizeof bytes) == 0;
  }
  // What entries change in the newest view when they are sent, passed, ordered, taken and handed out: counts, and
  // places that are not used when the counts are as they were. Nothing may have been outgoing or waiting then.
  void go_back(const RangesBy& to) {
    const unsigned view = dvs_queues_made(queues.data()) - 1;
    queues[DVS_QUEUES_ORDER(view)] = to.queues[DVS_QUEUES_ORDER(view)];
    for (unsigned p = 0; p < books[DVS_BOOK_MEMBERS]; ++p) {
      for (size_t at : {plain::kAtTaken, plain::kAtHanded, plain::kAtInward0, plain::kAtInward1, plain::kAtOutgoing})
        books[DVS_BOOK_SIZE * p + at] = to.books[DVS_BOOK_SIZE * p + at];
      queues[DVS_QUEUES_WAITING(view, p)] = to.queues[DVS_QUEUES_WAITING(view, p)];
    }
  }
  template <class Other> bool same(const Other& other) const {
    return list == other.list && books == other.books && queues == other.queues;
  }
  // The same but for the head of the queues after the number of views made: an earlier layout may have less there.
  template <class Other> bool same_below_head(const Other& other) const {
    const size_t from = DVS_QUEUES_ORDER(0);
    return list == other.list && books == other.books && queues.size() == other.queues.size() &&
           queues[DVS_QUEUES_MADE] == other.queues[DVS_QUEUES_MADE] &&
           memcmp(queues.data() + from, other.queues.data() + from, queues.size() - from) == 0;
  }
};
using Ranges = RangesBy<Library>;
using Before = RangesBy<Earlier>;  // no table has its side unless an earlier library is given

}  // namespace benchmark
