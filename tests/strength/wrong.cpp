// The library with one fault put in, to see that the test from outside reports it. The linker sends every call here
// (-Wl,--wrap); the fault is named by three words in the environment:
//
//   WRONG_FUNCTION   one exported function
//   WRONG_FAULT      answer: an accepted call says 4, one that gives a number 1 more;  accepted, refused: such a call leaves a byte flipped;
//                    outside: an accepted call writes beside a range
//   WRONG_RANGE      which of its lent ranges, from 0
//
// Only the tenth call that could show the fault has it. The driver, lists of steps, packets, one message delivered, the reader's front, the queries and
// what concerns their marks have faults of their own, in every call: wrong_driver.hpp, wrong_list.hpp, wrong_packet.hpp, wrong_queries.hpp,
// wrong_marks.hpp.
#include <cstdio>
#include <cstdlib>
#include <cstring>
#include <initializer_list>

#include "real.hpp"
#include "wrong_driver.hpp"
#include "wrong_list.hpp"
#include "wrong_marks.hpp"
#include "wrong_packet.hpp"
#include "wrong_queries.hpp"

namespace {

// What a call takes: a range that it may write, or something else.
struct Taken {
  bool written;
  uint8_t* at;
  size_t size;
};

const char* word(const char* name) {
  const char* value = getenv(name);
  return value ? value : "";
}

const char *const function = word("WRONG_FUNCTION"), *const fault = word("WRONG_FAULT");
const long range = strtol(word("WRONG_RANGE"), nullptr, 10);
unsigned left = 10;

// Puts the fault into what a call answered and left. A call that writes no range can have one in its answer alone.
uint32_t spoil(const char* name, uint32_t answer, std::initializer_list<Taken> all) {
  if (strcmp(name, function) != 0) return answer;
  bool on_refusal = strcmp(fault, "refused") == 0, in_answer = strcmp(fault, "answer") == 0;
  Taken of{};
  long before = range;
  for (const Taken& one : all)
    if (one.written && before-- == 0) of = one;
  if ((answer != 0) != on_refusal || (of.size == 0 && !in_answer) || left == 0 || --left > 0) return answer;
  if (in_answer) return DVS_REFUSED_RECORDS_UNSOUND;
  if (strcmp(fault, "outside") == 0) {
    // One of the two is in a page that nothing may touch.
    static_cast<volatile uint8_t*>(of.at)[-1] = 0;
    static_cast<volatile uint8_t*>(of.at)[of.size] = 0;
  } else {
    of.at[of.size / 2] ^= 1;
  }
  return answer;
}

// Whether the call is to be made by code of its own: the names of such faults have a hyphen.
bool otherwise(const char* name) { return strcmp(name, function) == 0 && strchr(fault, '-'); }

// A type for each call, by which its own code is found.
#define CALL(name, ...) struct Other_##name {};
#include "../outside/calls.inc"

uint32_t make(Other_dvs_deliver, PARAMETERS(dvs_deliver)) { return WrongPacket{fault}.deliver(book, book_size, bytes, bytes_size, sender); }
uint32_t make(Other_dvs_deliver_packet, PARAMETERS(dvs_deliver_packet)) {
  return WrongPacket{fault}.packet(book, book_size, bytes, bytes_size, sender, delivery, delivery_size);
}
uint32_t make(Other_dvs_read_front, PARAMETERS(dvs_read_front)) {
  return WrongPacket{fault}.read_front(bytes, bytes_size, message, message_size, length, length_size);
}
uint32_t make(Other_dvs_group_form, PARAMETERS(dvs_group_form)) {
  return WrongDriver{{fault, list, books, queues, list_size, books_size, queues_size}, view}.form(count, count_size);
}
uint32_t make(Other_dvs_group_steps, PARAMETERS(dvs_group_steps)) {
  return WrongList{{fault, list, books, queues, list_size, books_size, queues_size}}.steps(steps, steps_size, answers, answers_size);
}
uint32_t make(Other_dvs_group_start, PARAMETERS(dvs_group_start)) {
  return WrongMarks{{fault, list, books, queues, list_size, books_size, queues_size}}.start(members, first_set);
}
uint32_t make(Other_dvs_group_step, PARAMETERS(dvs_group_step)) {
  return WrongMarks{{fault, list, books, queues, list_size, books_size, queues_size}}.step(kind, first, second, event, event_size);
}
// A check writes none of its ranges.
uint32_t make(Other_dvs_group_check, PARAMETERS(dvs_group_check)) {
  auto lent = [](const uint8_t* range) { return const_cast<uint8_t*>(range); };
  return WrongMarks{{fault, lent(list), lent(books), lent(queues), list_size, books_size, queues_size}}.check();
}
uint32_t make(Other_dvs_group_crossing, PARAMETERS(dvs_group_crossing)) {
  return WrongQueries{fault, list, books, queues, list_size, books_size, queues_size}.query(false, set, views, views_size, count, count_size);
}
uint32_t make(Other_dvs_group_holding, PARAMETERS(dvs_group_holding)) {
  return WrongQueries{fault, list, books, queues, list_size, books_size, queues_size}.query(true, set, views, views_size, count, count_size);
}
uint32_t make(Other_dvs_group_newest_before, PARAMETERS(dvs_group_newest_before)) {
  return WrongQueries{fault, list, books, queues, list_size, books_size, queues_size}.newest_before(view, found, found_size);
}
// Every other call has none.
template <class Other, class... All> uint32_t make(Other, All...) {
  fprintf(stderr, "%s has no fault %s\n", function, fault);
  exit(2);
}

}  // namespace

// What is called in the place of each of the library's calls.
#define RANGE_ARGUMENT(range) range, range##_size
#define NUMBER_ARGUMENT(type, name) name
#define ARGUMENTS(name) name##_takes(RANGE_ARGUMENT, RANGE_ARGUMENT, NUMBER_ARGUMENT)
#define WRITTEN(range) Taken{true, range, range##_size}
#define NOT_WRITTEN(...) Taken{}

#define CALL(name, ...)                                                                                                        \
  extern "C" uint32_t __wrap_##name(PARAMETERS(name));                                                                         \
  extern "C" uint32_t __wrap_##name(PARAMETERS(name)) {                                                                        \
    if (otherwise(#name)) return make(Other_##name(), ARGUMENTS(name));                                                        \
    return spoil(#name, __real_##name(ARGUMENTS(name)), {name##_takes(NOT_WRITTEN, WRITTEN, NOT_WRITTEN)});                    \
  }
// A call that gives a number gives another one.
#define GIVES(type, name)                                                                                                      \
  extern "C" type __wrap_##name(PARAMETERS(name));                                                                             \
  extern "C" type __wrap_##name(PARAMETERS(name)) {                                                                            \
    return __real_##name(ARGUMENTS(name)) + (strcmp(#name, function) == 0 && strcmp(fault, "answer") == 0);                    \
  }
#include "../outside/calls.inc"
