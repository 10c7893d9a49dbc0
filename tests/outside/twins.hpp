// The plain twin of every call, under the call's own name and with its parameters in their order. The work is done in
// alone.hpp, wire.hpp, group.hpp, driver.hpp and queries.hpp.
#pragma once

#include "driver.hpp"
#include "queries.hpp"

namespace twin {

using plain::Alone, plain::Driver, plain::Group, plain::Queries, plain::Range, plain::Refusal;

// The member by itself.
inline Refusal dvs_start(Range book, uint32_t members, uint32_t first_set, uint32_t own) {
  return Alone(book).start(members, first_set, own);
}
inline Refusal dvs_join(Range book, uint32_t view, uint32_t set) { return Alone(book).join(view, set); }
inline Refusal dvs_pass(Range book, Range buffer, Range length) { return Alone(book).pass(buffer, length); }
inline Refusal dvs_deliver(Range book, Range bytes, uint32_t sender) { return Alone(book).deliver(bytes.at, bytes.size, sender); }
inline Refusal dvs_deliver_packet(Range book, Range bytes, uint32_t sender, Range delivery) {
  return Alone(book).deliver_packet(bytes.at, bytes.size, sender, delivery);
}
inline Refusal dvs_attempt(Range book, Range event) { return Alone(book).attempt(event); }
inline Refusal dvs_register(Range book, Range event) { return Alone(book).enroll(event); }
inline Refusal dvs_send(Range book, uint64_t entry, Range event) { return Alone(book).send(entry, event); }
inline Refusal dvs_hand(Range book, Range event) { return Alone(book).hand(event); }
inline Refusal dvs_tell(Range book) { return Alone(book).tell(); }
inline Refusal dvs_safe(Range book, Range event) { return Alone(book).safe(event); }
inline Refusal dvs_collect(Range book) { return Alone(book).collect(); }
inline Refusal dvs_check(Range book) { return Alone(book).check(); }

// Messages.
inline Refusal dvs_read_front(Range bytes, Range message, Range length) {
  return plain::read_front_record(bytes.at, bytes.size, message, length);
}
inline Refusal dvs_read(Range bytes, Range message) { return plain::read_record(bytes.at, bytes.size, message); }
inline Refusal dvs_write(Range message, Range buffer, Range length) {
  return plain::write_record(message.at, message.size, buffer, length);
}

// The whole group.
inline Refusal dvs_group_start(Range list, Range books, Range queues, uint32_t members, uint32_t first_set) {
  return Group(list, books, queues).start(members, first_set);
}
inline Refusal dvs_group_step(Range list, Range books, Range queues, uint32_t kind, uint32_t first, uint64_t second, Range event) {
  return Group(list, books, queues).step(kind, first, second, event);
}
inline Refusal dvs_group_form(Range list, Range books, Range queues, uint32_t view, Range count) {
  return Driver(list, books, queues).form(view, count);
}
inline Refusal dvs_group_run(Range list, Range books, Range queues, uint32_t members, uint32_t first_set, Range steps, Range answers) {
  return Group(list, books, queues).run(members, first_set, steps, answers);
}
inline Refusal dvs_group_steps(Range list, Range books, Range queues, Range steps, Range answers) {
  return Group(list, books, queues).steps(steps, answers);
}
inline Refusal dvs_group_check(Range list, Range books, Range queues) { return Group(list, books, queues).check(); }

// Which views were attempted.
inline Refusal dvs_group_crossing(Range list, Range books, Range queues, uint32_t set, Range views, Range count) {
  return Queries(list, books, queues).crossing(set, views, count);
}
inline Refusal dvs_group_holding(Range list, Range books, Range queues, uint32_t set, Range views, Range count) {
  return Queries(list, books, queues).holding(set, views, count);
}
inline Refusal dvs_group_newest_before(Range list, Range books, Range queues, uint32_t view, Range found) {
  return Queries(list, books, queues).newest_before(view, found);
}

}  // namespace twin
