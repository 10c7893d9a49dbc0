/* The C header in a C99 program: a book, its event read by the header's readers, a packet, a view formed, queries, a list of steps, words, and what a
 * shared object answers if one is linked. Besides, every call is made once with no bytes in any range, so every name of the header is linked. */
#include <dvs.h>

#include <string.h>

#ifdef SHARED
uint32_t in_a_shared_object(uint8_t *book);
#endif

int main(void) {
  static uint8_t book[DVS_BOOK_SIZE], event[DVS_EVENT_SIZE], buffer[DVS_LONGEST], length[DVS_LENGTH_SIZE], message[DVS_MESSAGE_SIZE];
  if (dvs_version() != DVS_VERSION || dvs_size(DVS_SIZE_BOOK, 0) != sizeof book) return 1;
  if (dvs_check(book, sizeof book) != DVS_REFUSED_RECORDS_UNSOUND) return 2;
  if (dvs_start(book, sizeof book, 3, 7, 1) != DVS_ACCEPTED || dvs_check(book, sizeof book) != DVS_ACCEPTED) return 3;
  if (dvs_send(book, sizeof book, 0x0102030405060708u, event, sizeof event) != DVS_ACCEPTED) return 4;
  if (dvs_event_kind(event) != DVS_STEP_SEND || dvs_event_member(event) != 1 || dvs_event_entry(event) != 0x0102030405060708u) return 5;
  if (dvs_pass(book, sizeof book, buffer, sizeof buffer, length, sizeof length) != DVS_ACCEPTED || dvs_length(length) != 15) return 6;
  if (dvs_read(buffer, dvs_length(length), message, sizeof message) != DVS_ACCEPTED) return 7;
  if (dvs_message_kind(message) != DVS_CLIENT || dvs_message_view(message) != 0 || dvs_message_count(message) != 0) return 8;
  if (dvs_message_number(message) != 0x0102030405060708u) return 9;
  if (dvs_join(book, sizeof book, 258, 6) != DVS_ACCEPTED || dvs_book_infos(book) != 0) return 10;
  if (dvs_pass(book, sizeof book, buffer, sizeof buffer, length, sizeof length) != DVS_ACCEPTED) return 11;
  if (dvs_read(buffer, dvs_length(length), message, sizeof message) != DVS_ACCEPTED || dvs_message_view(message) != 258) return 12;
  if (dvs_message_count(message) != 1 || dvs_view_set(dvs_message_views(message, 0)) != 7) return 13;
  if (dvs_deliver(book, sizeof book, buffer, dvs_length(length), 1) != DVS_ACCEPTED) return 14;
  if (dvs_book_infos(book) != 2 || dvs_book_registrations(book) != 0 || dvs_book_told(book, 1) != 0) return 15;
  if (dvs_view_identifier(book + DVS_BOOK_CARRIER + 1) != 258 || dvs_view_set(book + DVS_BOOK_CARRIER + 1) != 6) return 16;
  /* A registration twice in a packet, and a byte behind them that is none. */
  static const uint8_t packet[15] = {DVS_REGISTERED, 0, 0, 1, 2, 0, 0, DVS_REGISTERED, 0, 0, 1, 2, 0, 0, 0};
  static uint8_t delivery[DVS_DELIVERY_SIZE];
  if (dvs_deliver(book, sizeof book, packet, sizeof packet, 2) != DVS_REFUSED_BYTES_LEFT_OVER) return 23;
  if (dvs_deliver_packet(book, sizeof book, packet, sizeof packet, 2, delivery, sizeof delivery) != DVS_ACCEPTED) return 24;
  if (dvs_delivery_count(delivery) != 2 || dvs_delivery_stopped(delivery) != DVS_REFUSED_UNKNOWN_KIND || dvs_book_registrations(book) != 4) return 25;
  if (dvs_deliver_packet(book, sizeof book, packet, 0, 9, delivery, sizeof delivery) != DVS_ACCEPTED || dvs_delivery_count(delivery) != 0) return 26;
  if (dvs_read_front(packet, sizeof packet, message, sizeof message, length, sizeof length) != DVS_ACCEPTED || dvs_length(length) != 7) return 27;
  if (dvs_message_kind(message) != DVS_REGISTERED || dvs_message_view(message) != 258) return 28;
  if (dvs_size(DVS_SIZE_DELIVERY, 0) != sizeof delivery) return 29;
  static uint8_t list[DVS_LIST_SIZE(2)], books[DVS_BOOKS_SIZE], queues[DVS_QUEUES_SIZE(2)], count[DVS_LENGTH_SIZE];
  if (dvs_group_start(list, sizeof list, books, sizeof books, queues, sizeof queues, 3, 7) != DVS_ACCEPTED) return 18;
  if (dvs_group_form(list, sizeof list, books, sizeof books, queues, sizeof queues, 0, count, sizeof count) != DVS_REFUSED_VIEW_NOT_FRESH) return 19;
  if (dvs_group_step(list, sizeof list, books, sizeof books, queues, sizeof queues, DVS_STEP_CREATE, 258, 6, event, sizeof event) != DVS_ACCEPTED) return 20;
  if (dvs_group_form(list, sizeof list, books, sizeof books, queues, sizeof queues, 258, count, sizeof count) != DVS_ACCEPTED) return 21;
  if (dvs_length(count) != 24 || dvs_view_identifier(books + DVS_BOOK_SIZE + DVS_BOOK_SETTLED) != 258) return 22;
  /* Views 258 and 0 were attempted. Member 0 is only in view 0, and a buffer with one place is too short for both. */
  static uint8_t views[2 * DVS_IDENTIFIER_SIZE], found[DVS_FOUND_SIZE];
  if (dvs_group_crossing(list, sizeof list, books, sizeof books, queues, sizeof queues, 6, views, 4, count, sizeof count) != DVS_REFUSED_TOO_FEW_PLACES)
    return 39;
  if (dvs_group_crossing(list, sizeof list, books, sizeof books, queues, sizeof queues, 6, views, sizeof views, count, sizeof count) != DVS_ACCEPTED) return 40;
  if (dvs_length(count) != 2 || dvs_identifier(views, 0) != 258 || dvs_identifier(views, 1) != 0) return 41;
  if (dvs_group_crossing(list, sizeof list, books, sizeof books, queues, sizeof queues, 1, views, 4, count, sizeof count) != DVS_ACCEPTED) return 42;
  if (dvs_length(count) != 1 || dvs_identifier(views, 0) != 0) return 43;
  if (dvs_group_holding(list, sizeof list, books, sizeof books, queues, sizeof queues, 1, views, 0, count, sizeof count) != DVS_ACCEPTED) return 44;
  if (dvs_length(count) != 0) return 45;
  if (dvs_group_newest_before(list, sizeof list, books, sizeof books, queues, sizeof queues, 300, found, sizeof found) != DVS_ACCEPTED) return 46;
  if (dvs_found(found) != 1 || dvs_view_identifier(dvs_found_view(found)) != 258 || dvs_view_set(dvs_found_view(found)) != 6) return 47;
  if (dvs_group_newest_before(list, sizeof list, books, sizeof books, queues, sizeof queues, 0, found, sizeof found) != DVS_ACCEPTED) return 48;
  if (dvs_found(found) != 0 || dvs_view_set(dvs_found_view(found)) != 0) return 49;
  /* Member 1 sends 9, and has nothing to hand. */
  static const uint8_t steps[2 * DVS_STEP_SIZE] = {DVS_STEP_SEND, 0, 0, 0, 1, 0, 0, 0, 0, 0, 0, 0, 9, DVS_STEP_HAND, 0, 0, 0, 1};
  static uint8_t answers[2 * DVS_ANSWER_SIZE];
  const uint8_t *const sent = dvs_answer_event(answers, 0), *const handed = dvs_answer_event(answers, 1);
  if (dvs_group_steps(list, sizeof list, books, sizeof books, queues, sizeof queues, steps, sizeof steps, answers, 0) != DVS_REFUSED_RECORDS_UNSOUND) return 30;
  if (dvs_group_steps(list, sizeof list, books, sizeof books, queues, sizeof queues, steps, 0, answers, 0) != DVS_ACCEPTED || dvs_event_kind(sent)) return 31;
  if (dvs_group_steps(list, sizeof list, books, sizeof books, queues, sizeof queues, steps, sizeof steps, answers, sizeof answers) != DVS_ACCEPTED) return 32;
  if (dvs_answer_number(answers, 0) != DVS_ACCEPTED || dvs_event_view(sent) != 258 || dvs_event_entry(sent) != 9) return 33;
  if (dvs_answer_number(answers, 1) != DVS_REFUSED_NONE_TO_HAND || dvs_event_kind(handed) != 0) return 34;
  if (strcmp(dvs_refusal_text(DVS_ACCEPTED), "accepted") != 0) return 35;
  if (strcmp(dvs_refusal_text(DVS_REFUSED_NO_SUCH_MEMBER), "there is no such member") != 0) return 36;
  if (strcmp(dvs_refusal_text(DVS_REFUSALS + 1), "no refusal of this library") != 0) return 37;
#define NO_BYTES(range) NULL, 0
#define ZERO(type, name) 0
#define CALL(name, ...) if (name(name##_takes(NO_BYTES, NO_BYTES, ZERO)) != DVS_REFUSED_RECORDS_UNSOUND) return 38;
#include "../outside/calls.inc"
#ifdef SHARED
  if (in_a_shared_object(book) != DVS_VERSION) return 17;
#endif
  return 0;
}
