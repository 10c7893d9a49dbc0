/* All that include/dvs.h names, used once: compiled as C and as C++, never run. An array of length -1 is an error. */
#include "dvs.h"

#define HOLDS(name, claim) typedef char name[(claim) ? 1 : -1]

HOLDS(limits, DVS_MEMBERS == 8 && DVS_VIEWS == 32 && DVS_OPEN == DVS_VIEWS - 1);
HOLDS(queue_limits, DVS_OUTGOING == 16 && DVS_WAITING == 8 && DVS_ORDERED == 128);
HOLDS(longest, DVS_LONGEST == 7 + DVS_VIEW_SIZE * DVS_VIEWS);
HOLDS(record, DVS_MESSAGE_VIEWS == DVS_MESSAGE_COUNT + 1);
HOLDS(record_size, DVS_MESSAGE_VIEWS + DVS_VIEW_SIZE * DVS_VIEWS == DVS_MESSAGE_SIZE);
HOLDS(record_places, DVS_MESSAGE_KIND == 0 && DVS_MESSAGE_VIEW == 1 && DVS_MESSAGE_NUMBER == 5 && DVS_MESSAGE_COUNT == 13);
HOLDS(event, DVS_EVENT_ENTRY + 8 == DVS_EVENT_SIZE && DVS_EVENT_SENDER == 7 && DVS_EVENT_SET == 6 && DVS_EVENT_VIEW == 2);
HOLDS(event_front, DVS_EVENT_KIND == 0 && DVS_EVENT_MEMBER == 1 && DVS_LENGTH_SIZE == 4);
HOLDS(waits, DVS_BOOK_INFOS == 24 && DVS_BOOK_REGISTRATIONS == 25 && DVS_BOOK_TOLDS == 26 && DVS_BOOK_TAKEN == 23);
HOLDS(run_sizes, DVS_STEP_SECOND + 8 == DVS_STEP_SIZE && DVS_ANSWER_EVENT + DVS_EVENT_SIZE == DVS_ANSWER_SIZE);
HOLDS(run_places, DVS_STEP_KIND == 0 && DVS_STEP_FIRST == 1 && DVS_ANSWER_NUMBER == 0);
HOLDS(queues_places, DVS_QUEUES_MADE == 0 && DVS_QUEUES_ORDER(1) == 64 + 32841 && DVS_QUEUES_WAITING(0, 0) == 65 + 128 * 171);
HOLDS(queues_head, DVS_QUEUES_MARKS == 1 && DVS_QUEUES_LAYOUT == 5 && DVS_LAYOUT == 1);
HOLDS(queues_end, DVS_QUEUES_WAITING(31, 8) == DVS_QUEUES_SIZE(32));
HOLDS(ranges_to_5, DVS_SIZE_BOOK == 1 && DVS_SIZE_EVENT == 2 && DVS_SIZE_LENGTH == 3 && DVS_SIZE_MESSAGE == 4 && DVS_SIZE_BUFFER == 5);
HOLDS(ranges_to_10, DVS_SIZE_LIST == 6 && DVS_SIZE_BOOKS == 7 && DVS_SIZE_QUEUES == 8 && DVS_SIZE_STEP == 9 && DVS_SIZE_ANSWER == 10);
HOLDS(ranges_to_12, DVS_SIZE_DELIVERY == 11 && DVS_SIZE_FOUND == 12);
HOLDS(delivery, DVS_DELIVERY_COUNT == 0 && DVS_DELIVERY_STOPPED == 4 && DVS_DELIVERY_STOPPED + 1 == DVS_DELIVERY_SIZE);
HOLDS(found, DVS_FOUND_THERE == 0 && DVS_FOUND_VIEW == 1 && DVS_FOUND_VIEW + DVS_VIEW_SIZE == DVS_FOUND_SIZE && DVS_IDENTIFIER_SIZE == 4);
HOLDS(books, DVS_BOOKS_SIZE == DVS_MEMBERS * DVS_BOOK_SIZE);
HOLDS(list, DVS_LIST_SIZE(32) == 160);
HOLDS(queues, DVS_QUEUES_SIZE(32) == 64 + 32 * (1 + 128 * 171 + 8 * (1 + 8 * 171)));
HOLDS(kinds, DVS_CLIENT == 1 && DVS_INFO == 2 && DVS_REGISTERED == 3 && DVS_TOLD == 4);
HOLDS(steps_to_4, DVS_STEP_CREATE == 1 && DVS_STEP_JOIN == 2 && DVS_STEP_PASS == 3 && DVS_STEP_ORDER == 4);
HOLDS(steps_to_8, DVS_STEP_DELIVER == 5 && DVS_STEP_ATTEMPT == 6 && DVS_STEP_REGISTER == 7 && DVS_STEP_SEND == 8);
HOLDS(steps_to_12, DVS_STEP_HAND == 9 && DVS_STEP_TELL == 10 && DVS_STEP_SAFE == 11 && DVS_STEP_COLLECT == 12);

static const unsigned refusals[] = {
#include "refusals.inc"
};
HOLDS(refusals_numbered, sizeof refusals / sizeof refusals[0] == DVS_REFUSALS + 1);

/* Every call, each range being the same bytes and each number 1. */
#define RANGE_USED(range) at, size
#define NUMBER_USED(type, name) 1
#define CALL(name, ...) sum += name(name##_takes(RANGE_USED, RANGE_USED, NUMBER_USED));
#define GIVES(type, name) sum += name(name##_takes(RANGE_USED, RANGE_USED, NUMBER_USED));
uint64_t use(uint8_t *at, size_t size);

uint64_t use(uint8_t *at, size_t size) {
  uint64_t sum = refusals[size % (DVS_REFUSALS + 1)];
#include "calls.inc"
  return sum + (unsigned)*dvs_refusal_text((uint32_t)sum);
}

/* Every reader. */
uint64_t look(const uint8_t *at);

uint64_t look(const uint8_t *at) {
  uint64_t sum = dvs_get32(at) + dvs_get64(at) + dvs_length(at) + dvs_view_identifier(at) + dvs_view_set(at);
  sum += dvs_event_kind(at) + dvs_event_member(at) + dvs_event_view(at) + dvs_event_set(at) + dvs_event_sender(at) + dvs_event_entry(at);
  sum += dvs_message_kind(at) + dvs_message_view(at) + dvs_message_number(at) + dvs_message_count(at);
  sum += dvs_view_set(dvs_message_views(at, 1)) + dvs_book_infos(at) + dvs_book_registrations(at) + dvs_book_told(at, 7);
  sum += dvs_queues_made(at) + dvs_queues_ordered(at, 1) + dvs_queues_waiting(at, 1, 2);
  sum += dvs_delivery_count(at) + dvs_delivery_stopped(at) + dvs_found(at) + dvs_view_set(dvs_found_view(at)) + dvs_identifier(at, 1);
  return sum + dvs_answer_number(at, 1) + dvs_event_kind(dvs_answer_event(at, 1));
}
