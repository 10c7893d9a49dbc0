/*
 * dvs_layout.h: the limits, the lengths of lent ranges, the places in them, and functions that read them. dvs.h includes it.
 *
 * docs/LAYOUT.md describes every byte. Numbers in a range are big-endian. A set of members is a number with bit 0 for member 0. Nothing here calls the
 * library, and a reader looks at its own bytes only: the host gives it a range of the right length.
 */
#ifndef DVS_LAYOUT_H
#define DVS_LAYOUT_H

#include <stddef.h>
#include <stdint.h>

/* ---- the layout's number: it rises when a byte of a book or of a group gets another place or another meaning */

#define DVS_LAYOUT 1u

/* ---- limits */

#define DVS_MEMBERS 8u   /* members of a group: 0 to 7 */
#define DVS_VIEWS 32u    /* views in a group's life, the first included; views in an info message */
#define DVS_OPEN 31u     /* open views of a member */
#define DVS_OUTGOING 16u /* outgoing messages of a member */
#define DVS_WAITING 8u   /* messages of a member that wait in a view */
#define DVS_ORDERED 128u /* messages ordered in a view */
#define DVS_LONGEST 167u /* bytes of the longest message: client, info, registered, told */

/* ---- lengths of lent ranges, in bytes */

#define DVS_BOOK_SIZE 5234u                                          /* a member's book */
#define DVS_EVENT_SIZE 16u                                           /* an event that a call gives, of the kinds below */
#define DVS_LENGTH_SIZE 4u                                           /* a number that a call gives: the bytes of a message, or how many steps */
#define DVS_DELIVERY_SIZE 5u                                         /* the result of a packet: how many messages were taken, what stopped it */
#define DVS_MESSAGE_SIZE 174u                                        /* a message's record, of the kinds below */
#define DVS_VIEW_SIZE 5u                                             /* a view record: identifier 4, set 1 */
#define DVS_IDENTIFIER_SIZE 4u                                       /* an identifier in a buffer of identifiers */
#define DVS_FOUND_SIZE 6u                                            /* a view that was found, or none */
#define DVS_LIST_SIZE(views) (DVS_VIEW_SIZE * DVS_COUNT(views))      /* a group's list with room for 1 to 32 views */
#define DVS_BOOKS_SIZE 41872u                                        /* a group's eight books */
#define DVS_QUEUES_SIZE(views) (64u + 32841u * DVS_COUNT(views))     /* a group's queues, for a list with room for as many views */
#define DVS_STEP_SIZE 13u                                            /* a step of a list */
#define DVS_ANSWER_SIZE 17u                                          /* the answer to a step of a list */

#ifdef __cplusplus
#define DVS_COUNT(views) (static_cast<size_t>(views))
#else
#define DVS_COUNT(views) ((size_t)(views))
#endif

/* ---- the ranges by number: dvs_size gives these lengths to callers that have no macros */

#define DVS_SIZE_BOOK 1u      /* DVS_BOOK_SIZE */
#define DVS_SIZE_EVENT 2u     /* DVS_EVENT_SIZE */
#define DVS_SIZE_LENGTH 3u    /* DVS_LENGTH_SIZE */
#define DVS_SIZE_MESSAGE 4u   /* DVS_MESSAGE_SIZE */
#define DVS_SIZE_BUFFER 5u    /* DVS_LONGEST: a buffer for any message */
#define DVS_SIZE_LIST 6u      /* DVS_LIST_SIZE(views) */
#define DVS_SIZE_BOOKS 7u     /* DVS_BOOKS_SIZE */
#define DVS_SIZE_QUEUES 8u    /* DVS_QUEUES_SIZE(views) */
#define DVS_SIZE_STEP 9u      /* DVS_STEP_SIZE */
#define DVS_SIZE_ANSWER 10u   /* DVS_ANSWER_SIZE */
#define DVS_SIZE_DELIVERY 11u /* DVS_DELIVERY_SIZE */
#define DVS_SIZE_FOUND 12u    /* DVS_FOUND_SIZE */

/* ---- places in a book that a host may want to read, in a book that was started and that only calls have changed. docs/LAYOUT.md has all places */

#define DVS_BOOK_MEMBERS 0u        /* 1 byte: the number of members */
#define DVS_BOOK_SELF 1u           /* 1 byte: the member's own number */
#define DVS_BOOK_SETTLED 2u        /* a view record: the settled view */
#define DVS_BOOK_CARRIER 7u        /* 1 byte, 1 if there is a carrier view; then its view record */
#define DVS_BOOK_CLIENT 13u        /* 1 byte, 1 if there is a client view; then its view record */
#define DVS_BOOK_REGISTERED 19u    /* 1 byte: 1 if registered in the client view */
#define DVS_BOOK_HANDED 20u        /* 1 byte: how many entries of the client view were handed out */
#define DVS_BOOK_TOLD 21u          /* 1 byte: the number last told */
#define DVS_BOOK_REPORTED 22u      /* 1 byte: how many were reported safe */
#define DVS_BOOK_TAKEN 23u         /* 1 byte: how many messages of the carrier view were taken */
#define DVS_BOOK_INFOS 24u         /* 1 byte, a set: whose infos of the carrier view were taken. 20 waits for the view's other members */
#define DVS_BOOK_REGISTRATIONS 25u /* 1 byte, a set: whose registrations in it were taken. 31 waits for the view's other members */
#define DVS_BOOK_TOLDS 26u         /* 8 bytes: the count that each member told. 29 waits for the view's members whose count is not above `reported` */
#define DVS_BOOK_OPENS 35u         /* 1 byte: the number of open views; then their view records */
#define DVS_BOOK_OUTGOING 191u     /* 1 byte: the number of outgoing messages */

/* ---- places in a group's queues; i is a view's place in the list, 0 for the first view, p a member */

#define DVS_QUEUES_MADE 0u                                                               /* 1 byte: how many views were made */
#define DVS_QUEUES_MARKS 1u                                                              /* 4 bytes: bit i is the mark of view i, 1 if it was attempted */
#define DVS_QUEUES_LAYOUT 5u                                                             /* 1 byte: the DVS_LAYOUT of the library that started it */
#define DVS_QUEUES_ORDER(i) (64u + 32841u * DVS_COUNT(i))                                /* 1 byte: how many messages view i's order has */
#define DVS_QUEUES_WAITING(i, p) (21953u + 32841u * DVS_COUNT(i) + 1369u * DVS_COUNT(p)) /* 1 byte: how many messages of member p wait in view i */

/* ---- places in a view record: DVS_VIEW_SIZE bytes */

#define DVS_VIEW_IDENTIFIER 0u /* 4 bytes */
#define DVS_VIEW_SET 4u        /* 1 byte */

/* ---- places in an event: DVS_EVENT_SIZE bytes. A place that the kind does not use is 0. */

#define DVS_EVENT_KIND 0u   /* 1 byte: the step's kind (DVS_STEP_...), 0 for a step that is not an outward event */
#define DVS_EVENT_MEMBER 1u /* 1 byte: the member */
#define DVS_EVENT_VIEW 2u   /* 4 bytes: the client view's identifier */
#define DVS_EVENT_SET 6u    /* 1 byte: its set, for attempt only */
#define DVS_EVENT_SENDER 7u /* 1 byte: the sender, for hand and safe */
#define DVS_EVENT_ENTRY 8u  /* 8 bytes: the entry number, for send, hand and safe */

/* ---- places in a delivery: DVS_DELIVERY_SIZE bytes */

#define DVS_DELIVERY_COUNT 0u   /* 4 bytes: how many messages of the packet were taken */
#define DVS_DELIVERY_STOPPED 4u /* 1 byte: the refusal that stopped the next one (DVS_REFUSED_...), 0 if all were taken */

/* ---- places in a view that was found: DVS_FOUND_SIZE bytes */

#define DVS_FOUND_THERE 0u /* 1 byte: 1 if there is one, else 0 */
#define DVS_FOUND_VIEW 1u  /* its view record; all 0 if there is none */

/* ---- places in the records of a list: a step, DVS_STEP_SIZE bytes, and the answer to it, DVS_ANSWER_SIZE bytes */

#define DVS_STEP_KIND 0u     /* 1 byte: DVS_STEP_... */
#define DVS_STEP_FIRST 1u    /* 4 bytes: the first operand */
#define DVS_STEP_SECOND 5u   /* 8 bytes: the second operand */
#define DVS_ANSWER_NUMBER 0u /* 1 byte: 0 for accepted, or the refusal's number */
#define DVS_ANSWER_EVENT 1u  /* DVS_EVENT_SIZE bytes: the step's event; all 0 if the step was refused or has no event */

/* ---- places in a message's record: DVS_MESSAGE_SIZE bytes */

#define DVS_MESSAGE_KIND 0u   /* 1 byte: DVS_CLIENT, DVS_INFO, DVS_REGISTERED or DVS_TOLD */
#define DVS_MESSAGE_VIEW 1u   /* 4 bytes: the identifier of the view sent in */
#define DVS_MESSAGE_NUMBER 5u /* 8 bytes: a client's entry number, a told's count; 0 and ignored for the others */
#define DVS_MESSAGE_COUNT 13u /* 1 byte: the number of views: 1 to 32 for info, 0 for the others */
#define DVS_MESSAGE_VIEWS 14u /* 32 view records, the first of which count: the settled view, then the open ones, identifiers rising */

#define DVS_CLIENT 1u
#define DVS_INFO 2u
#define DVS_REGISTERED 3u
#define DVS_TOLD 4u

/* ---- the steps of a group */

#define DVS_STEP_CREATE 1u   /* first: identifier, second: set */
#define DVS_STEP_JOIN 2u     /* first: member, second: identifier */
#define DVS_STEP_PASS 3u     /* first: member */
#define DVS_STEP_ORDER 4u    /* first: member, second: identifier */
#define DVS_STEP_DELIVER 5u  /* first: member */
#define DVS_STEP_ATTEMPT 6u  /* first: member; event */
#define DVS_STEP_REGISTER 7u /* first: member; event */
#define DVS_STEP_SEND 8u     /* first: member, second: entry number; event */
#define DVS_STEP_HAND 9u     /* first: member; event */
#define DVS_STEP_TELL 10u    /* first: member */
#define DVS_STEP_SAFE 11u    /* first: member; event */
#define DVS_STEP_COLLECT 12u /* first: member */

/*
 * ---- readers of what calls write
 */

static inline uint32_t dvs_get32(const uint8_t *at) {
  uint32_t value = at[0];
  value = value << 8 | at[1];
  value = value << 8 | at[2];
  return value << 8 | at[3];
}
static inline uint64_t dvs_get64(const uint8_t *at) {
  uint64_t value = dvs_get32(at);
  return value << 32 | dvs_get32(at + 4);
}

/* An event. */
static inline uint32_t dvs_event_kind(const uint8_t *event) { return event[DVS_EVENT_KIND]; }
static inline uint32_t dvs_event_member(const uint8_t *event) { return event[DVS_EVENT_MEMBER]; }
static inline uint32_t dvs_event_view(const uint8_t *event) { return dvs_get32(event + DVS_EVENT_VIEW); }
static inline uint32_t dvs_event_set(const uint8_t *event) { return event[DVS_EVENT_SET]; }
static inline uint32_t dvs_event_sender(const uint8_t *event) { return event[DVS_EVENT_SENDER]; }
static inline uint64_t dvs_event_entry(const uint8_t *event) { return dvs_get64(event + DVS_EVENT_ENTRY); }

/* A number that a call gives: a length in bytes, or how many steps. */
static inline size_t dvs_length(const uint8_t *length) { return dvs_get32(length); }

/* A delivery. */
static inline size_t dvs_delivery_count(const uint8_t *delivery) { return dvs_get32(delivery + DVS_DELIVERY_COUNT); }
static inline uint32_t dvs_delivery_stopped(const uint8_t *delivery) { return delivery[DVS_DELIVERY_STOPPED]; }

/* A view that was found: 1 and its view record, or 0. */
static inline uint32_t dvs_found(const uint8_t *found) { return found[DVS_FOUND_THERE]; }
static inline const uint8_t *dvs_found_view(const uint8_t *found) { return found + DVS_FOUND_VIEW; }

/* Identifier i in a buffer of identifiers. */
static inline uint32_t dvs_identifier(const uint8_t *views, size_t i) { return dvs_get32(views + DVS_IDENTIFIER_SIZE * i); }

/* A view record: in a book, a list, a message's record, or found. */
static inline uint32_t dvs_view_identifier(const uint8_t *view) { return dvs_get32(view + DVS_VIEW_IDENTIFIER); }
static inline uint32_t dvs_view_set(const uint8_t *view) { return view[DVS_VIEW_SET]; }

/* A message's record; its view i is a view record. */
static inline uint32_t dvs_message_kind(const uint8_t *message) { return message[DVS_MESSAGE_KIND]; }
static inline uint32_t dvs_message_view(const uint8_t *message) { return dvs_get32(message + DVS_MESSAGE_VIEW); }
static inline uint64_t dvs_message_number(const uint8_t *message) { return dvs_get64(message + DVS_MESSAGE_NUMBER); }
static inline uint32_t dvs_message_count(const uint8_t *message) { return message[DVS_MESSAGE_COUNT]; }
static inline const uint8_t *dvs_message_views(const uint8_t *message, uint32_t i) { return message + DVS_MESSAGE_VIEWS + DVS_VIEW_SIZE * i; }

/* A book: the sets and the told count that say whom 20, 31 and 29 wait for. */
static inline uint32_t dvs_book_infos(const uint8_t *book) { return book[DVS_BOOK_INFOS]; }
static inline uint32_t dvs_book_registrations(const uint8_t *book) { return book[DVS_BOOK_REGISTRATIONS]; }
static inline uint32_t dvs_book_told(const uint8_t *book, uint32_t member) { return book[DVS_BOOK_TOLDS + member]; }

/* A group's queues. */
static inline uint32_t dvs_queues_made(const uint8_t *queues) { return queues[DVS_QUEUES_MADE]; }
static inline uint32_t dvs_queues_ordered(const uint8_t *queues, uint32_t i) { return queues[DVS_QUEUES_ORDER(i)]; }
static inline uint32_t dvs_queues_waiting(const uint8_t *queues, uint32_t i, uint32_t p) { return queues[DVS_QUEUES_WAITING(i, p)]; }

/* Answer i of a list. */
static inline uint32_t dvs_answer_number(const uint8_t *answers, size_t i) { return answers[DVS_ANSWER_SIZE * i + DVS_ANSWER_NUMBER]; }
static inline const uint8_t *dvs_answer_event(const uint8_t *answers, size_t i) { return answers + DVS_ANSWER_SIZE * i + DVS_ANSWER_EVENT; }

#endif
