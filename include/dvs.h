/*
 * dvs.h: primary views for a group of up to eight members, after the service DVS of MIT-LCS-TR-873.
 *
 * This header has the functions. dvs_layout.h has limits, lengths, places and readers, and dvs_refusals.h the refusals; both are included here. The
 * documents that are named here are installed to share/doc/dvs.
 *
 * A host lends byte ranges, each as a pointer and a length in bytes, and gives plain numbers. Every call answers any bytes, any lengths and any numbers:
 *
 *   0                   accepted: the lent ranges are what the step makes of them;
 *   1 to DVS_REFUSALS   refused: the number is the reason (DVS_REFUSED_...), and every lent byte is as it was.
 *
 * There is nothing to test before a call. The host follows C's own rules. A pointer is valid for its length; it may be null if the length is 0. No range
 * that a call writes overlaps another range of that call; ranges that are only read may overlap. A range that a call writes belongs to that call until
 * it returns. Several calls may read one range at the same time. Ranges may have any alignment.
 *
 * Some ranges have a fixed length: a book, an event and so on. A call returns DVS_REFUSED_RECORDS_UNSOUND, before any other check, if such a range has
 * another length.
 *
 * The library keeps no memory of its own, never blocks, and calls only C's memcpy, memmove and memset. A call needs at most 8 KB of stack on ranges that
 * calls lead to. dvs_group_form may need 88 KB on other ranges, because it keeps there what it may have to put back. The time of a call depends on what
 * the ranges hold. A call on a book takes some microseconds, and a packet of 128 messages some tens of them. A call on a group first checks the whole
 * group, which takes microseconds if it is fresh and milliseconds if its queues are full. dvs_group_run, dvs_group_steps and dvs_group_form check once;
 * after that each of their steps takes much less.
 */
#ifndef DVS_H
#define DVS_H

#include "dvs_layout.h"
#include "dvs_refusals.h"

#include <stddef.h>
#include <stdint.h>

#ifdef __cplusplus
extern "C" {
#endif

/* ---- the answer of a call must be looked at. In C, a compiler that has the attribute warns if it is ignored. In C++, the results of dvs.hpp do it. */

#if defined(__GNUC__) && !defined(__cplusplus)
#define DVS_MUST_CHECK __attribute__((warn_unused_result))
#else
#define DVS_MUST_CHECK
#endif

/* ---- the version: major * 10000 + minor * 100 + patch. A host compares it once with what dvs_version() returns. */

#define DVS_VERSION 600u

/*
 * ---- the library itself
 */

/* Returns the DVS_VERSION that the library was built with. */
uint32_t dvs_version(void) DVS_MUST_CHECK;

/* Returns the length in bytes of a range, which is named by its number DVS_SIZE_... For a list and for queues it is the length with room for `views`; for
 * other ranges `views` is ignored. Returns 0 for an unknown range, and for a list or queues if `views` is not 1 to 32. */
uint64_t dvs_size(uint32_t range, uint32_t views) DVS_MUST_CHECK;

/*
 * ---- the member by itself: one member's part, over a carrier of the host's own
 *
 * A book has DVS_BOOK_SIZE bytes. After dvs_start only these calls change it. A call returns 4 if the bytes are not a sound book.
 *
 * No call can see whether the host keeps its duties. docs/HOST.md has them, and shows what happens if one is broken. In short:
 *
 * The carrier and the hosts must provide four things, which the theorem on books over a host's own carrier assumes:
 *
 * 1. No two views share an identifier, and every view's set has members, all of them among the n.
 * 2. In a view every member takes a prefix of one order of messages.
 * 3. That order holds a prefix of what each sender gave out in that view: its first messages, in the order sent, without gaps. So a lost message stops its
 *    sender in this view.
 * 4. A member's book never goes back, but for the outgoing list of a member that joins next.
 *
 * A member works in turns, and one rule covers every call. Take what came. Step. Save once and sync: the book, what the client has, and the events of the
 * turn. Then publish the events, and after them post the messages. After a restart load what was saved last, and join a view before any other call. An
 * older book, or a second start, breaks the promise.
 *
 * The start is the same for every member, and no two members have one number. Messages are believed: anyone who can put bytes on the line can break
 * the promise.
 *
 * Being in a primary view is no licence. Two groups of members may hand out entries at the same time, so what was only handed out may have to be
 * withdrawn. An entry that is reported safe was in the hands of every member of its view. It is final if every member registers last: after every member
 * of the view has attempted it, and after this one has taken over all that each of them held when it attempted.
 *
 * The refusals of each call are given in the order in which they are checked.
 */

/* Makes the book of member `own` in a group of `members`. The first view has identifier 0 and the set `first_set`. Refusals: 4, 1, 2, 6. */
uint32_t dvs_start(uint8_t *book, size_t book_size, uint32_t members, uint32_t first_set, uint32_t own) DVS_MUST_CHECK;

/* The carrier gave this member a view. It becomes the carrier view, and the only outgoing message is an info. Refusals: 4, 6, 7, 11, 12. */
uint32_t dvs_join(uint8_t *book, size_t book_size, uint32_t view, uint32_t set) DVS_MUST_CHECK;

/* Removes the first outgoing message from the book. Writes it to the front of `buffer`, and its length to `length` (DVS_LENGTH_SIZE bytes). DVS_LONGEST
 * bytes hold any message; the bytes of the buffer after the message stay as they were. Refusals: 4, 6, 13, 14, 39. */
uint32_t dvs_pass(uint8_t *book, size_t book_size, uint8_t *buffer, size_t buffer_size, uint8_t *length, size_t length_size) DVS_MUST_CHECK;

/* Takes the next message of the carrier view's order, from `sender`. The bytes must be exactly this message. The call believes the carrier: a message
 * that is given twice is taken twice. A view has 128 messages of all kinds. 41 has two causes. A message of a view below the carrier view is late: drop
 * it. A message of a view above it came before the join: keep it, in order, until then. Do the same with a message that is refused with 13.
 * Refusals: 4, 6, 13, 32 to 38, 7, 41, 42, 16, 43. */
uint32_t dvs_deliver(uint8_t *book, size_t book_size, const uint8_t *bytes, size_t bytes_size, uint32_t sender) DVS_MUST_CHECK;

/* Takes a packet: messages one after another, all from `sender` and of one view. They are taken one by one, up to the first refusal. `delivery`
 * (DVS_DELIVERY_SIZE bytes) receives how many were taken, and the refusal that stopped the packet or 0. Messages that were taken stay taken, and the
 * refused one changes nothing. The call itself is refused with 4 only; otherwise it returns 0, whatever stopped the packet. An empty packet is checked
 * for 4 only. A message can be stopped, in this order, by 6, 13, 32 to 37, 7, 41, 42, 16, 43; not by 38, because the bytes after a message are the next
 * one. Refusals: 4. */
uint32_t dvs_deliver_packet(uint8_t *book, size_t book_size, const uint8_t *bytes, size_t bytes_size, uint32_t sender, uint8_t *delivery,
                            size_t delivery_size) DVS_MUST_CHECK;

/* Attempts the carrier view. It becomes the client view, this member's primary one. Refusals: 4, 6, 13, 19, 20, 21, 43. */
uint32_t dvs_attempt(uint8_t *book, size_t book_size, uint8_t *event, size_t event_size) DVS_MUST_CHECK;

/* The client registers in the client view. It does so last: when every member of the view has attempted it, and the client has taken over all that each
 * of them held then. If the client view is not the carrier view any more, the call is accepted and no message is queued. Refusals: 4, 6, 22, 23, 24. */
uint32_t dvs_register(uint8_t *book, size_t book_size, uint8_t *event, size_t event_size) DVS_MUST_CHECK;

/* The client sends an entry number in the client view. If that is not the carrier view any more, the call is accepted and no message is queued.
 * Refusals: 4, 6, 22, 24. */
uint32_t dvs_send(uint8_t *book, size_t book_size, uint64_t entry, uint8_t *event, size_t event_size) DVS_MUST_CHECK;

/* Gives the next entry of the client view to the client. The client may have to withdraw it until it is reported safe. Refusals: 4, 6, 22, 25. */
uint32_t dvs_hand(uint8_t *book, size_t book_size, uint8_t *event, size_t event_size) DVS_MUST_CHECK;

/* Tells the others how many entries the client has. These entries are on disk with the book before the message leaves. Refusals: 4, 6, 22, 26, 27, 24. */
uint32_t dvs_tell(uint8_t *book, size_t book_size) DVS_MUST_CHECK;

/* Reports the next entry safe: every client of the view has it. It is final if every member registers last. Refusals: 4, 6, 22, 26, 28, 29. */
uint32_t dvs_safe(uint8_t *book, size_t book_size, uint8_t *event, size_t event_size) DVS_MUST_CHECK;

/* The carrier view becomes settled, if all its members have registered in it. Refusals: 4, 6, 13, 30, 31. */
uint32_t dvs_collect(uint8_t *book, size_t book_size) DVS_MUST_CHECK;

/* Checks whether the bytes are a sound book of a member, as every call above does. Changes nothing. It cannot tell an old copy from the last one.
 * Refusals: 4, 6. */
uint32_t dvs_check(const uint8_t *book, size_t book_size) DVS_MUST_CHECK;

/*
 * ---- messages: the bytes that go over the line, and a record of DVS_MESSAGE_SIZE bytes
 */

/* Reads the message at the front of the bytes. Writes to `length` (DVS_LENGTH_SIZE bytes) how many bytes it took; the bytes after it are ignored. To read
 * a packet, read its front until no byte is left. Every byte of the record is written; unused places are 0. 32 to 34 are checked as the bytes come, then
 * 35 to 37 over the whole message. Refusals: 4, 32 to 37. */
uint32_t dvs_read_front(const uint8_t *bytes, size_t bytes_size, uint8_t *message, size_t message_size, uint8_t *length,
                        size_t length_size) DVS_MUST_CHECK;

/* Reads one message; the bytes must be exactly this message. Every byte of the record is written; unused places are 0. 32 to 34 are checked as the bytes
 * come, then 35 to 37 over the whole message, then 38. Refusals: 4, 32 to 38. */
uint32_t dvs_read(const uint8_t *bytes, size_t bytes_size, uint8_t *message, size_t message_size) DVS_MUST_CHECK;

/* Writes the record's message to the front of `buffer`, and its length to `length` (DVS_LENGTH_SIZE bytes). Places that the message does not use are
 * ignored. Refusals: 4, 33 to 37, 39. */
uint32_t dvs_write(const uint8_t *message, size_t message_size, uint8_t *buffer, size_t buffer_size, uint8_t *length, size_t length_size) DVS_MUST_CHECK;

/*
 * ---- the whole group: all members and the carrier between them, in three ranges
 *
 * The list has room for 1 to 32 views and the length DVS_LIST_SIZE(views). The queues have the length DVS_QUEUES_SIZE(views) for as many views. The books
 * have DVS_BOOKS_SIZE bytes.
 */

/* Starts a group of `members`. The first view has identifier 0 and the set `first_set`. Every byte of the three ranges is written. A list with room for
 * no view, or for more than 32, is refused with 3, and the length of the queues is then not checked. Refusals: 4, 1, 2, 3. */
uint32_t dvs_group_start(uint8_t *list, size_t list_size, uint8_t *books, size_t books_size, uint8_t *queues, size_t queues_size, uint32_t members,
                         uint32_t first_set) DVS_MUST_CHECK;

/* Takes one step of any kind (DVS_STEP_...) with its operands; give 0 for an operand that the kind does not have. An accepted step writes the event.
 * Refusals: 4, 5, 6; then those of the kind. */
uint32_t dvs_group_step(uint8_t *list, size_t list_size, uint8_t *books, size_t books_size, uint8_t *queues, size_t queues_size, uint32_t kind,
                        uint32_t first, uint64_t second, uint8_t *event, size_t event_size) DVS_MUST_CHECK;

/* Forms a view by one call: the newest view, `view`, which no member has joined, goes from made to settled. Its k members take 2 * k * k + 8 * k ordinary
 * steps, each kind by rising member: joins; passes, orders and deliveries of the infos; attempts; registers; passes, orders and deliveries of the
 * registrations; collects. Their events are k attempts, then k registers, by rising member. `count` (DVS_LENGTH_SIZE bytes) receives the number of
 * steps. Either all steps are taken or none. The call registers for all k members at once, so the host brings the copies of all k clients up to date
 * before it (docs/HOST.md, 7). The last part of the order concerns only ranges that no calls lead to. Refusals: 4, 10, 44, 45; then the first refusal
 * among the steps. */
uint32_t dvs_group_form(uint8_t *list, size_t list_size, uint8_t *books, size_t books_size, uint8_t *queues, size_t queues_size, uint32_t view,
                        uint8_t *count, size_t count_size) DVS_MUST_CHECK;

/* Starts a group as dvs_group_start does, and then takes the steps of a list in turn. `steps` is whole records of DVS_STEP_SIZE bytes, none or any
 * number; `answers` is as many records of DVS_ANSWER_SIZE bytes, one for each step. A refused step does not end the list: its answer has the number. The
 * call first returns 4 if steps and answers do not pair. Refusals: 4, 1, 2, 3. */
uint32_t dvs_group_run(uint8_t *list, size_t list_size, uint8_t *books, size_t books_size, uint8_t *queues, size_t queues_size, uint32_t members,
                       uint32_t first_set, const uint8_t *steps, size_t steps_size, uint8_t *answers, size_t answers_size) DVS_MUST_CHECK;

/* Takes a list of steps in a group that exists, with records as for dvs_group_run. Each step does what dvs_group_step does, and its answer holds the
 * number and the event that dvs_group_step gives. A refused step does not end the list. A group that calls lead to is checked once for the whole list, so
 * two steps or more take less time than one by one. The call returns 4 if steps and answers do not pair, and then 4 if the group is not sound.
 * Refusals: 4. */
uint32_t dvs_group_steps(uint8_t *list, size_t list_size, uint8_t *books, size_t books_size, uint8_t *queues, size_t queues_size,
                         const uint8_t *steps, size_t steps_size, uint8_t *answers, size_t answers_size) DVS_MUST_CHECK;

/* Checks whether the three ranges are a sound group, as every step does. Changes nothing. Refusals: 4. */
uint32_t dvs_group_check(const uint8_t *list, size_t list_size, const uint8_t *books, size_t books_size, const uint8_t *queues,
                         size_t queues_size) DVS_MUST_CHECK;

/*
 * ---- which views were attempted: queries that change nothing in the group
 *
 * A view counts as attempted if any member attempted it; the first view always does. Books forget old views, and these queries do not.
 */

/* Finds the attempted views that share a member with `set`. Writes their identifiers to the front of `views`, newest first and each once, and their number
 * to `count` (DVS_LENGTH_SIZE bytes). `views` has room for whole identifiers of DVS_IDENTIFIER_SIZE bytes, or the call returns 4; DVS_VIEWS of them are
 * always enough. The bytes after the identifiers found stay as they were. Refusals: 4, 7, 46. */
uint32_t dvs_group_crossing(const uint8_t *list, size_t list_size, const uint8_t *books, size_t books_size, const uint8_t *queues, size_t queues_size,
                            uint32_t set, uint8_t *views, size_t views_size, uint8_t *count, size_t count_size) DVS_MUST_CHECK;

/* Finds the attempted views of which `set` holds a majority: twice the members in common exceed the view's members. It gives them as dvs_group_crossing
 * does. Refusals: 4, 7, 46. */
uint32_t dvs_group_holding(const uint8_t *list, size_t list_size, const uint8_t *books, size_t books_size, const uint8_t *queues, size_t queues_size,
                           uint32_t set, uint8_t *views, size_t views_size, uint8_t *count, size_t count_size) DVS_MUST_CHECK;

/* Finds the newest attempted view with an identifier below `view`, which need not be a view's. Writes 1 and its view record to `found` (DVS_FOUND_SIZE
 * bytes), or 0 everywhere if there is none, which is an answer and no refusal. Refusals: 4. */
uint32_t dvs_group_newest_before(const uint8_t *list, size_t list_size, const uint8_t *books, size_t books_size, const uint8_t *queues,
                                 size_t queues_size, uint32_t view, uint8_t *found, size_t found_size) DVS_MUST_CHECK;

#ifdef __cplusplus
}
#endif

#endif
