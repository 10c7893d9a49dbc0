/*
 * dvs_refusals.h: the refusals by number and in words; dvs.h includes it. It is written from docs/REFUSALS.md, which has a section for each.
 */
#ifndef DVS_REFUSALS_H
#define DVS_REFUSALS_H

#include <stdint.h>

#define DVS_ACCEPTED 0u
#define DVS_REFUSED_MEMBERS_OUT_OF_RANGE 1u  /* the number of members is not 1 to 8 */
#define DVS_REFUSED_FIRST_SET_UNFIT 2u       /* the first set is empty or beyond the members */
#define DVS_REFUSED_LIST_LENGTH 3u           /* the list does not have room for 1 to 32 views */
#define DVS_REFUSED_RECORDS_UNSOUND 4u       /* the lent bytes are no sound record, or not of their length */
#define DVS_REFUSED_UNKNOWN_STEP 5u          /* there is no step of this kind */
#define DVS_REFUSED_NO_SUCH_MEMBER 6u        /* there is no such member */
#define DVS_REFUSED_SET_UNFIT 7u             /* a set is empty or beyond the members */
#define DVS_REFUSED_IDENTIFIER_NOT_ABOVE 8u  /* the identifier is not above all made before */
#define DVS_REFUSED_LIST_FULL 9u             /* the list of views is full */
#define DVS_REFUSED_NO_SUCH_VIEW 10u         /* there is no such view */
#define DVS_REFUSED_NOT_IN_SET 11u           /* the member is not in the view */
#define DVS_REFUSED_NOT_ABOVE_CARRIER 12u    /* the view is not above the carrier view */
#define DVS_REFUSED_NO_CARRIER_VIEW 13u      /* the member has no carrier view */
#define DVS_REFUSED_NONE_OUTGOING 14u        /* no message is outgoing */
#define DVS_REFUSED_WAITING_FULL 15u         /* 8 messages of the member wait in the view already */
#define DVS_REFUSED_ORDER_FULL 16u           /* the view's order has its 128 messages */
#define DVS_REFUSED_NONE_WAITING 17u         /* no message of the member waits in the view */
#define DVS_REFUSED_NONE_TO_DELIVER 18u      /* the member has taken every message of the view */
#define DVS_REFUSED_NOT_ABOVE_CLIENT 19u     /* the carrier view is not above the client view */
#define DVS_REFUSED_INFO_MISSING 20u         /* the info of a member of the view is missing */
#define DVS_REFUSED_TEST_FAILED 21u          /* the view has no majority of a view that is held */
#define DVS_REFUSED_NO_CLIENT_VIEW 22u       /* the member has no client view */
#define DVS_REFUSED_ALREADY_REGISTERED 23u   /* the client has registered in this view already */
#define DVS_REFUSED_OUTGOING_FULL 24u        /* 16 messages are outgoing already */
#define DVS_REFUSED_NONE_TO_HAND 25u         /* every entry taken was handed out */
#define DVS_REFUSED_CLIENT_NOT_CARRIER 26u   /* the client view is not the carrier view */
#define DVS_REFUSED_NOTHING_NEW_TO_TELL 27u  /* nothing was handed out since the last count told */
#define DVS_REFUSED_NONE_TO_REPORT 28u       /* every entry handed out was reported safe */
#define DVS_REFUSED_TOLD_TOO_LOW 29u         /* a member has not told that its client has the entry */
#define DVS_REFUSED_NOT_ABOVE_SETTLED 30u    /* the carrier view is not above the settled view */
#define DVS_REFUSED_REGISTRATION_MISSING 31u /* the registration of a member of the view is missing */
#define DVS_REFUSED_ENDS_EARLY 32u           /* the message ends early */
#define DVS_REFUSED_UNKNOWN_KIND 33u         /* there is no message of this kind */
#define DVS_REFUSED_SECTION_COUNT 34u        /* a section of the message has a wrong count */
#define DVS_REFUSED_EMPTY_SET 35u            /* a view in the message has an empty set */
#define DVS_REFUSED_NOT_RISING 36u           /* the identifiers in the message do not rise */
#define DVS_REFUSED_TOLD_OUT_OF_RANGE 37u    /* the count told is not 1 to 128 */
#define DVS_REFUSED_BYTES_LEFT_OVER 38u      /* bytes are left over after the message */
#define DVS_REFUSED_BUFFER_TOO_SHORT 39u     /* the buffer is too short for the message */
#define DVS_REFUSED_LINE_UNREADABLE 40u      /* the bench cannot read the line */
#define DVS_REFUSED_ANOTHER_VIEW 41u         /* the message was sent in another view */
#define DVS_REFUSED_SENDER_NOT_IN_VIEW 42u   /* the sender is not in the view */
#define DVS_REFUSED_TOO_MANY_OPEN 43u        /* more than 31 views would be open */
#define DVS_REFUSED_VIEW_NOT_FRESH 44u       /* the view to form is not the newest, or a member has joined it */
#define DVS_REFUSED_FORM_TEST_FAILED 45u     /* the view to form has no majority of a view that one of its members holds */
#define DVS_REFUSED_TOO_FEW_PLACES 46u       /* the buffer of identifiers is shorter than the list */

#define DVS_REFUSALS 46u /* how many there are: the highest number */

/* Returns the words of what a call returned, 0 or a refusal's number, for a log. */
#if defined(__cpp_constexpr) && __cpp_constexpr >= 201304L
constexpr
#endif
static inline const char *dvs_refusal_text(uint32_t refusal) {
  switch (refusal) {
    case DVS_ACCEPTED: return "accepted";
    case DVS_REFUSED_MEMBERS_OUT_OF_RANGE: return "the number of members is not 1 to 8";
    case DVS_REFUSED_FIRST_SET_UNFIT: return "the first set is empty or beyond the members";
    case DVS_REFUSED_LIST_LENGTH: return "the list does not have room for 1 to 32 views";
    case DVS_REFUSED_RECORDS_UNSOUND: return "the lent bytes are no sound record, or not of their length";
    case DVS_REFUSED_UNKNOWN_STEP: return "there is no step of this kind";
    case DVS_REFUSED_NO_SUCH_MEMBER: return "there is no such member";
    case DVS_REFUSED_SET_UNFIT: return "a set is empty or beyond the members";
    case DVS_REFUSED_IDENTIFIER_NOT_ABOVE: return "the identifier is not above all made before";
    case DVS_REFUSED_LIST_FULL: return "the list of views is full";
    case DVS_REFUSED_NO_SUCH_VIEW: return "there is no such view";
    case DVS_REFUSED_NOT_IN_SET: return "the member is not in the view";
    case DVS_REFUSED_NOT_ABOVE_CARRIER: return "the view is not above the carrier view";
    case DVS_REFUSED_NO_CARRIER_VIEW: return "the member has no carrier view";
    case DVS_REFUSED_NONE_OUTGOING: return "no message is outgoing";
    case DVS_REFUSED_WAITING_FULL: return "8 messages of the member wait in the view already";
    case DVS_REFUSED_ORDER_FULL: return "the view's order has its 128 messages";
    case DVS_REFUSED_NONE_WAITING: return "no message of the member waits in the view";
    case DVS_REFUSED_NONE_TO_DELIVER: return "the member has taken every message of the view";
    case DVS_REFUSED_NOT_ABOVE_CLIENT: return "the carrier view is not above the client view";
    case DVS_REFUSED_INFO_MISSING: return "the info of a member of the view is missing";
    case DVS_REFUSED_TEST_FAILED: return "the view has no majority of a view that is held";
    case DVS_REFUSED_NO_CLIENT_VIEW: return "the member has no client view";
    case DVS_REFUSED_ALREADY_REGISTERED: return "the client has registered in this view already";
    case DVS_REFUSED_OUTGOING_FULL: return "16 messages are outgoing already";
    case DVS_REFUSED_NONE_TO_HAND: return "every entry taken was handed out";
    case DVS_REFUSED_CLIENT_NOT_CARRIER: return "the client view is not the carrier view";
    case DVS_REFUSED_NOTHING_NEW_TO_TELL: return "nothing was handed out since the last count told";
    case DVS_REFUSED_NONE_TO_REPORT: return "every entry handed out was reported safe";
    case DVS_REFUSED_TOLD_TOO_LOW: return "a member has not told that its client has the entry";
    case DVS_REFUSED_NOT_ABOVE_SETTLED: return "the carrier view is not above the settled view";
    case DVS_REFUSED_REGISTRATION_MISSING: return "the registration of a member of the view is missing";
    case DVS_REFUSED_ENDS_EARLY: return "the message ends early";
    case DVS_REFUSED_UNKNOWN_KIND: return "there is no message of this kind";
    case DVS_REFUSED_SECTION_COUNT: return "a section of the message has a wrong count";
    case DVS_REFUSED_EMPTY_SET: return "a view in the message has an empty set";
    case DVS_REFUSED_NOT_RISING: return "the identifiers in the message do not rise";
    case DVS_REFUSED_TOLD_OUT_OF_RANGE: return "the count told is not 1 to 128";
    case DVS_REFUSED_BYTES_LEFT_OVER: return "bytes are left over after the message";
    case DVS_REFUSED_BUFFER_TOO_SHORT: return "the buffer is too short for the message";
    case DVS_REFUSED_LINE_UNREADABLE: return "the bench cannot read the line";
    case DVS_REFUSED_ANOTHER_VIEW: return "the message was sent in another view";
    case DVS_REFUSED_SENDER_NOT_IN_VIEW: return "the sender is not in the view";
    case DVS_REFUSED_TOO_MANY_OPEN: return "more than 31 views would be open";
    case DVS_REFUSED_VIEW_NOT_FRESH: return "the view to form is not the newest, or a member has joined it";
    case DVS_REFUSED_FORM_TEST_FAILED: return "the view to form has no majority of a view that one of its members holds";
    case DVS_REFUSED_TOO_FEW_PLACES: return "the buffer of identifiers is shorter than the list";
  }
  return "no refusal of this library";
}

#endif
