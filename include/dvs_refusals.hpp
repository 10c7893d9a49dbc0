// dvs_refusals.hpp: the refusals as an enumeration; dvs_types.hpp includes it. It is written from docs/REFUSALS.md, which has a section for each.
#ifndef DVS_REFUSALS_HPP
#define DVS_REFUSALS_HPP

#include "dvs_refusals.h"

#include <cstdint>

namespace dvs {

// Why a call was refused. Later versions may have more: a switch needs a default.
enum class Refusal : std::uint32_t {
  none = DVS_ACCEPTED,
  members_out_of_range = DVS_REFUSED_MEMBERS_OUT_OF_RANGE,
  first_set_unfit = DVS_REFUSED_FIRST_SET_UNFIT,
  list_length = DVS_REFUSED_LIST_LENGTH,
  records_unsound = DVS_REFUSED_RECORDS_UNSOUND,
  unknown_step = DVS_REFUSED_UNKNOWN_STEP,
  no_such_member = DVS_REFUSED_NO_SUCH_MEMBER,
  set_unfit = DVS_REFUSED_SET_UNFIT,
  identifier_not_above = DVS_REFUSED_IDENTIFIER_NOT_ABOVE,
  list_full = DVS_REFUSED_LIST_FULL,
  no_such_view = DVS_REFUSED_NO_SUCH_VIEW,
  not_in_set = DVS_REFUSED_NOT_IN_SET,
  not_above_carrier = DVS_REFUSED_NOT_ABOVE_CARRIER,
  no_carrier_view = DVS_REFUSED_NO_CARRIER_VIEW,
  none_outgoing = DVS_REFUSED_NONE_OUTGOING,
  waiting_full = DVS_REFUSED_WAITING_FULL,
  order_full = DVS_REFUSED_ORDER_FULL,
  none_waiting = DVS_REFUSED_NONE_WAITING,
  none_to_deliver = DVS_REFUSED_NONE_TO_DELIVER,
  not_above_client = DVS_REFUSED_NOT_ABOVE_CLIENT,
  info_missing = DVS_REFUSED_INFO_MISSING,
  test_failed = DVS_REFUSED_TEST_FAILED,
  no_client_view = DVS_REFUSED_NO_CLIENT_VIEW,
  already_registered = DVS_REFUSED_ALREADY_REGISTERED,
  outgoing_full = DVS_REFUSED_OUTGOING_FULL,
  none_to_hand = DVS_REFUSED_NONE_TO_HAND,
  client_not_carrier = DVS_REFUSED_CLIENT_NOT_CARRIER,
  nothing_new_to_tell = DVS_REFUSED_NOTHING_NEW_TO_TELL,
  none_to_report = DVS_REFUSED_NONE_TO_REPORT,
  told_too_low = DVS_REFUSED_TOLD_TOO_LOW,
  not_above_settled = DVS_REFUSED_NOT_ABOVE_SETTLED,
  registration_missing = DVS_REFUSED_REGISTRATION_MISSING,
  ends_early = DVS_REFUSED_ENDS_EARLY,
  unknown_kind = DVS_REFUSED_UNKNOWN_KIND,
  section_count = DVS_REFUSED_SECTION_COUNT,
  empty_set = DVS_REFUSED_EMPTY_SET,
  not_rising = DVS_REFUSED_NOT_RISING,
  told_out_of_range = DVS_REFUSED_TOLD_OUT_OF_RANGE,
  bytes_left_over = DVS_REFUSED_BYTES_LEFT_OVER,
  buffer_too_short = DVS_REFUSED_BUFFER_TOO_SHORT,
  line_unreadable = DVS_REFUSED_LINE_UNREADABLE,
  another_view = DVS_REFUSED_ANOTHER_VIEW,
  sender_not_in_view = DVS_REFUSED_SENDER_NOT_IN_VIEW,
  too_many_open = DVS_REFUSED_TOO_MANY_OPEN,
  view_not_fresh = DVS_REFUSED_VIEW_NOT_FRESH,
  form_test_failed = DVS_REFUSED_FORM_TEST_FAILED,
  too_few_places = DVS_REFUSED_TOO_FEW_PLACES,
};

constexpr std::uint32_t number(Refusal refusal) noexcept { return static_cast<std::uint32_t>(refusal); }

// The refusal in plain words, for a log.
constexpr const char *text(Refusal refusal) noexcept { return dvs_refusal_text(number(refusal)); }

}  // namespace dvs

#endif
