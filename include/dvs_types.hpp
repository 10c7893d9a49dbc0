// dvs_types.hpp: the values that dvs.hpp takes and gives: ranges of bytes, refusals and results, members, sets and views, events, messages, deliveries.
//
// For programs that name them and make no call; dvs.hpp includes it. Nothing here calls the library.
#ifndef DVS_TYPES_HPP
#define DVS_TYPES_HPP

#if !defined(__cplusplus) || (__cplusplus < 201703L && !(defined(_MSVC_LANG) && _MSVC_LANG >= 201703L))
#error "dvs.hpp and dvs_types.hpp need C++17 or newer; dvs.h is for C and for older C++"
#endif

#include "dvs.h"
#include "dvs_refusals.hpp"

#include <array>
#include <cassert>
#include <cstddef>
#include <cstdint>
#include <initializer_list>
#include <iterator>
#include <optional>
#include <type_traits>
#include <utility>
#if __cplusplus >= 202002L
#include <version>
#endif
#ifdef __cpp_lib_span
#include <span>
#endif

// The types differ with std::span, so each sort has a namespace of its own: parts of a program compiled with it and without it link, and do not mix.
#ifdef __cpp_lib_span
#define DVS_INLINE_NAMESPACE cpp20
#else
#define DVS_INLINE_NAMESPACE cpp17
#endif

namespace dvs {
inline namespace DVS_INLINE_NAMESPACE {

// ---- ranges of bytes

namespace detail {

// What data() points at, of an argument that a function takes as Owner &&. A temporary counts as const, so that no range to write to is made from it.
template <class Owner>
using Element = std::remove_pointer_t<decltype(std::data(std::declval<const Owner &>()))>;

// Whether a range of T may be made from a pointer to Byte, a char or a std::byte.
template <class Byte, class T>
constexpr bool is_other_byte = (std::is_same_v<std::remove_const_t<Byte>, char> || std::is_same_v<std::remove_const_t<Byte>, std::byte>) &&
                               (std::is_const_v<T> || !std::is_const_v<Byte>);

// Whether Owner is a view of bytes that it does not own: it is made from a pointer and a length, and copied as these.
template <class Owner, class Byte>
constexpr bool is_view = std::is_trivially_copyable_v<Owner> && std::is_constructible_v<Owner, Byte *, std::size_t>;

// This type exists only if Owner && is a temporary that owns its bytes. What keeps a view of its argument deletes the overload for such a temporary, since
// the view would outlive the bytes.
template <class Owner>
using Temporary = std::enable_if_t<!std::is_lvalue_reference_v<Owner> && !is_view<Owner, Element<Owner>>>;

}  // namespace detail

#ifndef __cpp_lib_span
// In a namespace of its own, so that a host's call with a range does not find the functions of detail beside the host's.
namespace before_cpp20 {

// A pointer and a length, made from an array or from anything with data() and size(), as std::span is.
template <class T>
class Span {
 public:
  constexpr Span() noexcept = default;
  constexpr Span(T *data, std::size_t size) noexcept : data_(data), size_(size) {}
  template <class Owner, class = std::enable_if_t<std::is_convertible_v<detail::Element<Owner> *, T *>>>
  constexpr Span(Owner &&owner) noexcept : data_(std::data(owner)), size_(std::size(owner)) {}

  constexpr T *data() const noexcept { return data_; }
  constexpr std::size_t size() const noexcept { return size_; }
  constexpr bool empty() const noexcept { return size_ == 0; }
  constexpr T *begin() const noexcept { return data_; }
  constexpr T *end() const noexcept { return data_ + size_; }
  constexpr T &operator[](std::size_t place) const noexcept { return data_[place]; }

 private:
  T *data_ = nullptr;
  std::size_t size_ = 0;
};

}  // namespace before_cpp20
#endif

namespace detail {

#ifdef __cpp_lib_span
template <class T>
using Span = std::span<T>;
#else
template <class T>
using Span = before_cpp20::Span<T>;
#endif

}  // namespace detail

// A span of bytes that may be made from a buffer of char or std::byte too.
template <class T>
class Range : public detail::Span<T> {
  using Base = detail::Span<T>;

 public:
  using Base::Base;
  constexpr Range() noexcept = default;
  constexpr Range(Base bytes) noexcept : Base(bytes) {}
  template <class Byte, std::enable_if_t<detail::is_other_byte<Byte, T>, int> = 0>
  Range(Byte *data, std::size_t size) noexcept : Base(reinterpret_cast<T *>(data), size) {}
  template <class Owner, std::enable_if_t<detail::is_other_byte<detail::Element<Owner &>, T>, int> = 0>
  Range(Owner &owner) noexcept : Range(std::data(owner), std::size(owner)) {}
  template <class Owner, std::enable_if_t<detail::is_other_byte<detail::Element<Owner>, T>, int> = 0>
  Range(const Owner &owner) noexcept : Range(std::data(owner), std::size(owner)) {}
  // A literal ends with a null character, which would be taken for a byte of it.
  template <std::size_t Size>
  Range(const char (&literal)[Size]) = delete;
};
using Bytes = Range<const std::uint8_t>;
using MutableBytes = Range<std::uint8_t>;

}  // namespace DVS_INLINE_NAMESPACE
}  // namespace dvs

// As std::span, a range does not own what it points at.
#ifdef __cpp_lib_ranges
template <class T>
inline constexpr bool std::ranges::enable_borrowed_range<dvs::Range<T>> = true;
template <class T>
inline constexpr bool std::ranges::enable_view<dvs::Range<T>> = true;
#endif

namespace dvs {
inline namespace DVS_INLINE_NAMESPACE {

// ---- refusals and results

struct Delivery;

namespace detail {

template <class T>
constexpr bool is_optional = false;
template <class T>
constexpr bool is_optional<std::optional<T>> = true;

}  // namespace detail

// What a call gives: a value, or the refusal in its place. To take the value of a refused call is a fault of the program: an assert ends it, and with
// NDEBUG the value is T{}. A Result without a name gives its value away and has no arrow, so that nothing can point into it once it is gone.
template <class T>
class [[nodiscard]] Result {
 public:
  constexpr Result(const T &value) noexcept : value_(value) {}
  constexpr Result(Refusal refusal) noexcept : refusal_(refusal) {}

  constexpr bool accepted() const noexcept { return refusal_ == Refusal::none; }
  template <class Value = T, std::enable_if_t<!detail::is_optional<Value>, int> = 0>
  constexpr explicit operator bool() const & noexcept { return accepted(); }
  // A delivery without a name is not tested: an accepted packet may have been stopped, and what stopped it would be lost. whole(…) is the test.
  template <class Value = T, class = std::enable_if_t<std::is_same_v<Value, Delivery>>>
  explicit operator bool() const && = delete;
  // A result that may hold 'none' has no test, because `if (result)` could mean two things. accepted() says whether there is an answer, value() has it.
  template <class Value = T, std::enable_if_t<detail::is_optional<Value>, int> = 0>
  explicit operator bool() const & = delete;
  constexpr Refusal refusal() const noexcept { return refusal_; }
  constexpr const T &value() const & noexcept { return given(); }
  constexpr T value() && noexcept { return given(); }
  constexpr const T &operator*() const & noexcept { return given(); }
  constexpr T operator*() && noexcept { return given(); }
  constexpr const T *operator->() const & noexcept { return &given(); }
  const T *operator->() const && = delete;

 private:
  constexpr const T &given() const noexcept {
    assert(accepted() && "the value of a refused call");
    return value_;
  }

  Refusal refusal_ = Refusal::none;
  T value_{};
};

template <>
class [[nodiscard]] Result<void> {
 public:
  constexpr Result() noexcept = default;
  constexpr Result(Refusal refusal) noexcept : refusal_(refusal) {}

  constexpr bool accepted() const noexcept { return refusal_ == Refusal::none; }
  constexpr explicit operator bool() const noexcept { return accepted(); }
  constexpr Refusal refusal() const noexcept { return refusal_; }

 private:
  Refusal refusal_ = Refusal::none;
};

// ---- members, sets and views

// Two sorts of number, neither taken where the other is due: Member{2}, Identifier{7}.
enum class Member : std::uint32_t {};
enum class Identifier : std::uint32_t {};

constexpr std::uint32_t number(Member member) noexcept { return static_cast<std::uint32_t>(member); }
constexpr std::uint32_t number(Identifier identifier) noexcept { return static_cast<std::uint32_t>(identifier); }

// A set of members, bit 0 for member 0. It is as wide as the calls take it: a member of 8 and above stays in it, all of 31 and above as 31, and every
// call refuses such a set.
struct Set {
  static constexpr std::uint32_t kLast = 31;
  std::uint32_t bits = 0;

  constexpr Set() noexcept = default;
  constexpr explicit Set(std::uint32_t members) noexcept : bits(members) {}
  constexpr Set(std::initializer_list<Member> members) noexcept {
    for (Member member : members) *this = with(member);
  }
  // The members 0 to `members` - 1.
  static constexpr Set below(std::uint32_t members) noexcept { return Set(members <= kLast ? (1u << members) - 1u : 0xFFFFFFFFu); }

  constexpr Set with(Member member) const noexcept { return Set(bits | 1u << (number(member) < kLast ? number(member) : kLast)); }
  constexpr bool has(Member member) const noexcept { return number(member) <= kLast && (bits >> number(member) & 1u) != 0; }
  constexpr bool empty() const noexcept { return bits == 0; }
  constexpr unsigned count() const noexcept {
    unsigned members = 0;
    for (std::uint32_t rest = bits; rest != 0; rest >>= 1u) members += rest & 1u;
    return members;
  }

  // The members, rising: for (dvs::Member member : set).
  class Iterator {
   public:
    using iterator_category = std::forward_iterator_tag;
    using value_type = Member;
    using difference_type = std::ptrdiff_t;
    using pointer = const Member *;
    using reference = Member;

    constexpr Iterator() noexcept = default;
    constexpr explicit Iterator(std::uint32_t rest) noexcept : rest_(rest) {}
    constexpr Member operator*() const noexcept {
      std::uint32_t member = 0;
      while ((rest_ >> member & 1u) == 0) ++member;
      return Member{member};
    }
    constexpr Iterator &operator++() noexcept {
      rest_ &= rest_ - 1u;
      return *this;
    }
    constexpr Iterator operator++(int) noexcept {
      const Iterator before = *this;
      ++*this;
      return before;
    }
    friend constexpr bool operator==(Iterator a, Iterator b) noexcept { return a.rest_ == b.rest_; }
    friend constexpr bool operator!=(Iterator a, Iterator b) noexcept { return a.rest_ != b.rest_; }

   private:
    std::uint32_t rest_ = 0;
  };
  constexpr Iterator begin() const noexcept { return Iterator(bits); }
  constexpr Iterator end() const noexcept { return Iterator(); }
};
constexpr bool operator==(Set a, Set b) noexcept { return a.bits == b.bits; }
constexpr bool operator!=(Set a, Set b) noexcept { return a.bits != b.bits; }
constexpr Set operator&(Set a, Set b) noexcept { return Set(a.bits & b.bits); }
constexpr Set operator|(Set a, Set b) noexcept { return Set(a.bits | b.bits); }
// Those of a that are not in b.
constexpr Set operator-(Set a, Set b) noexcept { return Set(a.bits & ~b.bits); }

struct View {
  Identifier identifier{};
  Set set{};
};
constexpr bool operator==(View a, View b) noexcept { return a.identifier == b.identifier && a.set == b.set; }
constexpr bool operator!=(View a, View b) noexcept { return !(a == b); }

// Up to 32 items by value: one for each view that a group can have.
template <class Item>
class ShortList {
 public:
  constexpr std::size_t size() const noexcept { return size_; }
  constexpr bool empty() const noexcept { return size_ == 0; }
  constexpr const Item *begin() const noexcept { return places_.data(); }
  constexpr const Item *end() const noexcept { return places_.data() + size_; }
  constexpr const Item &operator[](std::size_t place) const noexcept { return places_[place]; }
  // Returns false, and changes nothing, if the list is full.
  constexpr bool push_back(Item item) noexcept {
    if (size_ == places_.size()) return false;
    places_[size_++] = item;
    return true;
  }

 private:
  std::array<Item, DVS_VIEWS> places_{};
  std::size_t size_ = 0;
};
template <class Item>
constexpr bool operator==(const ShortList<Item> &a, const ShortList<Item> &b) noexcept {
  if (a.size() != b.size()) return false;
  for (std::size_t i = 0; i < a.size(); ++i)
    if (a[i] != b[i]) return false;
  return true;
}
template <class Item>
constexpr bool operator!=(const ShortList<Item> &a, const ShortList<Item> &b) noexcept { return !(a == b); }

using ViewList = ShortList<View>;
using Identifiers = ShortList<Identifier>;

// ---- numbers in bytes: big-endian; what lies beyond the end reads as 0

namespace detail {

constexpr std::uint64_t get(Bytes bytes, std::size_t at, std::size_t width) noexcept {
  std::uint64_t value = 0;
  for (std::size_t i = at; i < at + width; ++i) value = value << 8u | (i < bytes.size() ? bytes[i] : 0u);
  return value;
}

constexpr void put(MutableBytes bytes, std::size_t at, std::size_t width, std::uint64_t value) noexcept {
  for (std::size_t i = at + width; i > at; value >>= 8u) bytes[--i] = static_cast<std::uint8_t>(value & 0xFFu);
}

constexpr std::uint8_t byte(Bytes bytes, std::size_t at) noexcept { return static_cast<std::uint8_t>(get(bytes, at, 1)); }

constexpr View view(Bytes bytes, std::size_t at) noexcept {
  return {static_cast<Identifier>(get(bytes, at + DVS_VIEW_IDENTIFIER, 4)), Set(byte(bytes, at + DVS_VIEW_SET))};
}

// A set in its byte; one that no byte holds goes as the empty set, which is refused too.
constexpr std::uint8_t set_byte(Set set) noexcept { return static_cast<std::uint8_t>(set.bits <= 0xFFu ? set.bits : 0u); }

using EventBytes = std::array<std::uint8_t, DVS_EVENT_SIZE>;
using LengthBytes = std::array<std::uint8_t, DVS_LENGTH_SIZE>;
using DeliveryBytes = std::array<std::uint8_t, DVS_DELIVERY_SIZE>;
using FoundBytes = std::array<std::uint8_t, DVS_FOUND_SIZE>;
using IdentifiersBytes = std::array<std::uint8_t, DVS_IDENTIFIER_SIZE * DVS_VIEWS>;

}  // namespace detail

// ---- events

// Later versions may have more: a switch needs a default.
enum class EventKind : std::uint8_t {
  none = 0,
  attempted = DVS_STEP_ATTEMPT,
  registered = DVS_STEP_REGISTER,
  sent = DVS_STEP_SEND,
  handed = DVS_STEP_HAND,
  safe = DVS_STEP_SAFE,
};

// An outward event. What an event does not have is 0.
struct Event {
  EventKind kind = EventKind::none;
  Member member{};
  Identifier view{};         // the client view
  Set set{};                 // its set: attempted
  Member sender{};           // handed, safe
  std::uint64_t entry = 0;   // sent, handed, safe

  static constexpr Event from(Bytes bytes) noexcept {
    return {static_cast<EventKind>(detail::byte(bytes, DVS_EVENT_KIND)),
            static_cast<Member>(detail::byte(bytes, DVS_EVENT_MEMBER)),
            static_cast<Identifier>(detail::get(bytes, DVS_EVENT_VIEW, 4)),
            Set(detail::byte(bytes, DVS_EVENT_SET)),
            static_cast<Member>(detail::byte(bytes, DVS_EVENT_SENDER)),
            detail::get(bytes, DVS_EVENT_ENTRY, 8)};
  }
};
constexpr bool operator==(const Event &a, const Event &b) noexcept {
  return a.kind == b.kind && a.member == b.member && a.view == b.view && a.set == b.set && a.sender == b.sender && a.entry == b.entry;
}
constexpr bool operator!=(const Event &a, const Event &b) noexcept { return !(a == b); }

// The events of a view that was formed by one call, Group::form, in their order: each of its members attempts it, then each registers in it, rising.
class FormedEvents {
 public:
  constexpr explicit FormedEvents(View view) noexcept {
    for (Member member : members_of(view)) places_[size_++] = {EventKind::attempted, member, view.identifier, view.set, {}, 0};
    for (Member member : members_of(view)) places_[size_++] = {EventKind::registered, member, view.identifier, {}, {}, 0};
  }

  constexpr std::size_t size() const noexcept { return size_; }
  constexpr bool empty() const noexcept { return size_ == 0; }
  constexpr const Event *begin() const noexcept { return places_.data(); }
  constexpr const Event *end() const noexcept { return places_.data() + size_; }
  constexpr const Event &operator[](std::size_t place) const noexcept { return places_[place]; }

 private:
  // No view has a member beyond the eighth.
  static constexpr Set members_of(View view) noexcept { return view.set & Set::below(DVS_MEMBERS); }

  std::array<Event, 2 * DVS_MEMBERS> places_{};
  std::size_t size_ = 0;
};

// ---- steps of a group, and the answers of a run

enum class StepKind : std::uint8_t {
  create = DVS_STEP_CREATE,
  join = DVS_STEP_JOIN,
  pass = DVS_STEP_PASS,
  order = DVS_STEP_ORDER,
  deliver = DVS_STEP_DELIVER,
  attempt = DVS_STEP_ATTEMPT,
  register_view = DVS_STEP_REGISTER,
  send = DVS_STEP_SEND,
  hand = DVS_STEP_HAND,
  tell = DVS_STEP_TELL,
  safe = DVS_STEP_SAFE,
  collect = DVS_STEP_COLLECT,
};

// A step with its operands, 0 for those it does not have; the functions make each kind from what it is about.
struct Step {
  StepKind kind{};
  std::uint32_t first = 0;    // create: the identifier; the others: the member
  std::uint64_t second = 0;   // create: the set; join, order: the identifier; send: the entry number

  static constexpr Step create(View view) noexcept { return {StepKind::create, number(view.identifier), view.set.bits}; }
  static constexpr Step join(Member member, Identifier view) noexcept { return {StepKind::join, number(member), number(view)}; }
  static constexpr Step pass(Member member) noexcept { return {StepKind::pass, number(member), 0}; }
  static constexpr Step order(Member member, Identifier view) noexcept { return {StepKind::order, number(member), number(view)}; }
  static constexpr Step deliver(Member member) noexcept { return {StepKind::deliver, number(member), 0}; }
  static constexpr Step attempt(Member member) noexcept { return {StepKind::attempt, number(member), 0}; }
  static constexpr Step register_view(Member member) noexcept { return {StepKind::register_view, number(member), 0}; }
  static constexpr Step send(Member member, std::uint64_t entry) noexcept { return {StepKind::send, number(member), entry}; }
  static constexpr Step hand(Member member) noexcept { return {StepKind::hand, number(member), 0}; }
  static constexpr Step tell(Member member) noexcept { return {StepKind::tell, number(member), 0}; }
  static constexpr Step safe(Member member) noexcept { return {StepKind::safe, number(member), 0}; }
  static constexpr Step collect(Member member) noexcept { return {StepKind::collect, number(member), 0}; }

  // Its record in a run.
  static constexpr Step from(Bytes bytes) noexcept {
    return {static_cast<StepKind>(detail::byte(bytes, DVS_STEP_KIND)), static_cast<std::uint32_t>(detail::get(bytes, DVS_STEP_FIRST, 4)),
            detail::get(bytes, DVS_STEP_SECOND, 8)};
  }
  constexpr std::array<std::uint8_t, DVS_STEP_SIZE> bytes() const noexcept {
    std::array<std::uint8_t, DVS_STEP_SIZE> record{};
    record[DVS_STEP_KIND] = static_cast<std::uint8_t>(kind);
    detail::put(record, DVS_STEP_FIRST, 4, first);
    detail::put(record, DVS_STEP_SECOND, 8, second);
    return record;
  }
};
constexpr bool operator==(const Step &a, const Step &b) noexcept { return a.kind == b.kind && a.first == b.first && a.second == b.second; }
constexpr bool operator!=(const Step &a, const Step &b) noexcept { return !(a == b); }

// What a run answered to a step.
struct Answer {
  Refusal refusal = Refusal::none;
  Event event{};

  static constexpr Answer from(Bytes bytes) noexcept {
    const bool whole = bytes.size() >= DVS_ANSWER_SIZE;
    return {static_cast<Refusal>(detail::byte(bytes, DVS_ANSWER_NUMBER)),
            Event::from(whole ? Bytes(bytes.data() + DVS_ANSWER_EVENT, DVS_EVENT_SIZE) : Bytes())};
  }
};
constexpr bool operator==(const Answer &a, const Answer &b) noexcept { return a.refusal == b.refusal && a.event == b.event; }
constexpr bool operator!=(const Answer &a, const Answer &b) noexcept { return !(a == b); }

// ---- messages

// Later versions may have more: a switch needs a default.
enum class MessageKind : std::uint8_t { client = DVS_CLIENT, info = DVS_INFO, registered = DVS_REGISTERED, told = DVS_TOLD };

// The message's record, as the library lays it out.
using MessageRecord = std::array<std::uint8_t, DVS_MESSAGE_SIZE>;

// A message in plain values; dvs::read and dvs::write take it from bytes and put it into them.
struct Message {
  MessageKind kind{};
  Identifier view{};          // the view sent in
  std::uint64_t number = 0;   // client: the entry number; told: the count
  ViewList views{};           // info: the settled view, then the open ones, identifiers rising

  static constexpr Message from(const MessageRecord &record) noexcept {
    Message message{static_cast<MessageKind>(record[DVS_MESSAGE_KIND]), static_cast<Identifier>(detail::get(record, DVS_MESSAGE_VIEW, 4)),
                    detail::get(record, DVS_MESSAGE_NUMBER, 8), {}};
    for (std::size_t i = 0; i < record[DVS_MESSAGE_COUNT] && i < DVS_VIEWS; ++i)
      message.views.push_back(detail::view(record, DVS_MESSAGE_VIEWS + DVS_VIEW_SIZE * i));
    return message;
  }

  constexpr MessageRecord record() const noexcept {
    MessageRecord bytes{};
    bytes[DVS_MESSAGE_KIND] = static_cast<std::uint8_t>(kind);
    detail::put(bytes, DVS_MESSAGE_VIEW, 4, dvs::number(view));
    detail::put(bytes, DVS_MESSAGE_NUMBER, 8, number);
    bytes[DVS_MESSAGE_COUNT] = static_cast<std::uint8_t>(views.size());
    for (std::size_t i = 0; i < views.size(); ++i) {
      detail::put(bytes, DVS_MESSAGE_VIEWS + DVS_VIEW_SIZE * i, 4, dvs::number(views[i].identifier));
      bytes[DVS_MESSAGE_VIEWS + DVS_VIEW_SIZE * i + DVS_VIEW_SET] = detail::set_byte(views[i].set);
    }
    return bytes;
  }
};
constexpr bool operator==(const Message &a, const Message &b) noexcept {
  return a.kind == b.kind && a.view == b.view && a.number == b.number && a.views == b.views;
}
constexpr bool operator!=(const Message &a, const Message &b) noexcept { return !(a == b); }

// A message's bytes as they go over the line. What bytes() gives lies in it, so it has to have a name: auto message = book.pass(); message->bytes().
struct MessageBytes {
  std::array<std::uint8_t, DVS_LONGEST> places{};
  std::size_t length = 0;

  constexpr Bytes bytes() const & noexcept { return {places.data(), length}; }
  Bytes bytes() const && = delete;
};
constexpr bool operator==(const MessageBytes &a, const MessageBytes &b) noexcept {
  if (a.length != b.length) return false;
  for (std::size_t i = 0; i < a.length && i < DVS_LONGEST; ++i)
    if (a.places[i] != b.places[i]) return false;
  return true;
}
constexpr bool operator!=(const MessageBytes &a, const MessageBytes &b) noexcept { return !(a == b); }

// ---- packets: messages one behind the other

// The message at the front of some bytes, and how many of them it took.
struct Front {
  Message message{};
  std::size_t taken = 0;
};
constexpr bool operator==(const Front &a, const Front &b) noexcept { return a.message == b.message && a.taken == b.taken; }
constexpr bool operator!=(const Front &a, const Front &b) noexcept { return !(a == b); }

// What a packet came to. A stop is no refusal of the call: the messages before it stay taken, and the one that it refused changed nothing.
struct Delivery {
  std::size_t delivered = 0;
  Refusal stopped = Refusal::none;   // none: every message was taken

  constexpr bool whole() const noexcept { return stopped == Refusal::none; }

  static constexpr Delivery from(Bytes bytes) noexcept {
    return {static_cast<std::size_t>(detail::get(bytes, DVS_DELIVERY_COUNT, 4)), static_cast<Refusal>(detail::byte(bytes, DVS_DELIVERY_STOPPED))};
  }
};
constexpr bool operator==(const Delivery &a, const Delivery &b) noexcept { return a.delivered == b.delivered && a.stopped == b.stopped; }
constexpr bool operator!=(const Delivery &a, const Delivery &b) noexcept { return !(a == b); }

// Whether the call was accepted and took the whole packet.
constexpr bool whole(const Result<Delivery> &taken) noexcept { return taken.accepted() && taken->whole(); }

}  // namespace DVS_INLINE_NAMESPACE
}  // namespace dvs

#endif
