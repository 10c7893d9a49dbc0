// What dvs::GroupReader and dvs::Group say about attempted views: each case by the group, by a reader that was made before it, and by a reader of const
// memory. The answers are worked out by hand from docs/SPEC.md, 'The queries'.
#include "dvs.hpp"
#include "expect.hpp"

#include <cstddef>
#include <cstdio>
#include <initializer_list>
#include <optional>
#include <type_traits>
#include <utility>
#include <vector>

namespace {

using dvs::Identifier;
using dvs::Member;
using dvs::Refusal;
using dvs::Set;
using dvs::View;
using Found = dvs::Result<std::optional<View>>;

// A list of identifiers is a value, as a list of views is.
constexpr dvs::Identifiers listed(std::uint32_t count) {
  dvs::Identifiers list;
  for (std::uint32_t i = 0; i < count; ++i) list.push_back(Identifier{7 * i});
  return list;
}
static_assert(std::is_trivially_copyable_v<dvs::Identifiers> && std::is_trivially_copyable_v<dvs::GroupReader>);
static_assert(listed(0).empty() && listed(0).size() == 0 && listed(0) == dvs::Identifiers{} && !listed(1).empty());
static_assert(listed(3).size() == 3 && listed(3)[2] == Identifier{14} && *listed(3).begin() == Identifier{0});
static_assert(listed(3) == listed(3) && listed(3) != listed(2) && listed(1) != dvs::Identifiers{});
static_assert(listed(32).size() == 32 && listed(33) == listed(32) && listed(32) != listed(31));

// 'Accepted, and there is none' cannot be taken for 'there is one': such a result has no test, neither with a name nor without.
static_assert(!std::is_constructible_v<bool, Found> && !std::is_constructible_v<bool, const Found &>);
static_assert(std::is_constructible_v<bool, const dvs::Result<dvs::Identifiers> &> && std::is_constructible_v<bool, dvs::Result<dvs::Identifiers>>);

bool is(const dvs::Result<dvs::Identifiers> &result, std::initializer_list<std::uint32_t> wanted) {
  dvs::Identifiers list;
  for (std::uint32_t identifier : wanted) EXPECT(list.push_back(Identifier{identifier}));
  return result && *result == list;
}
bool is(const Found &result, View wanted) { return result.accepted() && *result && **result == wanted; }
bool is_none(const Found &result) { return result.accepted() && !*result && result.value() == std::nullopt; }

// A group with its reader, made before the start, and a reader of the memory as const.
template <std::size_t Views>
struct Asked {
  dvs::GroupMemory<Views> memory{};
  dvs::Group group{memory};
  const dvs::GroupReader reader = group, of_memory{std::as_const(memory)};

  template <class Ask>
  auto all(Ask ask) const {
    const auto answer = ask(group), by_reader = ask(reader), by_memory = ask(of_memory);
    EXPECT(answer.refusal() == by_reader.refusal() && answer.refusal() == by_memory.refusal());
    EXPECT(!answer.accepted() || (*answer == *by_reader && *answer == *by_memory));
    return answer;
  }
  auto crossing(Set set) const { return all([=](const auto &by) { return by.crossing(set); }); }
  auto holding(Set set) const { return all([=](const auto &by) { return by.holding(set); }); }
  auto before(std::uint32_t view) const { return all([=](const auto &by) { return by.newest_before(Identifier{view}); }); }
  bool attempted(std::size_t place) const {
    EXPECT(group.attempted(place) == reader.attempted(place) && group.attempted(place) == of_memory.attempted(place));
    return group.attempted(place);
  }
  bool refuses(Refusal refusal) const {
    return crossing(Set{1}).refusal() == refusal && holding(Set{1}).refusal() == refusal && before(1).refusal() == refusal;
  }
};

// A group that has just started has attempted its first view and no other. Its set need not be everyone.
void at_once() {
  static Asked<1> one;
  EXPECT(one.refuses(Refusal::records_unsound) && one.reader.check().refusal() == Refusal::records_unsound);
  EXPECT(one.group.start(5, Set{31}) && one.reader.check() && one.reader.made() == 1 && one.reader.look(Member{4}).own() == Member{4});
  EXPECT(is(one.crossing(Set{31}), {0}) && is(one.crossing(Set{8}), {0}) && is(one.holding(Set{8}), {}) && is(one.holding(Set{3}), {}));
  EXPECT(is(one.holding(Set{7}), {0}) && one.attempted(0) && !one.attempted(1) && !one.attempted(31) && !one.attempted(32) && !one.attempted(64));
  EXPECT(is_none(one.before(0)) && is(one.before(1), {Identifier{0}, Set{31}}) && is(one.before(0xFFFFFFFFu), {Identifier{0}, Set{31}}));
  EXPECT(one.group.start(5, Set{7}) && is(one.crossing(Set{24}), {}) && is(one.crossing(Set{12}), {0}) && is(one.before(9), {Identifier{0}, Set{7}}));
}

// 7 for a set that is empty or has a member that there is none of, checked after 4, whose causes are the group's bytes alone. Bytes that are refused are
// any that were not started, a mark of a view that was not made, and another layout's number.
void refusals() {
  static Asked<2> two;
  EXPECT(two.crossing(Set{}).refusal() == Refusal::records_unsound && two.holding(Set{32}).refusal() == Refusal::records_unsound);
  EXPECT(two.group.start(5, Set{31}));
  for (Set set : {Set{}, Set{32}, Set{33}, Set{256}, Set{257}, Set::below(9), Set{Member{0}, Member{40}}})
    EXPECT(two.crossing(set).refusal() == Refusal::set_unfit && two.holding(set).refusal() == Refusal::set_unfit);
  for (std::size_t place : {DVS_QUEUES_MARKS + 3u, DVS_QUEUES_LAYOUT}) {
    two.memory.queues[place] ^= 2;
    EXPECT(two.refuses(Refusal::records_unsound) && two.reader.check().refusal() == Refusal::records_unsound);
    two.memory.queues[place] ^= 2;
  }
  EXPECT(two.group.create({Identifier{1}, Set{1}}) && is(two.crossing(Set{1}), {0}));
  two.memory.queues[DVS_QUEUES_MARKS + 3] ^= 2;
  EXPECT(is(two.crossing(Set{1}), {1, 0}) && two.attempted(1));
  const dvs::GroupReader cut(two.memory.list, two.memory.books, dvs::Bytes(two.memory.queues.data(), two.memory.queues.size() - 1));
  EXPECT(cut.crossing(Set{1}).refusal() == Refusal::records_unsound && cut.newest_before(Identifier{1}).refusal() == Refusal::records_unsound);
}

// Takes a view to the point before its attempts: every member of it has joined, and has taken every info.
void prepare(dvs::Group &group, View view) {
  EXPECT(group.create(view));
  for (Member member : view.set) EXPECT(group.join(member, view.identifier) && group.pass(member) && group.order(member, view.identifier));
  for (Member member : view.set)
    for (unsigned i = 0; i < view.set.count(); ++i) EXPECT(group.deliver(member));
}

// A view counts from the first attempt on, by whomever, and also after all books have forgotten it.
void stages() {
  static Asked<5> five;
  dvs::Group &group = five.group;
  const View third{Identifier{3}, Set{7}}, ninth{Identifier{9}, Set{11}}, last{Identifier{12}, Set{3}};
  EXPECT(group.start(5, Set{31}));
  prepare(group, third);
  EXPECT(is(five.crossing(Set{31}), {0}) && is(five.holding(Set{7}), {0}) && is(five.before(4), {Identifier{0}, Set{31}}) && !five.attempted(1));
  EXPECT(group.attempt(Member{1}) && is(five.crossing(Set{31}), {3, 0}) && five.attempted(1) && !five.attempted(2) && five.reader.made() == 2);
  EXPECT(is(five.before(4), third) && is(five.before(3), {Identifier{0}, Set{31}}) && is(five.before(2), {Identifier{0}, Set{31}}));

  // To share a member is less than to hold a majority, and a majority is of the view's members: one of three against three of five, and the reverse.
  EXPECT(is(five.crossing(Set{28}), {3, 0}) && is(five.holding(Set{28}), {0}) && is(five.holding(Set{3}), {3}) && is(five.holding(Set{8}), {}));

  // Views that are formed by one call.
  EXPECT(group.create(ninth) && is(five.crossing(Set{31}), {3, 0}) && group.form(ninth.identifier) && is(five.crossing(Set{31}), {9, 3, 0}));
  EXPECT(group.create(last) && group.form(last.identifier));
  for (Member member : Set::below(5)) EXPECT(five.reader.look(member).open().empty() && five.reader.look(member).settled() != third);
  EXPECT(is(five.crossing(Set{31}), {12, 9, 3, 0}) && is(five.crossing(Set{4}), {3, 0}) && is(five.crossing(Set{8}), {9, 0}));
  EXPECT(is(five.holding(Set{7}), {12, 9, 3, 0}) && is(five.holding(Set{3}), {12, 9, 3}) && is(five.holding(Set{1}), {}) && is(five.crossing(Set{16}), {0}));

  // The newest view was made and nobody has joined it.
  EXPECT(group.create({Identifier{15}, Set{1}}) && is(five.crossing(Set{1}), {12, 9, 3, 0}) && is(five.before(16), last) && is(five.before(12), ninth));
  EXPECT(is(five.before(11), ninth) && is(five.before(9), third) && is(five.before(1), {Identifier{0}, Set{31}}) && is_none(five.before(0)));
  EXPECT(five.attempted(3) && !five.attempted(4) && five.reader.ordered(3) == 4 && five.reader.waiting(3, Member{0}) == 0);

  // A refused driver, a refused attempt, and a late attempt of a view that counts already leave the answers as they were.
  EXPECT(!group.form(Identifier{12}) && !group.attempt(Member{4}) && is(five.crossing(Set{31}), {12, 9, 3, 0}));
  EXPECT(group.attempt(Member{2}) && five.reader.look(Member{2}).client() == third && is(five.crossing(Set{31}), {12, 9, 3, 0}));
}

// As many views as a group can have, all attempted, up to the last identifier there is.
void all_views() {
  static Asked<DVS_VIEWS> full;
  EXPECT(full.group.start(1, Set{1}));
  std::vector<std::uint32_t> made = {0};
  for (std::uint32_t i = 1; i < DVS_VIEWS; ++i) {
    made.push_back(i + 1 < DVS_VIEWS ? 0x01020304u * i : 0xFFFFFFFFu);
    EXPECT(full.group.create({Identifier{made.back()}, Set{1}}) && full.group.form(Identifier{made.back()}));
  }
  for (const auto &found : {full.crossing(Set{1}), full.holding(Set{1})}) {
    EXPECT(found && found->size() == DVS_VIEWS);
    for (std::size_t i = 0; i < DVS_VIEWS; ++i) EXPECT((*found)[i] == Identifier{made[DVS_VIEWS - 1 - i]} && full.attempted(i));
  }
  for (std::size_t i = 1; i < DVS_VIEWS; ++i) EXPECT(is(full.before(made[i]), {Identifier{made[i - 1]}, Set{1}}));
}

// A reader of buffers of char and of std::byte, by whole buffers and by pointers and lengths.
template <class Byte>
void buffers_of() {
  static dvs::GroupMemory<1> memory;
  EXPECT(dvs::Group(memory).start(2, Set{3}));
  const auto copy = [](const auto &bytes) {
    const auto *const from = reinterpret_cast<const Byte *>(bytes.data());
    return std::vector<Byte>(from, from + bytes.size());
  };
  const std::vector<Byte> list = copy(memory.list), books = copy(memory.books), queues = copy(memory.queues);
  const dvs::GroupReader whole(list, books, queues), parts({list.data(), list.size()}, {books.data(), books.size()}, {queues.data(), queues.size()});
  for (const dvs::GroupReader &reader : {whole, parts})
    EXPECT(reader.check() && is(reader.crossing(Set{2}), {0}) && is(reader.newest_before(Identifier{1}), {Identifier{0}, Set{3}}));
}

}  // namespace

int main() {
  at_once();
  refusals();
  stages();
  all_views();
  buffers_of<char>();
  buffers_of<std::byte>();
  buffers_of<std::uint8_t>();
  std::puts("crossing: every view counted once");
}
