// What include/dvs.hpp and dvs_types.hpp add to include/dvs.h: names, records to values and back, results. What the library answers is proved and not
// tested here; these calls show that each method calls its function with its operands in their places.
#include "dvs.hpp"
#include "expect.hpp"

#include <algorithm>
#include <array>
#include <cstdio>
#include <cstring>
#include <iterator>
#include <string>
#include <vector>
#ifdef __cpp_lib_ranges
#include <ranges>
#endif

namespace {

using dvs::Identifier;
using dvs::Member;
using dvs::Refusal;
using dvs::Set;

// Every refusal has words of its own, and a number that is none has none.
void texts() {
  std::vector<std::string> words;
  for (std::uint32_t i = 0; i <= DVS_REFUSALS; ++i) words.emplace_back(dvs::text(static_cast<Refusal>(i)));
  words.emplace_back(dvs::text(static_cast<Refusal>(DVS_REFUSALS + 1)));
  EXPECT(words.back() == dvs::text(static_cast<Refusal>(0xFFFFFFFFu)));
  constexpr const char *accepted = dvs::text(Refusal::none);
  EXPECT(words.front() == accepted && words[21] == dvs_refusal_text(21));
  std::sort(words.begin(), words.end());
  EXPECT(std::adjacent_find(words.begin(), words.end()) == words.end());
  EXPECT(dvs::number(Refusal::none) == 0 && dvs::number(Refusal::test_failed) == 21);
}

void sets() {
  constexpr Set set{Member{0}, Member{2}, Member{7}};
  static_assert(set == Set{0x85} && set.count() == 3 && set.has(Member{2}) && !set.has(Member{1}) && !set.has(Member{8}));
  static_assert(Set::below(3) == Set{7} && Set::below(8) == Set{0xFF} && Set::below(0).empty() && (set & Set{5}) == Set{5});
  static_assert((set | Set{2}) == Set{0x87} && (set - Set{5}) == Set{0x80});
  // A member of 8 and above stays in a set, and the calls refuse it.
  static_assert(set.with(Member{8}) == Set{0x185} && set.with(Member{40}) != set && set.with(Member{40}).has(Member{31}));
  static_assert(Set::below(9) == Set{0x1FF} && Set::below(32) == Set{0xFFFFFFFFu} && Set::below(33) == Set::below(32) && Set::below(31) != Set::below(32));
  dvs::Book book;
  EXPECT(book.start(8, Set{Member{0}, Member{8}}, Member{0}).refusal() == Refusal::first_set_unfit);
  EXPECT(book.start(8, Set{Member{0}, Member{0xFFFFFFFFu}}, Member{0}).refusal() == Refusal::first_set_unfit);
  EXPECT(book.start(8, Set::below(8), Member{0}) && book.join({Identifier{1}, Set::below(9)}).refusal() == Refusal::set_unfit);
  dvs::Message info{dvs::MessageKind::info, Identifier{1}, 0, {}};
  EXPECT(info.views.push_back({Identifier{0}, Set::below(9)}) && dvs::write(info).refusal() == Refusal::empty_set);

  std::vector<Member> listed(set.begin(), set.end());
  EXPECT((listed == std::vector<Member>{Member{0}, Member{2}, Member{7}}) && Set().begin() == Set().end());
  unsigned sum = 0;
  for (Member member : Set::below(8)) sum += dvs::number(member);
  EXPECT(sum == 28);
}

// Steps and answers as the records of a run.
void steps() {
  constexpr dvs::Step step = dvs::Step::send(Member{0x01020304}, 0x05060708090A0B0Cu);
  constexpr auto bytes = step.bytes();
  static_assert(bytes.size() == 13 && bytes[0] == 8 && bytes[1] == 1 && bytes[4] == 4 && bytes[5] == 5 && bytes[12] == 12);
  EXPECT(dvs::Step::from(bytes) == step && step != dvs::Step::hand(Member{0x01020304}));
  static_assert(dvs::Step::create({Identifier{7}, Set{3}}) == dvs::Step{dvs::StepKind::create, 7, 3});
  static_assert(dvs::Step::join(Member{1}, Identifier{7}) == dvs::Step{dvs::StepKind::join, 1, 7});
  static_assert(dvs::Step::order(Member{1}, Identifier{7}) == dvs::Step{dvs::StepKind::order, 1, 7});
  const dvs::Step alone[] = {dvs::Step::pass(Member{1}), dvs::Step::deliver(Member{1}), dvs::Step::attempt(Member{1}), dvs::Step::register_view(Member{1}),
                             dvs::Step::hand(Member{1}), dvs::Step::tell(Member{1}), dvs::Step::safe(Member{1}), dvs::Step::collect(Member{1})};
  const std::uint32_t kinds[] = {3, 5, 6, 7, 9, 10, 11, 12};
  for (std::size_t i = 0; i < std::size(kinds); ++i) EXPECT((alone[i] == dvs::Step{static_cast<dvs::StepKind>(kinds[i]), 1, 0}));
  const std::array<std::uint8_t, DVS_ANSWER_SIZE> answer{0, 9, 1, 0, 0, 0, 7, 0, 2, 0, 0, 0, 0, 0, 0, 1, 5};
  const dvs::Event handed{dvs::EventKind::handed, Member{1}, Identifier{7}, Set{}, Member{2}, 0x105};
  EXPECT((dvs::Answer::from(answer) == dvs::Answer{Refusal::none, handed}));
  const std::uint8_t *const event = dvs_answer_event(answer.data(), 0);
  EXPECT(dvs_event_kind(event) == 9 && dvs_event_member(event) == 1 && dvs_event_view(event) == 7 && dvs_event_set(event) == 0);
  EXPECT(dvs_event_sender(event) == 2 && dvs_event_entry(event) == 0x105 && dvs_get64(answer.data()) == 0x0009010000000700u);
  EXPECT((dvs::Answer::from(dvs::Bytes(answer.data(), 1)) != dvs::Answer{Refusal::none, handed}));
}

// The specification's two messages, the longest one, and the reader's refusals for a byte less and a byte more.
void messages() {
  const std::uint8_t registered[] = {3, 0, 0, 0, 0, 0, 0};
  const auto read = dvs::read(registered);
  EXPECT(read && read->kind == dvs::MessageKind::registered && read->view == Identifier{0} && read->views.empty());

  const std::vector<std::uint8_t> info = {2, 0, 0, 0, 1, 1, 0, 0, 0, 0, 7, 0};
  const auto settled = dvs::read(info);
  EXPECT(settled && settled->kind == dvs::MessageKind::info && settled->view == Identifier{1} && settled->views.size() == 1);
  EXPECT(settled->views[0] == (dvs::View{Identifier{0}, Set{7}}));
  EXPECT(dvs::read(dvs::Bytes(info.data(), info.size() - 1)).refusal() == Refusal::ends_early);
  std::vector<std::uint8_t> more = info;
  more.push_back(0);
  EXPECT(dvs::read(more).refusal() == Refusal::bytes_left_over);
  EXPECT(dvs::read(dvs::Bytes()).refusal() == Refusal::ends_early);
  const auto again = dvs::write(*settled);
  EXPECT(again && std::equal(info.begin(), info.end(), again->bytes().begin(), again->bytes().end()));

  dvs::Message longest{dvs::MessageKind::info, Identifier{0x01020304}, 0, {}};
  for (std::uint32_t i = 0; i < DVS_VIEWS; ++i) EXPECT(longest.views.push_back({Identifier{i}, Set{1}}));
  EXPECT(!longest.views.push_back({Identifier{99}, Set{1}}));
  const auto written = dvs::write(longest);
  EXPECT(written && written->length == DVS_LONGEST);
  const auto back = dvs::read(written->bytes());
  EXPECT(back && *back == longest && back->record() == longest.record() && *dvs::write(*back) == *written);

  const dvs::Message client{dvs::MessageKind::client, Identifier{5}, 0x0102030405060708u, {}};
  std::array<std::uint8_t, 16> buffer{};
  buffer[15] = 77;
  const auto length = dvs::write(client, buffer);
  EXPECT(length && *length == 15 && buffer[15] == 77 && buffer[7] == 1 && buffer[14] == 8);
  EXPECT((*dvs::read(dvs::Bytes(buffer.data(), 15))).number == client.number && *dvs::read(dvs::Bytes(buffer.data(), 15)) == client);
  EXPECT(dvs::write(client, dvs::MutableBytes(buffer.data(), 14)).refusal() == Refusal::buffer_too_short);
  EXPECT(dvs::write(dvs::Message{}).refusal() == Refusal::unknown_kind);
  EXPECT(dvs::write(dvs::Message{dvs::MessageKind::told, Identifier{5}, 129, {}}).refusal() == Refusal::told_out_of_range);
}

// Buffers of char and of std::byte are bytes, as a whole, by a pointer and a length, to be read and to be written; a view of them is the same bytes.
static_assert(!std::is_convertible_v<const std::string &, dvs::MutableBytes> && !std::is_constructible_v<dvs::MutableBytes, const std::byte *, std::size_t>);
static_assert(!std::is_convertible_v<std::vector<int> &, dvs::Bytes> && !std::is_convertible_v<const char *, dvs::Bytes>);
static_assert(std::is_convertible_v<dvs::MutableBytes, dvs::Bytes> && !std::is_convertible_v<dvs::Bytes, dvs::MutableBytes>);
static_assert(std::is_trivially_copyable_v<dvs::Bytes> && std::is_trivially_copyable_v<dvs::MutableBytes>);
#ifdef __cpp_lib_span
static_assert(std::is_convertible_v<dvs::Bytes, std::span<const std::uint8_t>> && std::is_convertible_v<std::span<const std::uint8_t>, dvs::Bytes>);
static_assert(std::is_convertible_v<dvs::MutableBytes, std::span<std::uint8_t>> && std::is_convertible_v<std::span<std::uint8_t>, dvs::Bytes>);
static_assert(std::is_convertible_v<std::span<const std::byte>, dvs::Bytes> && !std::is_convertible_v<std::span<const std::byte>, dvs::MutableBytes>);
#endif
#ifdef __cpp_lib_ranges
static_assert(std::ranges::borrowed_range<dvs::Bytes> && std::ranges::view<dvs::Bytes> && std::ranges::contiguous_range<dvs::MutableBytes>);
#endif

template <class Byte>
void buffers_of() {
  const dvs::Message client{dvs::MessageKind::client, Identifier{5}, 0xF1F2F3F4F5F6F7F8u, {}};
  std::vector<Byte> buffer(16);
  buffer[15] = static_cast<Byte>(77);
  const auto length = dvs::write(client, buffer);
  EXPECT(length && *length == 15 && buffer[7] == static_cast<Byte>(0xF1) && buffer[14] == static_cast<Byte>(0xF8) && buffer[15] == static_cast<Byte>(77));
  const dvs::Bytes whole(buffer), front(buffer.data(), 15);
  EXPECT(static_cast<const void *>(whole.data()) == buffer.data() && whole.size() == 16 && whole[7] == 0xF1);
  EXPECT(dvs::read(buffer).refusal() == Refusal::bytes_left_over && *dvs::read(front) == client && *dvs::read({buffer.data(), 15}) == client);
  EXPECT(*dvs::read(std::vector<Byte>(buffer.begin(), buffer.end() - 1)) == client && *dvs::read_front(buffer) == (dvs::Front{client, 15}));
  auto messages = dvs::messages_in(buffer);
  EXPECT(*messages.begin() == client);

  std::array<Byte, 7> array{static_cast<Byte>(3)};
  Byte plain[7] = {static_cast<Byte>(3)};
  dvs::Book book;
  EXPECT(book.start(1, Set{1}, Member{0}) && book.deliver(array, Member{0}) && book.deliver(plain, Member{0}) && book.look().taken() == 2);
  EXPECT(book.send(6) && *book.pass(buffer) == 15 && buffer[14] == static_cast<Byte>(6));
  EXPECT(*book.deliver_packet(buffer, Member{0}) == (dvs::Delivery{1, Refusal::unknown_kind}));
  EXPECT(book.send(7) && *dvs::PacketWriter(buffer).pass(book) == 15 && buffer[14] == static_cast<Byte>(7));
  std::vector<Byte> bytes(DVS_BOOK_SIZE), saved(dvs::kSavedSize);
  std::memcpy(bytes.data(), book.bytes().data(), bytes.size());
  std::memcpy(saved.data(), book.save().data(), saved.size());
  EXPECT(dvs::BookReader(bytes).taken() == 3 && dvs::Book().load(saved).accepted() && dvs::unwrap(saved).accepted());
}

void buffers() {
  buffers_of<char>();
  buffers_of<std::byte>();
  buffers_of<std::uint8_t>();
  EXPECT(dvs::read(std::string(7, '\3')).refusal() == Refusal::section_count);
}

// Packets: joined by the writer, taken apart by the reader's front, and taken by a book as far as they go.
static_assert(std::is_trivially_copyable_v<dvs::Delivery> && std::is_trivially_copyable_v<dvs::Front>);
constexpr std::uint8_t kDelivery[DVS_DELIVERY_SIZE] = {0, 1, 2, 3, DVS_REFUSED_ANOTHER_VIEW};
static_assert(dvs::Delivery::from(dvs::Bytes(kDelivery, DVS_DELIVERY_SIZE)) == dvs::Delivery{0x10203, Refusal::another_view});
static_assert(dvs::Delivery::from(dvs::Bytes()) == dvs::Delivery{} && dvs::Delivery{1, Refusal::none} != dvs::Delivery{});
static_assert(dvs::Delivery{0, Refusal::none}.whole() && dvs::Delivery{2, Refusal::none}.whole() && !dvs::Delivery{2, Refusal::order_full}.whole());
static_assert(whole(dvs::Result<dvs::Delivery>(dvs::Delivery{})) && !whole(dvs::Result<dvs::Delivery>(dvs::Delivery{2, Refusal::order_full})));
static_assert(!whole(dvs::Result<dvs::Delivery>(Refusal::records_unsound)));
#ifdef __cpp_lib_ranges
static_assert(std::input_iterator<dvs::MessagesIn::Iterator> && std::ranges::input_range<dvs::MessagesIn &>);
#endif

void packets() {
  const dvs::Message registered{dvs::MessageKind::registered, Identifier{7}, 0, {}}, client{dvs::MessageKind::client, Identifier{7}, 9, {}};
  dvs::Message info{dvs::MessageKind::info, Identifier{7}, 0, {}};
  EXPECT(info.views.push_back({Identifier{0}, Set{7}}));
  std::array<std::uint8_t, 7 + 15 + 12 + 6> buffer{};
  buffer.back() = 77;
  dvs::PacketWriter packet(buffer);
  EXPECT(packet.empty() && packet.bytes().empty() && packet.bytes().data() == buffer.data());
  EXPECT(*packet.add(registered) == 7 && *packet.add(client) == 15);
  EXPECT(packet.add(dvs::Message{}).refusal() == Refusal::unknown_kind && packet.size() == 22);
  EXPECT(packet.add({dvs::MessageKind::told, Identifier{7}, 129, {}}).refusal() == Refusal::told_out_of_range && packet.messages() == 2);
  EXPECT(*packet.add(info) == 12 && packet.add(registered).refusal() == Refusal::buffer_too_short && buffer[34] == 0 && buffer.back() == 77);
  EXPECT(!packet.empty() && packet.messages() == 3 && packet.size() == 34 && packet.bytes().size() == 34 && packet.bytes().data() == buffer.data());

  const auto front = dvs::read_front(packet.bytes());
  EXPECT(front && front->message == registered && front->taken == 7 && dvs::read(packet.bytes()).refusal() == Refusal::bytes_left_over);
  EXPECT(*dvs::read_front(dvs::Bytes(&buffer[7], 15)) == (dvs::Front{client, 15}) && (dvs::Front{client, 15}) != *front);
  EXPECT(dvs::read_front(dvs::Bytes()).refusal() == Refusal::ends_early && dvs::read_front(dvs::Bytes(&buffer[39], 1)).refusal() == Refusal::unknown_kind);

  auto messages = dvs::messages_in(packet.bytes());
  for (int times = 0; times < 2; ++times) {
    std::vector<dvs::Message> read;
    for (const dvs::Message &message : messages) read.push_back(message);
    EXPECT((read == std::vector<dvs::Message>{registered, client, info}) && messages.refusal() == Refusal::none && messages.taken() == 34);
  }
  auto rest = dvs::messages_in(buffer);
  EXPECT(std::vector<dvs::Message>(rest.begin(), rest.end()).size() == 3 && rest.refusal() == Refusal::unknown_kind && rest.taken() == 34);
  auto at = rest.begin();
  EXPECT(at->kind == dvs::MessageKind::registered && *at == registered && *at++ == registered && *at == client && *++at == info);
  EXPECT(rest.taken() == 34 && rest.refusal() == Refusal::none && at != rest.end() && ++at == rest.end() && rest.refusal() == Refusal::unknown_kind);
  auto cut = dvs::messages_in(dvs::Bytes(buffer.data(), 21)), none = dvs::messages_in(dvs::Bytes());
  EXPECT(std::distance(cut.begin(), cut.end()) == 1 && cut.refusal() == Refusal::ends_early && cut.taken() == 7);
  EXPECT(none.begin() == none.end() && none.refusal() == Refusal::none && none.taken() == 0);

  dvs::Book book;
  EXPECT(book.deliver_packet(packet.bytes(), Member{1}).refusal() == Refusal::records_unsound);
  EXPECT(book.start(3, Set{7}, Member{0}) && book.join({Identifier{7}, Set{7}}) && book.deliver(packet.bytes(), Member{1}).refusal() == Refusal::bytes_left_over);
  EXPECT(*book.deliver_packet(packet.bytes(), Member{1}) == (dvs::Delivery{3, Refusal::none}) && book.look().taken() == 3);
  EXPECT(*book.deliver_packet(buffer, Member{2}) == (dvs::Delivery{3, Refusal::unknown_kind}) && book.look().taken() == 6);
  EXPECT(*book.deliver_packet(packet.bytes(), Member{3}) == (dvs::Delivery{0, Refusal::sender_not_in_view}) && book.look().taken() == 6);
  EXPECT(*book.deliver_packet(dvs::Bytes(), Member{3}) == dvs::Delivery{} && book.look().registrations() == Set{6} && book.look().infos() == Set{6});

  // The rest of a packet begins with the message that stopped it, and is what the next call takes; of a whole packet nothing is left.
  const auto rest_from = [&](dvs::Bytes bytes, std::size_t delivered) { return dvs::rest_of(bytes, {delivered, Refusal::unknown_kind}); };
  const auto is_end = [&](dvs::Bytes bytes, std::size_t from) { return bytes.data() == buffer.data() + from && bytes.size() == buffer.size() - from; };
  EXPECT(is_end(rest_from(buffer, 0), 0) && is_end(rest_from(buffer, 1), 7) && is_end(rest_from(buffer, 2), 22) && is_end(rest_from(buffer, 3), 34));
  EXPECT(is_end(rest_from(buffer, 4), 34) && rest_from(packet.bytes(), 3).empty() && rest_from(dvs::Bytes(), 1).empty());
  dvs::Book other;
  std::array<std::uint8_t, 14> halves{};
  dvs::PacketWriter two(halves);
  EXPECT(*two.add(registered) == 7 && *two.add({dvs::MessageKind::registered, Identifier{8}, 0, {}}) == 7);
  EXPECT(other.start(1, Set{1}, Member{0}) && other.join({Identifier{7}, Set{1}}));
  const auto stopped = other.deliver_packet(halves, Member{0});
  EXPECT(stopped && *stopped == (dvs::Delivery{1, Refusal::another_view}) && !stopped->whole() && !whole(stopped));
  EXPECT(other.join({Identifier{8}, Set{1}}) && whole(other.deliver_packet(dvs::rest_of(halves, *stopped), Member{0})) && other.look().taken() == 1);

  // What a book gives out goes behind what is there already, as long as there is room.
  dvs::Book sender;
  EXPECT(sender.start(1, Set{1}, Member{0}) && sender.send(5) && sender.send(6));
  dvs::PacketWriter passed(buffer);
  EXPECT(*passed.add(registered) == 7 && *passed.pass(sender) == 15 && *passed.pass(sender) == 15 && passed.size() == 37 && passed.messages() == 3);
  EXPECT(passed.pass(sender).refusal() == Refusal::none_outgoing && sender.send(8) && passed.pass(sender).refusal() == Refusal::buffer_too_short);
  EXPECT(passed.size() == 37 && passed.messages() == 3 && sender.look().outgoing() == 1 && buffer.back() == 77);
  std::vector<std::uint64_t> numbers;
  for (const dvs::Message &message : dvs::messages_in(passed.bytes())) numbers.push_back(message.number);
  EXPECT((numbers == std::vector<std::uint64_t>{0, 5, 6}));
  dvs::PacketWriter nowhere{dvs::MutableBytes()};
  EXPECT(nowhere.add(registered).refusal() == Refusal::buffer_too_short && nowhere.pass(sender).refusal() == Refusal::buffer_too_short && nowhere.bytes().empty());
}

// The specification's case of {0,1,2} and {2,3,4}, by books.
void books() {
  dvs::Book unsound;
  EXPECT(unsound.collect().refusal() == Refusal::records_unsound);
  EXPECT(unsound.start(9, Set{1}, Member{0}).refusal() == Refusal::members_out_of_range);
  EXPECT(unsound.start(5, Set{32}, Member{0}).refusal() == Refusal::first_set_unfit);
  EXPECT(unsound.start(5, Set{1}, Member{5}).refusal() == Refusal::no_such_member);

  std::array<dvs::Book, 5> book;
  for (std::uint32_t i = 0; i < 5; ++i) EXPECT(book[i].start(5, Set{31}, Member{i}).accepted());
  const auto form = [&](dvs::View view) {
    std::vector<std::pair<Member, dvs::MessageBytes>> order;
    for (std::uint32_t i = 0; i < 5; ++i) {
      if (!view.set.has(Member{i})) continue;
      EXPECT(book[i].join(view).accepted());
      EXPECT(book[i].attempt().refusal() == Refusal::info_missing);
      const auto info = book[i].pass();
      EXPECT(info.accepted());
      EXPECT(book[i].pass().refusal() == Refusal::none_outgoing);
      order.emplace_back(Member{i}, *info);
    }
    for (std::uint32_t i = 0; i < 5; ++i)
      for (const auto &[sender, info] : order)
        if (view.set.has(Member{i})) EXPECT(book[i].deliver(info.bytes(), sender).accepted());
  };
  form({Identifier{1}, Set{7}});
  const auto attempted = book[2].attempt();
  EXPECT(attempted && attempted->kind == dvs::EventKind::attempted && attempted->member == Member{2});
  EXPECT(attempted->view == Identifier{1} && attempted->set == Set{7} && book[2].look().in_primary());
  EXPECT(book[2].look().open().size() == 1 && book[2].look().open()[0] == (dvs::View{Identifier{1}, Set{7}}));
  const auto registered = book[2].register_view();
  EXPECT(registered && registered->kind == dvs::EventKind::registered && registered->view == Identifier{1} && book[2].look().registered());
  EXPECT(book[2].collect().refusal() == Refusal::registration_missing);
  form({Identifier{2}, Set{28}});
  EXPECT(book[2].attempt().refusal() == Refusal::test_failed && book[4].attempt().refusal() == Refusal::test_failed);
  EXPECT(!book[2].look().in_primary() && book[2].look().settled() == (dvs::View{Identifier{0}, Set{31}}));
  EXPECT(book[2].look().members() == 5 && book[2].look().own() == Member{2} && book[2].look().taken() == 3);

  EXPECT(book[2].look().carrier()->set - book[2].look().infos() == Set{} && book[2].look().registrations().empty());

  // Saved and loaded, as saved.cpp has it in full; of a book that was moved from nothing is left.
  dvs::Book loaded;
  EXPECT(loaded.check().refusal() == Refusal::records_unsound && loaded.load(book[2].save()) && loaded.check().accepted());
  EXPECT(loaded.attempt().refusal() == Refusal::test_failed);
  dvs::Book moved(std::move(loaded)), again;
  EXPECT(moved.check().accepted() && loaded.check().refusal() == Refusal::records_unsound);
  again = std::move(moved);
  EXPECT(again.check().accepted() && moved.check().refusal() == Refusal::records_unsound);
}

// What would point into something that is gone does not compile.
template <class T, class = void>
constexpr bool has_arrow = false;
template <class T>
constexpr bool has_arrow<T, std::void_t<decltype(std::declval<T>().operator->())>> = true;
template <class T, class = void>
constexpr bool has_bytes = false;
template <class T>
constexpr bool has_bytes<T, std::void_t<decltype(std::declval<T>().bytes())>> = true;
template <class T, class = void>
constexpr bool has_look = false;
template <class T>
constexpr bool has_look<T, std::void_t<decltype(std::declval<T>().look())>> = true;
static_assert(has_arrow<dvs::Result<dvs::MessageBytes> &> && !has_arrow<dvs::Result<dvs::MessageBytes>>);
static_assert(has_bytes<dvs::MessageBytes &> && !has_bytes<dvs::MessageBytes> && has_bytes<dvs::Book &> && !has_bytes<dvs::Book>);
static_assert(has_look<dvs::Book &> && !has_look<dvs::Book> && !std::is_copy_constructible_v<dvs::Book> && std::is_nothrow_move_constructible_v<dvs::Book>);

// An entry from one book to another until it is safe there.
void entries() {
  dvs::Book here, there;
  EXPECT(here.start(2, Set{3}, Member{0}) && there.start(2, Set{3}, Member{1}));
  const auto carry = [&](dvs::Book &from, Member sender) {
    std::array<std::uint8_t, DVS_LONGEST> buffer{};
    EXPECT(from.look().outgoing() == 1);
    const auto length = from.pass(buffer);
    EXPECT(length && *length == 15 && from.look().outgoing() == 0);
    for (dvs::Book *book : {&here, &there}) EXPECT(book->deliver(dvs::Bytes(buffer.data(), *length), sender).accepted());
  };
  const auto sent = here.send(0x8000000000000001u);
  EXPECT(sent && sent->kind == dvs::EventKind::sent && sent->entry == 0x8000000000000001u);
  carry(here, Member{0});
  EXPECT(there.tell().refusal() == Refusal::nothing_new_to_tell && there.safe().refusal() == Refusal::none_to_report);
  for (dvs::Book *book : {&here, &there}) {
    const auto handed = book->hand();
    EXPECT(handed && handed->kind == dvs::EventKind::handed && handed->sender == Member{0} && handed->entry == sent->entry);
    EXPECT(book->hand().refusal() == Refusal::none_to_hand && book->look().handed() == 1 && book->look().told() == 0);
  }
  EXPECT(here.tell().accepted() && here.look().told() == 1 && here.look().told_by(Member{0}) == 0);
  carry(here, Member{0});
  EXPECT(here.look().told_by(Member{0}) == 1 && here.look().told_by(Member{1}) == 0 && here.look().told_by(Member{8}) == 0);
  EXPECT(here.safe().refusal() == Refusal::told_too_low);
  EXPECT(there.tell().accepted());
  carry(there, Member{1});
  const auto safe = here.safe();
  EXPECT(safe && safe->kind == dvs::EventKind::safe && safe->sender == Member{0} && safe->entry == sent->entry && here.look().reported() == 1);
  EXPECT(here.collect().refusal() == Refusal::not_above_settled);
}

template <std::size_t Views>
bool same(const dvs::GroupMemory<Views> &one, const dvs::GroupMemory<Views> &other) {
  return one.list == other.list && one.books == other.books && one.queues == other.queues;
}

// The specification's whole case, with safe added, by a group on lent memory; a run, and lists of steps.
void groups() {
  static dvs::GroupMemory<2> memory;
  dvs::Group group(memory);
  EXPECT(group.step(DVS_STEP_JOIN, 0, 0).refusal() == Refusal::records_unsound);
  EXPECT(group.start(2, Set{4}).refusal() == Refusal::first_set_unfit);
  EXPECT(group.start(2, Set{3}).accepted());
  const auto sent = group.send(Member{0}, 5);
  EXPECT(sent && sent->kind == dvs::EventKind::sent && sent->member == Member{0} && sent->view == Identifier{0} && sent->entry == 5);
  EXPECT(group.pass(Member{0}).accepted() && group.order(Member{0}, Identifier{0}).accepted() && group.deliver(Member{1}).accepted());
  const auto handed = group.hand(Member{1});
  EXPECT(handed && handed->kind == dvs::EventKind::handed && handed->member == Member{1} && handed->sender == Member{0} && handed->entry == 5);
  EXPECT(group.attempt(Member{1}).refusal() == Refusal::not_above_client);
  EXPECT(group.safe(Member{1}).refusal() == Refusal::told_too_low && group.register_view(Member{1}).refusal() == Refusal::already_registered);
  EXPECT(group.deliver(Member{0}).accepted() && group.hand(Member{0}).accepted());
  for (Member member : {Member{0}, Member{1}})
    EXPECT(group.tell(member).accepted() && group.pass(member).accepted() && group.order(member, Identifier{0}).accepted());
  EXPECT(group.deliver(Member{1}).accepted() && group.deliver(Member{1}).accepted());
  const auto safe = group.safe(Member{1});
  EXPECT(safe && safe->kind == dvs::EventKind::safe && safe->entry == 5 && group.look(Member{1}).reported() == 1);

  EXPECT(group.create({Identifier{0}, Set{1}}).refusal() == Refusal::identifier_not_above);
  EXPECT(group.create({Identifier{9}, Set{1}}).accepted() && group.join(Member{0}, Identifier{9}).accepted());
  EXPECT(group.create({Identifier{10}, Set{1}}).refusal() == Refusal::list_full);
  EXPECT(group.look(Member{0}).carrier() == (dvs::View{Identifier{9}, Set{1}}) && group.collect(Member{1}).refusal() == Refusal::not_above_settled);
  EXPECT(group.step(13, 255).refusal() == Refusal::unknown_step && group.look(Member{8}).members() == 0);
  EXPECT(group.step(dvs::Step::pass(Member{0})).accepted() && group.made() == 2 && group.waiting(1, Member{0}) == 1 && group.waiting(1, Member{1}) == 0);
  EXPECT(group.step(dvs::Step::order(Member{0}, Identifier{9})).accepted() && group.ordered(1) == 1 && group.ordered(0) == 3 && group.ordered(2) == 0);
  EXPECT(group.waiting(0, Member{8}) == 0 && group.check().accepted());
  EXPECT(group.step(dvs::Step::send(Member{1}, 7)).accepted() && group.pass(Member{1}).accepted() && group.waiting(0, Member{1}) == 1);
  const std::uint8_t *const queues_at = memory.queues.data();
  EXPECT(dvs_queues_made(queues_at) == 2 && dvs_queues_ordered(queues_at, 0) == 3 && dvs_queues_ordered(queues_at, 1) == 1);
  EXPECT(dvs_queues_waiting(queues_at, 0, 1) == 1 && dvs_queues_waiting(queues_at, 0, 0) == 0 && dvs_queues_waiting(queues_at, 1, 1) == 0);
  memory.queues[DVS_QUEUES_MADE] = 3;
  EXPECT(group.check().refusal() == Refusal::records_unsound);

  // A run: accepted, refused and unknown steps, each with its answer.
  const dvs::Step asked[] = {dvs::Step::send(Member{1}, 6), dvs::Step::hand(Member{1}), {static_cast<dvs::StepKind>(77), 0, 0}};
  std::array<std::uint8_t, 3 * DVS_STEP_SIZE> steps{};
  for (std::size_t i = 0; i < std::size(asked); ++i) {
    const auto record = asked[i].bytes();
    std::copy(record.begin(), record.end(), &steps[DVS_STEP_SIZE * i]);
  }
  std::array<std::uint8_t, 3 * DVS_ANSWER_SIZE> answers{};
  EXPECT(group.run(2, Set{3}, steps, dvs::MutableBytes(answers.data(), answers.size() - 1)).refusal() == Refusal::records_unsound);
  EXPECT(group.run(2, Set{3}, steps, answers).accepted() && group.check().accepted());
  const auto answer = [&](std::size_t i) { return dvs::Answer::from(dvs::Bytes(&answers[DVS_ANSWER_SIZE * i], DVS_ANSWER_SIZE)); };
  EXPECT((answer(0) == dvs::Answer{Refusal::none, {dvs::EventKind::sent, Member{1}, Identifier{0}, Set{}, Member{}, 6}}));
  EXPECT((answer(1) == dvs::Answer{Refusal::none_to_hand, {}} && answer(2) == dvs::Answer{Refusal::unknown_step, {}}));
  EXPECT(dvs_answer_number(answers.data(), 1) == 25 && dvs_event_entry(dvs_answer_event(answers.data(), 0)) == 6);

  // The same list on what the run left: member 1 has two outgoing then. No step is a list too; lists that do not pair and a faulty group change nothing.
  static dvs::GroupMemory<2> before;
  before = memory;
  const auto untouched = [&] { return same(memory, before) && std::all_of(answers.begin(), answers.end(), [](std::uint8_t byte) { return byte == 77; }); };
  answers.fill(77);
  EXPECT(group.steps(steps, dvs::MutableBytes(answers.data(), answers.size() - 1)).refusal() == Refusal::records_unsound && untouched());
  EXPECT(group.steps(dvs::Bytes(steps.data(), steps.size() - 1), answers).refusal() == Refusal::records_unsound && untouched());
  EXPECT(group.steps(dvs::Bytes(), answers).refusal() == Refusal::records_unsound && untouched());
  EXPECT(group.steps(dvs::Bytes(), dvs::MutableBytes()).accepted() && untouched());
  EXPECT(group.look(Member{1}).outgoing() == 1 && group.steps(steps, answers).accepted() && group.look(Member{1}).outgoing() == 2);
  EXPECT((answer(0) == dvs::Answer{Refusal::none, {dvs::EventKind::sent, Member{1}, Identifier{0}, Set{}, Member{}, 6}}));
  EXPECT((answer(1) == dvs::Answer{Refusal::none_to_hand, {}} && answer(2) == dvs::Answer{Refusal::unknown_step, {}}));
  memory.queues[DVS_QUEUES_MADE] = 3;
  before = memory;
  answers.fill(77);
  EXPECT(group.steps(steps, answers).refusal() == Refusal::records_unsound && untouched());
  EXPECT(group.steps(dvs::Bytes(), dvs::MutableBytes()).refusal() == Refusal::records_unsound);

  std::vector<std::uint8_t> list(DVS_LIST_SIZE(33)), rest(DVS_BOOKS_SIZE), queues(DVS_QUEUES_SIZE(33));
  EXPECT(dvs::Group(list, rest, queues).start(2, Set{3}).refusal() == Refusal::list_length);
}

// A view formed by one call: its count, its refusals with every byte as it was, and the events listed for it, which are those of the same steps by hand.
constexpr dvs::FormedEvents kEvents({Identifier{7}, Set{0x181}});
static_assert(kEvents.size() == 4 && !kEvents.empty() && kEvents.end() - kEvents.begin() == 4 && dvs::FormedEvents({}).empty());
static_assert(kEvents[1] == dvs::Event{dvs::EventKind::attempted, Member{7}, Identifier{7}, Set{0x181}, {}, 0});
static_assert(kEvents[2] == dvs::Event{dvs::EventKind::registered, Member{0}, Identifier{7}, {}, {}, 0});
static_assert(dvs::FormedEvents({Identifier{1}, Set::below(32)}).size() == 2 * DVS_MEMBERS);

void forms() {
  static dvs::GroupMemory<4> memory, before;
  dvs::Group group(memory), by_hand(before);
  const auto refused = [&](std::uint32_t view, Refusal refusal) {
    before = memory;
    return group.form(Identifier{view}).refusal() == refusal && same(memory, before);
  };
  EXPECT(refused(0, Refusal::records_unsound) && group.start(3, Set{7}).accepted());
  EXPECT(refused(0, Refusal::view_not_fresh) && refused(1, Refusal::no_such_view));
  EXPECT(group.create({Identifier{1}, Set{4}}).accepted() && refused(1, Refusal::form_test_failed));
  const dvs::View view{Identifier{2}, Set{5}};
  EXPECT(group.create(view).accepted() && refused(1, Refusal::view_not_fresh));
  const auto formed = group.form(view.identifier);
  EXPECT(formed && *formed == 24);
  for (Member member : view.set) EXPECT(group.look(member).settled() == view && group.look(member).open().empty() && group.look(member).in_primary());
  EXPECT(group.look(Member{1}).settled().identifier == Identifier{0} && group.check().accepted());

  std::vector<dvs::Event> events;
  std::size_t steps = 0;
  const auto each = [&](dvs::StepKind kind, unsigned times = 1) {
    for (Member member : view.set)
      for (unsigned i = 0; i < times; ++i, ++steps) {
        const auto event = by_hand.step({kind, dvs::number(member), dvs::number(view.identifier)});
        EXPECT(event.accepted());
        if (event->kind != dvs::EventKind::none) events.push_back(*event);
      }
  };
  for (const auto &[first, last] : {std::pair(dvs::StepKind::join, dvs::StepKind::attempt), {dvs::StepKind::register_view, dvs::StepKind::collect}}) {
    each(first);
    each(dvs::StepKind::pass);
    each(dvs::StepKind::order);
    each(dvs::StepKind::deliver, view.set.count());
    each(last);
  }
  const dvs::FormedEvents listed(view);
  EXPECT(same(memory, before) && steps == *formed && std::equal(events.begin(), events.end(), listed.begin(), listed.end()));
  EXPECT(refused(2, Refusal::view_not_fresh));
}

}  // namespace

int main() {
  EXPECT(dvs::same_version());
  texts();
  sets();
  steps();
  messages();
  buffers();
  packets();
  books();
  entries();
  groups();
  forms();
  std::puts("wrapper: every name in its place");
}
