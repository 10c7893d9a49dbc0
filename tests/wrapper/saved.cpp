// What include/dvs_saved.hpp promises: save and load undo each other, and every other sequence of bytes is refused with its own reason and changes nothing.
// The format is built here a second time, from docs/LAYOUT.md, with a checksum of its own.
#include "dvs.hpp"
#include "expect.hpp"

#include <algorithm>
#include <array>
#include <cstdint>
#include <cstring>
#include <string>
#include <vector>

namespace {

using dvs::Identifier;
using dvs::Member;
using dvs::SavedFault;
using dvs::Set;
using Buffer = std::vector<std::uint8_t>;

// The checksum bit by bit, without a table.
std::uint32_t crc(const std::uint8_t *bytes, std::size_t size) {
  std::uint32_t rest = 0xFFFFFFFFu;
  for (std::size_t i = 0; i < size; ++i) {
    rest ^= bytes[i];
    for (int bit = 0; bit < 8; ++bit) rest = rest >> 1u ^ (0xEDB88320u & (0u - (rest & 1u)));
  }
  return ~rest;
}

void number(Buffer &to, std::uint32_t value) {
  for (int shift = 24; shift >= 0; shift -= 8) to.push_back(static_cast<std::uint8_t>(value >> shift));
}

Buffer envelope(const Buffer &book, std::uint32_t layout) {
  Buffer saved = {'D', 'V', 'S', 'B'};
  number(saved, layout);
  number(saved, static_cast<std::uint32_t>(book.size()));
  saved.insert(saved.end(), book.begin(), book.end());
  number(saved, crc(saved.data(), saved.size()));
  return saved;
}

Buffer bytes_of(const dvs::Book &book) { return {book.bytes().begin(), book.bytes().end()}; }

void deliver(dvs::Book &book, const dvs::Message &message, std::uint32_t sender) {
  const auto written = dvs::write(message);
  EXPECT(written && book.deliver(written->bytes(), Member{sender}));
}

void deliver_infos(dvs::Book &book, dvs::View view) {
  dvs::Message info{dvs::MessageKind::info, view.identifier, 0, {}};
  EXPECT(info.views.push_back({Identifier{0}, Set{31}}));
  for (Member member : view.set) deliver(book, info, dvs::number(member));
}

// Member 0 of 5 in the middle of its life: a settled, a client and a carrier view, open views, entries in both inward lists, and outgoing messages.
void live(dvs::Book &book) {
  EXPECT(book.start(5, Set{31}, Member{0}));
  for (std::uint32_t i = 1; i <= 3; ++i) {
    const dvs::View view{Identifier{i}, Set{15}};
    EXPECT(book.join(view));
    deliver_infos(book, view);
    EXPECT(book.attempt());
  }
  EXPECT(book.register_view() && book.send(77));
  deliver(book, {dvs::MessageKind::registered, Identifier{3}, 0, {}}, 2);
  for (std::uint64_t entry = 1; entry <= 4; ++entry) deliver(book, {dvs::MessageKind::client, Identifier{3}, entry << 40u, {}}, 1);
  EXPECT(book.hand() && book.hand() && book.tell());
  deliver(book, {dvs::MessageKind::told, Identifier{3}, 2, {}}, 0);
  EXPECT(book.join({Identifier{9}, Set{7}}));
  deliver(book, {dvs::MessageKind::client, Identifier{9}, 5, {}}, 2);
  const dvs::BookReader look = book.look();
  EXPECT(look.open().size() == 3 && look.outgoing() == 1 && look.handed() == 2 && look.client() && look.carrier() && !look.in_primary());
}

// The format, byte by byte: against a second writer, and against a checksum that another program gave for a fresh book.
constexpr char kDigits[] = {'1', '2', '3', '4', '5', '6', '7', '8', '9'};
constexpr dvs::SavedBook kZeros = dvs::wrap(dvs::BookBytes{});
static_assert(dvs::kSavedSize == 5250 && dvs::detail::envelope(kZeros).fault() == SavedFault::none && dvs::detail::envelope(kZeros).layout() == DVS_LAYOUT);

void format() {
  EXPECT(dvs::checksum(dvs::Bytes(kDigits, sizeof kDigits)) == 0xCBF43926u && dvs::checksum(dvs::Bytes()) == 0);
  dvs::Book book;
  EXPECT(book.start(1, Set{1}, Member{0}));
  const dvs::SavedBook fresh = book.save();
  const std::uint8_t head[] = {0x44, 0x56, 0x53, 0x42, 0, 0, 0, 1, 0, 0, 0x14, 0x72, 1, 0, 0, 0, 0, 0, 1, 1, 0, 0, 0, 0, 1, 1, 0, 0, 0, 0, 1, 1};
  EXPECT(std::equal(std::begin(head), std::end(head), fresh.begin()) && dvs_get32(&fresh[5246]) == 0x23091E0Bu);
  live(book);
  const dvs::SavedBook saved = book.save();
  const Buffer twin = envelope(bytes_of(book), 1);
  EXPECT(std::equal(saved.begin(), saved.end(), twin.begin(), twin.end()));
}

void round_trip() {
  dvs::Book book, other;
  live(book);
  const auto saved = book.save();
  const auto loaded = other.load(saved);
  EXPECT(loaded && loaded.accepted() && loaded.fault() == SavedFault::none && loaded.layout() == DVS_LAYOUT);
  EXPECT(bytes_of(other) == bytes_of(book) && other.save() == saved);
  const auto unwrapped = dvs::unwrap(saved);
  EXPECT(unwrapped && unwrapped.book().data() == saved.data() + 12 && unwrapped.book().size() == DVS_BOOK_SIZE);
  EXPECT(dvs::BookReader(unwrapped.book()).handed() == 2);
  EXPECT(other.start(1, Set{1}, Member{0}) && other.load(book.save()) && bytes_of(other) == bytes_of(book));
  // What a host of an earlier version kept was the bytes alone.
  dvs::BookBytes raw{};
  std::copy(book.bytes().begin(), book.bytes().end(), raw.begin());
  EXPECT(other.load(raw).fault() == SavedFault::not_saved_book && dvs::wrap(raw) == saved);
}

// Books that refuse: whatever is refused leaves the book as it was, and gives the layout only if the checksum was right.
struct Refuser {
  dvs::Book book;
  Buffer before;

  Refuser() {
    EXPECT(book.start(3, Set{7}, Member{1}) && book.send(6));
    before = bytes_of(book);
  }
  bool refuses(dvs::Bytes saved, SavedFault fault, std::uint32_t layout = 0) {
    const auto loaded = book.load(saved);
    const auto unwrapped = dvs::unwrap(saved);
    return !loaded && !loaded.accepted() && loaded.fault() == fault && loaded.layout() == layout && unwrapped.fault() == fault &&
           unwrapped.layout() == layout && unwrapped.book().empty() && std::memcmp(book.bytes().data(), before.data(), before.size()) == 0;
  }
};

// Every change of one bit, every cut, and bytes left over.
void changes() {
  dvs::Book book;
  live(book);
  dvs::SavedBook saved = book.save();
  Refuser refuser;
  for (std::size_t bit = 0; bit < 8 * saved.size(); ++bit) {
    const std::size_t place = bit / 8;
    const auto fault = place < 4 ? SavedFault::not_saved_book : place >= 8 && place < 12 ? SavedFault::wrong_length : SavedFault::damaged;
    saved[place] ^= static_cast<std::uint8_t>(1u << bit % 8);
    EXPECT(refuser.refuses(saved, fault));
    saved[place] ^= static_cast<std::uint8_t>(1u << bit % 8);
  }
  for (std::size_t size = 0; size < saved.size(); ++size)
    EXPECT(refuser.refuses(dvs::Bytes(saved.data(), size), size < 12 ? SavedFault::not_saved_book : SavedFault::wrong_length));
  Buffer longer(saved.begin(), saved.end());
  longer.push_back(0);
  EXPECT(refuser.refuses(longer, SavedFault::wrong_length));
  // Other lengths, among them those to which 16 more is 0 or 15 in a number of 32 bits.
  for (std::uint32_t length : {0xFFFFFFFFu, 0xFFFFFFF0u, 0u, 5233u, 5235u}) {
    Buffer other;
    number(other, length);
    std::copy(other.begin(), other.end(), longer.begin() + 8);
    EXPECT(refuser.refuses(dvs::Bytes(longer.data(), saved.size()), SavedFault::wrong_length));
  }
  EXPECT(refuser.book.load(saved) && bytes_of(refuser.book) == bytes_of(book));
}

// What is whole and yet not taken, and what is nothing of the sort.
void others() {
  dvs::Book book;
  live(book);
  const Buffer good = bytes_of(book);
  Refuser refuser;
  for (std::uint32_t layout : {0u, 2u, 0x01000000u, 0xFFFFFFFFu}) EXPECT(refuser.refuses(envelope(good, layout), SavedFault::other_layout, layout));
  EXPECT(refuser.refuses(envelope(Buffer(6000), 2), SavedFault::other_layout, 2) && refuser.refuses(envelope({}, 2), SavedFault::other_layout, 2));
  Buffer bad = good;
  bad[DVS_BOOK_SELF] = 5;
  EXPECT(refuser.refuses(envelope(bad, 1), SavedFault::unsound, 1) && refuser.refuses(dvs::Book().save(), SavedFault::unsound, 1));
  bad = good;
  bad.pop_back();
  EXPECT(refuser.refuses(envelope(bad, 1), SavedFault::unsound, 1) && refuser.refuses(envelope({}, 1), SavedFault::unsound, 1));
  bad = good;
  bad.push_back(0);
  EXPECT(refuser.refuses(envelope(bad, 1), SavedFault::unsound, 1));
  EXPECT(refuser.refuses(good, SavedFault::not_saved_book) && refuser.refuses(dvs::Bytes(), SavedFault::not_saved_book));
  EXPECT(refuser.refuses(Buffer(5250), SavedFault::not_saved_book) && refuser.refuses(std::string(5250, 'D'), SavedFault::not_saved_book));
}

// Each fault has words of its own, and a number that is none has none.
void texts() {
  std::vector<std::string> words;
  for (std::uint32_t i = 0; i <= 6; ++i) words.emplace_back(dvs::text(static_cast<SavedFault>(i)));
  EXPECT(words.back() == dvs::text(static_cast<SavedFault>(0xFFFFFFFFu)));
  std::sort(words.begin(), words.end());
  EXPECT(std::adjacent_find(words.begin(), words.end()) == words.end());
}

}  // namespace

int main() {
  format();
  round_trip();
  changes();
  others();
  texts();
  std::puts("saved: every other byte refused");
}
