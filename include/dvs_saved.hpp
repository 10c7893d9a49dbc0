// dvs_saved.hpp: a saved book, the form in which a host keeps a book on disk. dvs.hpp includes it: Book::save writes this form, and Book::load reads it.
//
// A saved book is the book's bytes in an envelope: a mark, the number of the layout, the length, the bytes, and a checksum over all of it. docs/LAYOUT.md,
// 'A saved book', has the table; a program in C may write and read the same form by it. Load refuses every change of up to three bits. Of larger accidental
// changes it misses about one in four billion. Nothing in a saved book can tell whether it is the last one.
#ifndef DVS_SAVED_HPP
#define DVS_SAVED_HPP

#include "dvs_types.hpp"

#include <array>
#include <cstddef>
#include <cstdint>

namespace dvs {
inline namespace DVS_INLINE_NAMESPACE {

using BookBytes = std::array<std::uint8_t, DVS_BOOK_SIZE>;

// ---- places in a saved book. The first four are the same in every layout, and the checksum is the last four bytes.

inline constexpr std::size_t kSavedMagic = 0;                              // 4 bytes: the mark, DVSB
inline constexpr std::size_t kSavedLayout = 4;                             // 4 bytes: the DVS_LAYOUT of the library that saved it
inline constexpr std::size_t kSavedLength = 8;                             // 4 bytes: the length of the book
inline constexpr std::size_t kSavedBook = 12;                              // the book's bytes
inline constexpr std::size_t kSavedChecksum = kSavedBook + DVS_BOOK_SIZE;  // 4 bytes: the CRC-32 of all bytes before it
inline constexpr std::size_t kSavedSize = kSavedChecksum + 4;

using SavedBook = std::array<std::uint8_t, kSavedSize>;

// ---- faults

// Why bytes are not taken as a saved book. The faults are checked in this order. The layout comes after the checksum, so that damage is not taken for
// another layout. Later versions may have more: a switch needs a default.
enum class SavedFault : std::uint32_t {
  none = 0,
  not_saved_book = 1,   // fewer than 12 bytes, or the mark is not at the front
  wrong_length = 2,     // more or fewer bytes than the length says
  damaged = 3,          // the checksum is wrong
  other_layout = 4,     // whole, and saved by a library whose DVS_LAYOUT is another
  unsound = 5,          // whole, and the bytes are not a sound book: dvs_check refuses them
};

// The fault in plain words, for a log; they tell an operator what to do.
constexpr const char *text(SavedFault fault) noexcept {
  switch (fault) {
    case SavedFault::none: return "accepted";
    case SavedFault::not_saved_book: return "not a saved book, which begins with DVSB: give the file that was saved";
    case SavedFault::wrong_length: return "a saved book that was cut or has bytes after its end: bring back a whole copy of the same save, never an older one";
    case SavedFault::damaged: return "a saved book that was damaged after it was saved: bring back a good copy of the same save, never an older one";
    case SavedFault::other_layout: return "a saved book of another layout: load it with the library that wrote it";
    case SavedFault::unsound: return "a saved book that is whole but not sound: its host saved it before its start or changed its bytes, so correct the host";
  }
  return "no fault of a saved book";
}

// What became of a saved book: taken, or the fault. For a log it has the layout's number too, if the checksum was right; otherwise 0.
class [[nodiscard]] Loaded {
 public:
  constexpr Loaded(SavedFault fault, std::uint32_t layout) noexcept : fault_(fault), layout_(layout) {}

  constexpr bool accepted() const noexcept { return fault_ == SavedFault::none; }
  constexpr explicit operator bool() const noexcept { return accepted(); }
  constexpr SavedFault fault() const noexcept { return fault_; }
  constexpr std::uint32_t layout() const noexcept { return layout_; }

 private:
  SavedFault fault_;
  std::uint32_t layout_;
};

namespace detail {

constexpr std::array<std::uint32_t, 256> crc_table() noexcept {
  std::array<std::uint32_t, 256> table{};
  for (std::uint32_t i = 0; i < table.size(); ++i) {
    std::uint32_t rest = i;
    for (int bit = 0; bit < 8; ++bit) rest = (rest & 1u) != 0 ? rest >> 1u ^ 0xEDB88320u : rest >> 1u;
    table[i] = rest;
  }
  return table;
}
inline constexpr std::array<std::uint32_t, 256> kCrcTable = crc_table();

}  // namespace detail

// The CRC-32 of zip and PNG. A host may use it for what it keeps beside a book.
constexpr std::uint32_t checksum(Bytes bytes) noexcept {
  std::uint32_t rest = 0xFFFFFFFFu;
  for (std::size_t i = 0; i < bytes.size(); ++i) rest = rest >> 8u ^ detail::kCrcTable[(rest ^ bytes[i]) & 0xFFu];
  return ~rest;
}

namespace detail {

inline constexpr std::uint32_t kMagic = 0x44565342u;   // DVSB

constexpr Bytes book_in(Bytes saved) noexcept { return {saved.data() + kSavedBook, saved.size() - kSavedBook - 4}; }

// All that can be said of an envelope without the library: every fault but `unsound`.
constexpr Loaded envelope(Bytes saved) noexcept {
  if (saved.size() < kSavedBook || get(saved, kSavedMagic, 4) != kMagic) return {SavedFault::not_saved_book, 0};
  if (saved.size() < kSavedBook + 4 || get(saved, kSavedLength, 4) != saved.size() - kSavedBook - 4) return {SavedFault::wrong_length, 0};
  const std::size_t checked = saved.size() - 4;
  if (get(saved, checked, 4) != checksum(Bytes(saved.data(), checked))) return {SavedFault::damaged, 0};
  const auto layout = static_cast<std::uint32_t>(get(saved, kSavedLayout, 4));
  return {layout == DVS_LAYOUT ? SavedFault::none : SavedFault::other_layout, layout};
}

}  // namespace detail

// The saved form of a book's bytes. Book::save does this; a host needs it once for bytes that it kept without an envelope.
constexpr SavedBook wrap(const BookBytes &book) noexcept {
  SavedBook saved{};
  detail::put(saved, kSavedMagic, 4, detail::kMagic);
  detail::put(saved, kSavedLayout, 4, DVS_LAYOUT);
  detail::put(saved, kSavedLength, 4, book.size());
  for (std::size_t i = 0; i < book.size(); ++i) saved[kSavedBook + i] = book[i];
  detail::put(saved, kSavedChecksum, 4, checksum(Bytes(saved.data(), kSavedChecksum)));
  return saved;
}

// What unwrap gives: as Loaded, and the book's bytes. They are a part of the saved bytes, which must outlive them; after a fault they are empty.
class [[nodiscard]] Unwrapped : public Loaded {
 public:
  constexpr Unwrapped(Loaded loaded, Bytes book) noexcept : Loaded(loaded), book_(book) {}
  constexpr Bytes book() const noexcept { return book_; }

 private:
  Bytes book_;
};

// Checks a saved book as Book::load does, and gives the book's bytes in place.
inline Unwrapped unwrap(Bytes saved) noexcept {
  const Loaded envelope = detail::envelope(saved);
  if (!envelope) return {envelope, Bytes()};
  const Bytes book = detail::book_in(saved);
  if (dvs_check(book.data(), book.size()) != DVS_ACCEPTED) return {{SavedFault::unsound, envelope.layout()}, Bytes()};
  return {envelope, book};
}
template <class Owner, class = detail::Temporary<Owner>>
Unwrapped unwrap(Owner &&) = delete;

}  // namespace DVS_INLINE_NAMESPACE
}  // namespace dvs

#endif
