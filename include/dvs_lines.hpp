// dvs_lines.hpp: events and refusals as lines of text, in the words of the bench (docs/SPEC.md, 'The bench'), so that every log has one format. dvs.hpp
// includes it.
//
//   log << dvs::line(*event) << '\n';                                         // attempt 0 1 3: member 0 attempted view 1 with set 3
//   const dvs::Line said = dvs::line(*event);
//   std::printf("%s\n", said.c_str());
#ifndef DVS_LINES_HPP
#define DVS_LINES_HPP

#include "dvs_types.hpp"

#include <array>
#include <cstddef>
#include <cstdint>
#include <iosfwd>
#include <string_view>

namespace dvs {
inline namespace DVS_INLINE_NAMESPACE {

// A line by value, without the byte that ends it. What text() and c_str() give is a part of it, so it has to have a name.
class Line {
 public:
  constexpr std::string_view text() const & noexcept { return {places_.data(), size_}; }
  std::string_view text() const && = delete;
  constexpr const char *c_str() const & noexcept { return places_.data(); }
  const char *c_str() const && = delete;

  template <class Traits>
  friend std::basic_ostream<char, Traits> &operator<<(std::basic_ostream<char, Traits> &out, const Line &line) {
    return out << line.c_str();
  }
  friend constexpr Line line(const Event &event) noexcept;
  friend constexpr Line line(Refusal refusal) noexcept;

 private:
  constexpr explicit Line(std::string_view word) noexcept { put(word); }
  constexpr Line &with(std::uint64_t number) noexcept {
    std::array<char, 21> digits{};   // a space, then up to 20 digits
    std::size_t at = digits.size();
    do {
      digits[--at] = static_cast<char>('0' + number % 10u);
      number /= 10u;
    } while (number != 0);
    digits[--at] = ' ';
    put(std::string_view(digits.data() + at, digits.size() - at));
    return *this;
  }
  constexpr void put(std::string_view letters) noexcept {
    for (char letter : letters) places_[size_++] = letter;
  }

  std::array<char, 64> places_{};   // the longest line has 58 letters: `hand` and four numbers; zeros after the last letter
  std::size_t size_ = 0;
};
constexpr bool operator==(const Line &a, const Line &b) noexcept { return a.text() == b.text(); }
constexpr bool operator!=(const Line &a, const Line &b) noexcept { return !(a == b); }

// The bench's reply to an accepted step: `ok` for a step without an event. A kind of a later version is `event` with the member, the view and its number.
constexpr Line line(const Event &event) noexcept {
  const auto about = [&event](std::string_view word) { return Line(word).with(number(event.member)).with(number(event.view)); };
  switch (event.kind) {
    case EventKind::none: return Line("ok");
    case EventKind::attempted: return about("attempt").with(event.set.bits);
    case EventKind::registered: return about("register");
    case EventKind::sent: return about("send").with(event.entry);
    case EventKind::handed: return about("hand").with(number(event.sender)).with(event.entry);
    case EventKind::safe: return about("safe").with(number(event.sender)).with(event.entry);
  }
  return about("event").with(static_cast<std::uint32_t>(event.kind));
}

// The bench's reply to a refused step, with the number alone; text(refusal) gives the words. Refusal::none is `ok`.
constexpr Line line(Refusal refusal) noexcept { return refusal == Refusal::none ? Line("ok") : Line("refused").with(number(refusal)); }

}  // namespace DVS_INLINE_NAMESPACE
}  // namespace dvs

#endif
