// Numbers and texts as bytes, for the file and for the line: numbers big-endian, texts with their length before them.
#pragma once

#include "dvs.hpp"

#include <string>
#include <vector>

namespace kept {

using Buffer = std::vector<std::uint8_t>;

class Writer {
 public:
  Writer &number(std::uint64_t value, unsigned width) {
    for (unsigned i = width; i > 0; --i) bytes_.push_back(static_cast<std::uint8_t>(value >> 8 * (i - 1) & 0xFFu));
    return *this;
  }
  Writer &bytes(dvs::Bytes some) {
    number(some.size(), 4);
    bytes_.insert(bytes_.end(), some.begin(), some.end());
    return *this;
  }
  const Buffer &written() const { return bytes_; }

 private:
  Buffer bytes_;
};

// Reads in the order of writing. What ends too early reads as 0, and good() is false from then on.
class Reader {
 public:
  explicit Reader(dvs::Bytes bytes) : rest_(bytes) {}

  template <class Number = std::uint64_t>
  Number number(unsigned width) {
    std::uint64_t value = 0;
    for (const std::uint8_t byte : cut(width)) value = value << 8 | byte;
    return static_cast<Number>(value);
  }
  dvs::Bytes bytes() { return cut(number<std::size_t>(4)); }
  std::string text() {
    const dvs::Bytes some = bytes();
    return {some.begin(), some.end()};
  }
  bool good() const { return good_; }
  bool at_end() const { return good_ && rest_.empty(); }

 private:
  dvs::Bytes cut(std::size_t length) {
    good_ = good_ && length <= rest_.size();
    if (!good_) return {};
    const dvs::Bytes front(rest_.data(), length);
    rest_ = dvs::Bytes(rest_.data() + length, rest_.size() - length);
    return front;
  }

  dvs::Bytes rest_;
  bool good_ = true;
};

}  // namespace kept
