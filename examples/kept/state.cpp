#include "state.hpp"

#include "disk.hpp"

namespace kept {
namespace {

constexpr std::uint32_t kMagic = 0x4B455054;  // KEPT

}  // namespace

Buffer pack(const State &state) {
  const auto book = state.book.save();
  Writer body;
  body.bytes(book);
  for (const std::uint64_t entry : state.copy) body.number(entry, 8);
  body.number(state.version, 8).number(state.highest, 4).number(state.number, 8).number(state.events.size(), 4);
  for (const std::string &event : state.events) body.bytes(event);
  return Writer().number(kMagic, 4).number(dvs::checksum(body.written()), 4).bytes(body.written()).written();
}

bool unpack(dvs::Bytes bytes, State &state) {
  Reader file(bytes);
  const bool magic = file.number(4) == kMagic;
  const std::uint64_t crc = file.number(4);
  const dvs::Bytes packed = file.bytes();
  if (!magic || !file.at_end() || crc != dvs::checksum(packed)) return false;
  Reader body(packed);
  const auto loaded = state.book.load(body.bytes());
  expect(loaded.accepted(), text(loaded.fault()));
  for (std::uint64_t &entry : state.copy) entry = body.number(8);
  state.version = body.number(8);
  state.highest = body.number<std::uint32_t>(4);
  state.number = body.number(8);
  state.events.clear();
  for (std::uint64_t left = body.number(4); left > 0 && body.good(); --left) state.events.push_back(body.text());
  return body.at_end();
}

}  // namespace kept
