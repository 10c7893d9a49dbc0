#include "line.hpp"

#include "disk.hpp"

#include <cerrno>
#include <sys/socket.h>

namespace kept {
namespace {

enum Kind : std::uint8_t { kView = 1, kPacket, kMake, kWish, kPublished, kPosted };
constexpr std::size_t kLongest = 1 << 17;

void write(Writer &writer, dvs::View view) { writer.number(dvs::number(view.identifier), 4).number(view.set.bits, 1); }
dvs::View read_view(Reader &reader) {
  const dvs::Identifier identifier{reader.number<std::uint32_t>(4)};
  return {identifier, dvs::Set(reader.number<std::uint32_t>(1))};
}

struct WriteArrival {
  Writer &writer;
  void operator()(dvs::View view) const { write(writer.number(kView, 1), view); }
  void operator()(const Packet &packet) const { writer.number(kPacket, 1).number(dvs::number(packet.sender), 1).bytes(packet.messages); }
  void operator()(const Make &make) const { writer.number(kMake, 1).number(make.set.bits, 1).number(make.highest, 4); }
  void operator()(Wish wish) const { writer.number(kWish, 1).number(wish.mark, 1); }
};

Arrival read_arrival(Reader &reader) {
  switch (reader.number(1)) {
    case kView:
      return read_view(reader);
    case kPacket: {
      const dvs::Member sender{reader.number<std::uint32_t>(1)};
      const dvs::Bytes messages = reader.bytes();
      return Packet{sender, Buffer(messages.begin(), messages.end())};
    }
    case kMake: {
      const dvs::Set set(reader.number<std::uint32_t>(1));
      return Make{set, reader.number<std::uint32_t>(4)};
    }
    default:
      return Wish{reader.number<unsigned>(1)};
  }
}

}  // namespace

void Line::send(const std::vector<Arrival> &came) const {
  Writer writer;
  for (const Arrival &arrival : came) std::visit(WriteArrival{writer}, arrival);
  put(writer.written());
}

void Line::send(const Published &published) const {
  Writer writer;
  writer.number(kPublished, 1).number(published.number, 8).number(published.events.size(), 4);
  for (const std::string &event : published.events) writer.bytes(event);
  put(writer.written());
}

void Line::send(const Posted &posted) const {
  Writer writer;
  writer.number(kPosted, 1).number(posted.highest, 4).bytes(posted.packet);
  if (posted.made) write(writer, *posted.made);
  put(writer.written());
}

std::optional<std::vector<Arrival>> Line::take_arrivals() const {
  const std::optional<Buffer> bytes = get();
  if (!bytes) return std::nullopt;
  std::vector<Arrival> came;
  for (Reader reader(*bytes); reader.good() && !reader.at_end();) came.push_back(read_arrival(reader));
  return came;
}

std::optional<Departure> Line::take_departure() const {
  const std::optional<Buffer> bytes = get();
  if (!bytes) return std::nullopt;
  Reader reader(*bytes);
  if (reader.number(1) == kPublished) {
    Published published{reader.number(8), {}};
    for (std::uint64_t left = reader.number(4); left > 0; --left) published.events.push_back(reader.text());
    return published;
  }
  Posted posted;
  posted.highest = reader.number<std::uint32_t>(4);
  const dvs::Bytes packet = reader.bytes();
  posted.packet.assign(packet.begin(), packet.end());
  if (!reader.at_end()) posted.made = read_view(reader);
  return posted;
}

void Line::put(const Buffer &bytes) const {
  const ssize_t sent = ::send(socket_, bytes.data(), bytes.size(), MSG_NOSIGNAL);
  expect_done(sent == static_cast<ssize_t>(bytes.size()) || errno == EPIPE || errno == ECONNRESET, "the line takes what is sent");
}

std::optional<Buffer> Line::get() const {
  Buffer bytes(kLongest);
  ssize_t got = 0;
  // A reset is told once, before what the other end had sent.
  do got = recv(socket_, bytes.data(), bytes.size(), 0);
  while (got < 0 && (errno == EINTR || errno == ECONNRESET));
  expect_done(got >= 0, "the line is read");
  if (got == 0) return std::nullopt;
  bytes.resize(static_cast<std::size_t>(got));
  return bytes;
}

}  // namespace kept
