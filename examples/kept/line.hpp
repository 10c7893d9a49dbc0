// How an office hears and speaks. Here it is one socket to the process that plays the carrier and the world.
#pragma once

#include "bytes.hpp"

#include <optional>
#include <variant>

namespace kept {

// ---- what comes to an office; a dvs::View is one that the carrier gives it

// The next messages of the order of the office's view, all of one sender.
struct Packet {
  dvs::Member sender{};
  Buffer messages;
};
// This office is the lowest of these, which can hear each other, and has to make their view. `highest` is the highest identifier that one of them has seen.
struct Make {
  dvs::Set set;
  std::uint32_t highest = 0;
};
// A client wants the mark changed.
struct Wish {
  unsigned mark = 0;
};
using Arrival = std::variant<dvs::View, Packet, Make, Wish>;

// ---- what leaves it

// Events with the number of the first: numbers of one office go on without a gap, and an event that is published a second time has its number again.
struct Published {
  std::uint64_t number = 0;
  std::vector<std::string> events;
};
struct Posted {
  std::uint32_t highest = 0;  // the highest identifier that the office has seen
  std::optional<dvs::View> made;
  Buffer packet;
};
using Departure = std::variant<Published, Posted>;

// One end of the socket. Whoever is at the other end may be gone: what is sent then is lost, and nothing more comes.
class Line {
 public:
  explicit Line(int socket) : socket_(socket) {}

  void send(const std::vector<Arrival> &came) const;
  void send(const Published &published) const;
  void send(const Posted &posted) const;
  // They wait. None: the other end is gone, and all that it had sent was taken.
  std::optional<std::vector<Arrival>> take_arrivals() const;
  std::optional<Departure> take_departure() const;

 private:
  void put(const Buffer &bytes) const;
  std::optional<Buffer> get() const;

  int socket_;
};

}  // namespace kept
