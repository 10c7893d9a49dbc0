// A view's 128 messages taken by one member, joined into packets of so many.
#include "../../include/dvs.h"
#include "independent.hpp"
#include "parts.hpp"

namespace benchmark {

namespace {

// The messages one behind the other, and where each begins.
struct Joined {
  std::vector<uint8_t> bytes;
  std::vector<size_t> at = {0};

  void add(const plain::Message& message) {
    uint8_t buffer[DVS_LONGEST];
    uint32_t length = 0;
    if (independent::write_struct(message, buffer, sizeof buffer, length)) fail("a message cannot be written");
    bytes.insert(bytes.end(), buffer, buffer + length);
    at.push_back(bytes.size());
  }
};

Joined entries() {
  Joined joined;
  for (unsigned i = 0; i < DVS_ORDERED; ++i) {
    plain::Message client;
    client.kind = DVS_CLIENT, client.number = i * 1000003;
    joined.add(client);
  }
  return joined;
}

// Infos of 32 views, each of which settles one view more and opens one.
Joined infos() {
  Joined joined;
  for (uint32_t i = 1; i <= DVS_ORDERED; ++i) {
    plain::Message info;
    info.kind = DVS_INFO;
    for (uint32_t view = i; view < i + DVS_VIEWS; ++view) info.views[info.count++] = plain::View{view, 31};
    joined.add(info);
  }
  return joined;
}

// The same book before every run.
struct Book {
  uint8_t fresh[DVS_BOOK_SIZE], now[DVS_BOOK_SIZE];

  Book() {
    if (dvs_start(fresh, sizeof fresh, 5, 31, 0)) fail("a start is refused");
  }
  void begin() { memcpy(now, fresh, sizeof now); }
};

// Each packet has so many messages; the sides count those that they took.
void time_packets(const char* what, const Joined& joined, size_t many) {
  static Book together, apart;
  static independent::Kept kept;
  const size_t all = joined.at.size() - 1;
  auto packets = [&] {
    together.begin();
    uint64_t taken = 0;
    for (size_t i = 0; i < all; i += many) {
      uint8_t delivery[DVS_DELIVERY_SIZE] = {};
      const uint8_t* bytes = &joined.bytes[joined.at[i]];
      size_t size = joined.at[i + many] - joined.at[i];
      if (dvs_deliver_packet(together.now, sizeof together.now, bytes, size, 0, delivery, sizeof delivery)) break;
      taken += dvs_delivery_count(delivery);
    }
    return taken;
  };
  auto messages = [&] {
    apart.begin();
    uint64_t taken = 0;
    for (size_t i = 0; i < all; ++i)
      taken += !dvs_deliver(apart.now, sizeof apart.now, &joined.bytes[joined.at[i]], joined.at[i + 1] - joined.at[i], 0);
    return taken;
  };
  auto structs = [&] {
    uint64_t taken = 0;
    if (kept.start(5, 31, 0)) fail("a start is refused");
    for (size_t i = 0; i < all; i += many)
      taken += kept.packet(&joined.bytes[joined.at[i]], joined.at[i + many] - joined.at[i], 0);
    return taken;
  };
  if (packets() != all || messages() != all || memcmp(together.now, apart.now, sizeof together.now))
    fail(std::string("packets are taken otherwise than their messages: ") + what);
  row(std::string(what) + ", by " + std::to_string(many), measure(all, {packets, messages, structs}));
}

}  // namespace

void packets() {
  head("Packets, a view's 128 messages from one sender, in ns a message. one by one: the library's dvs_deliver.\n"
       "struct: the host keeps a struct, of which a packet asks refusal 4 once.",
       {"library", "one by one", "struct"});
  const Joined clients = entries(), long_ones = infos();
  for (size_t many : {1, 4, 16, 128}) time_packets("entries", clients, many);
  for (size_t many : {1, 4, 16, 128}) time_packets("infos of 32 views", long_ones, many);
}

}  // namespace benchmark
