// Packets with the specification's answers: what was taken, what stopped it, and that a packet leaves what its messages
// leave that are delivered one by one. Here no answer comes from the plain implementation, which is called beside the
// library as ever. Then, at random, packets for books of any kind, and packets written and read back.
#pragma once

#include "calls.hpp"
#include "generate.hpp"

namespace outside {

class PacketCases {
  using Packet = std::vector<uint8_t>;
  using Message = plain::Message;

  Calls& c_;
  Lent book_{"book", plain::kBookSize}, other_{"book", plain::kBookSize};
  Random r_{4};
  bool right_ = true;

  void expect(const char* what, uint64_t answer, uint64_t expected, const char* call = "dvs_deliver_packet") {
    if (answer == expected) return;
    printf("DIFFERENCE in %s with the specification, %s: %" PRIu64 ", expected %" PRIu64 "\n", call, what, answer, expected);
    right_ = false;
  }

  static Message made(uint8_t kind, uint32_t view, uint64_t number = 0) {
    Message m;
    m.kind = kind, m.view = view, m.number = number;
    return m;
  }
  static Message registered(uint32_t view) { return made(plain::kRegistered, view); }
  static Message client(uint32_t view, uint64_t entry) { return made(plain::kClient, view, entry); }
  static Message told(uint32_t view, uint64_t count) { return made(plain::kTold, view, count); }
  // The settled view 0, and so many open ones from `first` on, each of this set.
  static Message info(uint32_t view, uint32_t first, unsigned opens, uint8_t set) {
    Message m = made(plain::kInfo, view);
    m.views[m.count++] = View{0, 7};
    for (uint32_t id = first; m.count <= opens; ++id) m.views[m.count++] = View{id, set};
    return m;
  }

  static void join(Packet& packet, const Message& m) {
    size_t at = packet.size();
    packet.resize(at + plain::length(m)), plain::encode(m, &packet[at]);
  }
  static Packet joined(std::initializer_list<Message> messages, std::initializer_list<uint8_t> behind = {}) {
    Packet packet;
    for (const Message& m : messages) join(packet, m);
    packet.insert(packet.end(), behind);
    return packet;
  }
  static Packet many(const Message& m, unsigned times, size_t behind = 0, uint8_t value = 0) {
    Packet packet;
    for (; times > 0; --times) join(packet, m);
    packet.insert(packet.end(), behind, value);
    return packet;
  }

  // Member 0 of three in view 1 of all of them.
  void fresh() { c_.dvs_start(book_, 3, 7, 0), c_.dvs_join(book_, 1, 7); }
  unsigned taken() { return book_.theirs()[DVS_BOOK_TAKEN]; }

  // Over a delivery of any bytes.
  uint32_t put(Lent& book, const Packet& packet, uint32_t sender) {
    c_.bytes.set(packet.data(), packet.size(), packet.empty() && r_.chance(500) ? kNull : r_.chance(500) ? kFront : kBack);
    c_.delivery.resize(plain::kDeliverySize, kBack);
    r_.fill(c_.delivery.mine(), plain::kDeliverySize), c_.delivery.copy_to_theirs();
    return c_.dvs_deliver_packet(book, sender);
  }
  uint32_t put_one(Lent& book, const uint8_t* bytes, size_t size, uint32_t sender) {
    c_.bytes.set(bytes, size, kBack);
    return c_.dvs_deliver(book, sender);
  }

  struct Came { uint64_t count; uint32_t stop; };

  // A packet to a book, and its messages one by one to a copy, up to the first refusal: as many are taken, by the same they
  // are stopped, and every byte of the two books is the same. What cannot be read is delivered as it is.
  Came beside(const char* what, const Packet& packet, uint32_t sender) {
    other_.set(book_.mine(), plain::kBookSize, kBack);
    expect(what, put(book_, packet, sender), 0);
    Came came{dvs_delivery_count(c_.delivery.theirs()), dvs_delivery_stopped(c_.delivery.theirs())}, alone{0, 0};
    for (size_t at = 0, front = 0; at < packet.size() && alone.stop == 0; at += front) {
      Message m;
      bool reads = plain::read_front(&packet[at], packet.size() - at, m, front) == plain::kAccepted;
      if (!reads) front = packet.size() - at;
      alone.stop = put_one(other_, &packet[at], front, sender);
      alone.count += alone.stop == 0;
    }
    expect(what, came.count, alone.count), expect(what, came.stop, alone.stop);
    expect(what, memcmp(book_.theirs(), other_.theirs(), plain::kBookSize) != 0, 0);
    return came;
  }
  void takes(const char* what, const Packet& packet, uint64_t count, uint32_t stop, uint32_t sender = 1) {
    Came came = beside(what, packet, sender);
    expect(what, came.count, count), expect(what, came.stop, stop);
  }

  // Of an empty packet 4 is asked and nothing else.
  void empty() {
    fresh(), takes("empty", {}, 0, 0);
    for (uint32_t sender : {3u, 7u, 8u, 255u, 256u, UINT32_MAX}) takes("empty, from no member", {}, 0, 0, sender);
    c_.dvs_join(book_, 2, 1), takes("empty, from one not in the view", {}, 0, 0);
    takes("from one not in the view", joined({client(2, 5)}), 0, 42);
    c_.dvs_start(book_, 3, 6, 0), takes("empty, without a carrier view", {}, 0, 0);
    takes("without a carrier view", joined({client(0, 5)}), 0, 13), takes("rubbish without a carrier view", {77}, 0, 13);
    book_.poke(plain::kAtOwn, 3), takes("empty, own number no member's", {}, 0, 0);
    takes("own number no member's", joined({client(0, 5)}), 0, 6);
    fresh(), book_.poke(plain::kAtSide, 2);
    for (const Packet& packet : {Packet(), joined({client(1, 5)}), Packet{77}}) expect("a faulty book", put(book_, packet, 1), 4);
  }

  // Where one message is wanted what follows it is refused by 38, before 7 and 41; where a packet is, it is the next one.
  void left_over() {
    Packet packet = joined({registered(1)}, {0});
    fresh(), expect("message and 00", put_one(book_, packet.data(), packet.size(), 1), 38, "dvs_deliver");
    expect("message and 00", taken(), 0, "dvs_deliver"), takes("message and 00", packet, 1, 33), expect("message and 00", taken(), 1);
    for (const Message& wrong : {info(1, 2, 1, 8), registered(2)}) {
      packet = joined({wrong}, {0});
      expect("38 before 7 and 41", put_one(book_, packet.data(), packet.size(), 1), 38, "dvs_deliver");
      takes("7 or 41 of a packet's first", packet, 0, wrong.kind == plain::kInfo ? 7 : 41);
    }
    packet = joined({client(1, 5), client(1, 6)});
    fresh(), expect("two messages", put_one(book_, packet.data(), packet.size(), 1), 38, "dvs_deliver");
    takes("two messages", packet, 2, 0);
  }

  // Each refusal at the first message, behind one and behind two; what follows the refused one is not taken.
  void stops() {
    static const struct { const char* what; Packet bytes; uint32_t stop; } kinds[] = {
        {"cut", {1, 0, 0, 0, 1}, 32},
        {"an unknown kind", {5, 0, 0, 0, 1, 0, 0}, 33},
        {"33 views", {2, 0, 0, 0, 1, 33}, 34},
        {"an empty set", {2, 0, 0, 0, 1, 1, 0, 0, 0, 0, 0, 0}, 35},
        {"not rising", {2, 0, 0, 0, 1, 2, 0, 0, 0, 5, 7, 0, 0, 0, 5, 7, 0}, 36},
        {"told 0", {4, 0, 0, 0, 1, 0, 1, 0, 0, 0, 0, 0, 0, 0, 0}, 37},
        {"a set beyond the members", joined({info(1, 2, 1, 8)}), 7},
        {"such a set, of another view", joined({info(2, 2, 1, 8)}), 7},
        {"another view", joined({registered(2)}), 41},
        {"32 open views", joined({info(1, 40, 31, 7)}), 43},
    };
    for (const auto& kind : kinds) {
      for (unsigned before = 0; before < 3; ++before) {
        fresh();
        if (kind.stop == 43) expect("31 open views", put(book_, joined({info(1, 2, 31, 7)}), 2), 0);
        unsigned was = taken();
        Packet packet = many(client(1, 7), before);
        packet.insert(packet.end(), kind.bytes.begin(), kind.bytes.end());
        if (kind.stop != 32) join(packet, client(1, 9));
        takes(kind.what, packet, before, kind.stop), expect(kind.what, taken(), was + before);
        expect(kind.what, book_.theirs()[DVS_BOOK_INFOS], was ? 4 : 0);
        takes("the same again", packet, before, kind.stop), takes("what comes next", joined({client(1, 9)}), 1, 0);
      }
    }
    Message last = info(1, 2, 2, 7);
    for (size_t cut = 1; cut < plain::length(last); ++cut) {
      Packet packet = joined({client(1, 5), told(1, 3), last});
      packet.resize(packet.size() - cut), fresh(), takes("a cut last message", packet, 2, 32);
    }
  }

  // 128 messages of a view, and what is behind them is read before it gets 16.
  void full() {
    fresh(), takes("128", many(client(1, 5), 128), 128, 0), takes("one more", joined({told(1, 3)}), 0, 16);
    takes("of another view", joined({told(2, 3)}), 0, 41), takes("not in the view", joined({told(1, 3)}), 0, 42, 3);
    fresh(), takes("128 and one more", many(told(1, 5), 129), 128, 16), takes("empty", {}, 0, 0);
    fresh(), takes("128 and rubbish", many(info(1, 2, 3, 7), 128, 1, 77), 128, 33);
    fresh(), takes("120", many(registered(1), 120), 120, 0), takes("10 more", many(registered(1), 10), 8, 16);
    fresh(), takes("thousands", many(registered(1), 9000), 128, 16), takes("a long packet", many(info(1, 2, 31, 7), 390), 0, 16);
    fresh(), takes("long infos", many(info(1, 2, 31, 7), 390), 128, 16);
  }

  void mixed() {
    fresh();
    takes("mixed", joined({info(1, 2, 1, 7), client(1, 5), told(1, 3), registered(1), client(1, UINT64_MAX), told(1, 128)}), 6, 0);
    const uint8_t* book = book_.theirs();
    expect("infos", dvs_book_infos(book), 2), expect("registrations", dvs_book_registrations(book), 2);
    expect("told", dvs_book_told(book, 1), 128), expect("taken", taken(), 6), expect("open", book[DVS_BOOK_OPENS], 1);
    takes("of another sender", joined({registered(1), told(1, 9), info(1, 3, 1, 7), client(1, 6)}), 4, 0, 2);
    expect("infos", dvs_book_infos(book), 6), expect("told", dvs_book_told(book, 2), 9), expect("open", book[DVS_BOOK_OPENS], 2);
    takes("of its own", joined({info(1, 2, 0, 7), client(1, 6)}), 2, 0, 0), expect("attempt", c_.dvs_attempt(book_), 0);
    for (uint64_t entry : {uint64_t{5}, UINT64_MAX, uint64_t{6}, uint64_t{6}})
      expect("hand", c_.dvs_hand(book_), 0), expect("hand", dvs_event_entry(c_.event.theirs()), entry);
  }

  // A sender is a number of 32 bits.
  void senders() {
    for (uint32_t sender : {3u, 7u, 8u, 31u, 32u, 33u, 255u, 256u, 257u, 258u, 65537u, 0x80000001u, UINT32_MAX})
      fresh(), takes("a sender", joined({client(1, 5), client(1, 6)}), 0, 42, sender);
  }

  void rubbish() {
    for (unsigned value = 0; value < 256; ++value) {
      Packet packet(60000, static_cast<uint8_t>(value));
      fresh(), takes("rubbish", packet, 0, value == 0 || value > 4 ? 33 : 34);
      takes("rubbish behind a message", many(client(1, 5), 1, 60000, packet[0]), 1, value == 0 || value > 4 ? 33 : 34);
    }
  }

  // Messages written one behind the other are read back in order, and the packet has no more.
  void written(Random& r) {
    std::vector<Packet> records;
    Packet packet, record(plain::kRecordSize), book(plain::kBookSize);
    random_book(r, book.data()), c_.usual();
    for (unsigned n = r.below(12); n > 0; --n) {
      plain::store_record(random_message(r, book.data()), record.data());
      c_.message.set(record.data(), record.size(), kBack);
      if (c_.dvs_write() != plain::kAccepted) continue;
      records.push_back(record);
      packet.insert(packet.end(), c_.buffer.theirs(), c_.buffer.theirs() + dvs_length(c_.length.theirs()));
    }
    size_t at = 0;
    for (const Packet& m : records) {
      c_.bytes.set(&packet[at], packet.size() - at, r.chance(500) ? kFront : kBack);
      r.fill(c_.message.mine(), plain::kRecordSize), c_.message.copy_to_theirs();
      expect("what was written", c_.dvs_read_front(), 0, "dvs_read_front");
      expect("what was written", memcmp(c_.message.theirs(), m.data(), plain::kRecordSize) != 0, 0, "dvs_read_front");
      at += dvs_length(c_.length.theirs());
    }
    expect("what was written, its end", at, packet.size(), "dvs_read_front");
  }

 public:
  explicit PacketCases(Calls& c) : c_(c) {
    for (Lent* book : {&book_, &other_}) book->resize(plain::kBookSize, kBack), book->copy_to_theirs();
  }

  // False if an answer is not the specification's.
  bool run() {
    empty(), left_over(), stops(), full(), mixed(), senders(), rubbish();
    return right_;
  }

  // Packets for a sound book, one after the other; some written and read back.
  void some(Random& r) {
    for (unsigned n = 0; n < 40; ++n) {
      Packet packet;
      random_book(r, book_.mine()), book_.copy_to_theirs();
      for (unsigned k = r.between(1, 4); k > 0; --k) {
        random_packet(r, book_.mine(), packet);
        uint8_t set = book_.mine()[plain::kAtCarrier + 5];
        uint32_t sender = r.below(8);
        while (set && !(set >> sender & 1)) sender = (sender + 1) % 8;
        beside("random", packet, r.chance(970) ? sender : r.odd_word());
      }
      written(r);
    }
    if (!right_) c_.tally.say_again();
  }
};

}  // namespace outside
