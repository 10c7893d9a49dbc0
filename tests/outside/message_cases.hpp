// Cases of the reader and the writer: messages of every kind, written and read back, changed, cut, lengthened, or noise;
// and several, one behind the other.
#pragma once

#include "calls.hpp"
#include "damage.hpp"

namespace outside {

class MessageCases {
  Calls& c_;

  static Flush flush(Random& r) { return r.chance(500) ? kFront : kBack; }

  static plain::Message any_message(Random& r) {
    plain::Message m;
    m.kind = static_cast<uint8_t>(1 + r.below(4));
    m.view = r.odd_word();
    if (plain::numbers_of(m.kind)) m.number = m.kind == plain::kTold ? 1 + r.below(128) : r.odd_long();
    if (m.kind != plain::kInfo) return m;
    unsigned most = r.chance(300) ? 32 : r.between(1, 32);
    uint64_t id = r.chance(700) ? r.below(300) : r.odd_word();
    for (; m.count < most && id <= UINT32_MAX; id += 1 + (r.chance(500) ? 0 : r.below(100000)))
      m.views[m.count++] = plain::View{static_cast<uint32_t>(id), static_cast<uint8_t>(1 + r.below(255))};
    return m;
  }

  static plain::Message shortest(unsigned kind) {
    plain::Message m;
    m.kind = static_cast<uint8_t>(kind), m.number = plain::numbers_of(kind), m.count = kind == plain::kInfo;
    m.views[0] = plain::View{0, 7};
    return m;
  }

  // The record of a message over noise, damaged half of the time.
  void lend_record(Random& r, const plain::Message& m) {
    uint8_t record[plain::kRecordSize];
    plain::store_record(m, record);
    size_t used = plain::kRecordViews + plain::kViewSize * m.count;
    if (r.chance(500)) r.fill(record + used, plain::kRecordSize - used);
    for (unsigned n = r.chance(500) ? 0 : r.between(1, 3); n > 0; --n) {
      size_t at = r.chance(500) ? r.below(20) : r.below(used);
      record[at] = other_byte(r, record[at]);
    }
    c_.message.set(record, r.chance(990) ? plain::kRecordSize : r.below(plain::kRecordSize), flush(r));
  }

  void lend_out(Random& r, size_t near) {
    size_t room = r.chance(600) ? plain::kLongest : r.chance(500) ? near - r.below(2) : r.below(200);
    c_.buffer.resize(room, flush(r));
    r.fill(c_.buffer.mine(), room), c_.buffer.copy_to_theirs();
    c_.length.resize(r.chance(990) ? plain::kLengthSize : r.below(9), flush(r));
    c_.length.copy_to_theirs();
  }

  void lend_in(Random& r, const uint8_t* bytes, size_t size) {
    c_.bytes.set(bytes, size, flush(r));
    c_.message.resize(r.chance(990) ? plain::kRecordSize : r.below(200), flush(r));
    r.fill(c_.message.mine(), c_.message.size()), c_.message.copy_to_theirs();
  }

  // The bytes as a whole, and the message at their front, over a record and a length of any bytes.
  void read_both(Random& r, const uint8_t* bytes, size_t size) {
    lend_in(r, bytes, size), c_.dvs_read();
    lend_in(r, bytes, size);
    c_.length.resize(r.chance(990) ? plain::kLengthSize : r.below(9), flush(r));
    r.fill(c_.length.mine(), c_.length.size()), c_.length.copy_to_theirs();
    c_.dvs_read_front();
  }

 public:
  explicit MessageCases(Calls& c) : c_(c) {}

  void some(Random& r) {
    for (unsigned n = 0; n < 160; ++n) {
      plain::Message m = any_message(r);
      lend_record(r, m);
      lend_out(r, plain::length(m));
      c_.dvs_write();
      uint8_t bytes[400];
      size_t size = plain::length(m);
      plain::encode(m, bytes);
      if (r.chance(700)) size = damage_bytes(r, bytes, size, sizeof bytes);
      if (r.chance(50)) size = r.below(sizeof bytes), r.fill(bytes, size), bytes[0] = static_cast<uint8_t>(r.below(6));
      read_both(r, bytes, size);
    }
  }

  // Every message cut at every place, with one byte more, with every value at each of its bytes, and into every room.
  void every(Random& r) {
    for (unsigned n = 0; n < 12; ++n) {
      plain::Message m = n < 4 ? shortest(n + 1) : any_message(r);
      uint8_t bytes[200] = {}, record[plain::kRecordSize];
      plain::encode(m, bytes);
      plain::store_record(m, record);
      size_t size = plain::length(m);
      for (size_t cut = 0; cut <= size + 2; ++cut) read_both(r, bytes, cut);
      for (size_t at = 0; at < size; ++at) {
        for (unsigned value = 0; value < 256; ++value) {
          uint8_t was = bytes[at];
          bytes[at] = static_cast<uint8_t>(value);
          read_both(r, bytes, size);
          bytes[at] = was;
        }
      }
      for (size_t at = 0; at < plain::kRecordViews + plain::kViewSize * m.count; ++at) {
        for (unsigned value = 0; value < 256; ++value) {
          uint8_t was = record[at];
          record[at] = static_cast<uint8_t>(value);
          c_.message.set(record, sizeof record, flush(r)), lend_out(r, size), c_.dvs_write();
          record[at] = was;
        }
      }
      for (size_t room = 0; room <= size + 2; ++room) {
        c_.message.set(record, sizeof record, flush(r)), lend_out(r, size);
        c_.buffer.resize(room, room == 0 && n % 2 ? kNull : kBack), c_.buffer.copy_to_theirs();
        c_.dvs_write();
      }
    }
  }
};

}  // namespace outside
