// Packets, one message and the reader's front by code of its own, over the library's other calls, with one fault in it:
// WRONG_FUNCTION is the function before the colon and WRONG_FAULT one of
//
//   dvs_deliver_packet: packet-right                    none, and nothing is reported
//   dvs_deliver_packet: packet-goes-on                  it goes on behind a refused message
//   dvs_deliver_packet: packet-counts-refused           the refused message is counted too
//   dvs_deliver_packet: packet-gives-stop               what stopped it is the call's answer
//   dvs_deliver_packet: packet-keeps-stop               what stopped it is not in the delivery
//   dvs_deliver_packet: packet-asks-6-of-empty          an empty packet gets 6
//   dvs_deliver_packet: packet-asks-13-of-empty         an empty packet gets 13
//   dvs_deliver_packet: packet-asks-42-of-empty         an empty packet gets 42
//   dvs_deliver_packet: packet-gives-32-of-empty        an empty packet is stopped by 32
//   dvs_deliver_packet: packet-gives-38                 a message with something behind it that is none gets 38
//   dvs_deliver_packet: packet-puts-back                after a refusal the book is as it was
//   dvs_deliver_packet: packet-reads-all-first          nothing is taken where a later message cannot be read
//   dvs_deliver_packet: packet-takes-one                only the first message is taken
//   dvs_deliver_packet: packet-ends-at-128              it ends behind 128 messages, with no refusal
//   dvs_deliver_packet: packet-stops-by-4               a faulty book is accepted, with 4 in the delivery
//   dvs_deliver_packet: packet-writes-on-4              the delivery is written on 4 too
//   dvs_deliver_packet: packet-takes-long-delivery      a delivery that is too long is taken
//   dvs_deliver_packet: packet-counts-bytes             the bytes are counted, not the messages
//   dvs_deliver_packet: packet-counts-backwards         the count's last byte stands first
//   dvs_deliver_packet: packet-narrows-sender           of the sender the last byte counts
//   dvs_deliver: deliver-right                          none, and nothing is reported
//   dvs_deliver: deliver-as-packet                      a packet of one: the message at the front is taken, whatever lies behind
//   dvs_deliver: deliver-asks-38-last                   38 comes behind 7, 41, 42, 16 and 43
//   dvs_deliver: deliver-takes-then-38                  38 is given, and the message is taken
//   dvs_read_front: front-right                         none, and nothing is reported
//   dvs_read_front: front-gives-38                      the bytes must be one message
//   dvs_read_front: front-takes-all                     all the bytes are said to be taken
//   dvs_read_front: front-writes-length-on-refusal      0 bytes are said to be taken of what cannot be read
//   dvs_read_front: front-takes-long-length             a place for the number of bytes that is too long is taken
#pragma once

#include <cstring>
#include <vector>

#include "real.hpp"

struct WrongPacket {
  const char* fault;
  bool is(const char* name) const { return strcmp(fault, name) == 0; }

  // How many bytes the message at the front takes, by the only length for which the whole can be read; 0 for none.
  static size_t front(const uint8_t* bytes, size_t size, uint8_t* message) {
    for (size_t length = 7; length <= size && length <= DVS_LONGEST; ++length)
      if (__real_dvs_read(bytes, length, message, DVS_MESSAGE_SIZE) == 0) return length;
    return 0;
  }
  static size_t front(const uint8_t* bytes, size_t size) {
    uint8_t message[DVS_MESSAGE_SIZE];
    return front(bytes, size, message);
  }
  // What the reader says of bytes at whose front there is no message.
  static uint32_t unreadable(const uint8_t* bytes, size_t size) {
    uint8_t message[DVS_MESSAGE_SIZE];
    return __real_dvs_read(bytes, size, message, sizeof message);
  }
  static void put(uint8_t* at, uint64_t number, bool backwards = false) {
    for (unsigned i = 0; i < 4; ++i, number >>= 8) at[backwards ? i : 3 - i] = static_cast<uint8_t>(number);
  }

  // Only 4 is asked of an empty packet.
  uint32_t of_empty(const uint8_t* book, uint32_t sender) const {
    bool carried = book[DVS_BOOK_CARRIER] == 1;
    if (is("packet-asks-6-of-empty") && book[DVS_BOOK_SELF] >= book[DVS_BOOK_MEMBERS]) return DVS_REFUSED_NO_SUCH_MEMBER;
    if (is("packet-asks-13-of-empty") && !carried) return DVS_REFUSED_NO_CARRIER_VIEW;
    bool in = sender < DVS_MEMBERS && dvs_view_set(book + DVS_BOOK_CARRIER + 1) >> sender & 1;
    if (is("packet-asks-42-of-empty") && carried && !in) return DVS_REFUSED_SENDER_NOT_IN_VIEW;
    return is("packet-gives-32-of-empty") ? DVS_REFUSED_ENDS_EARLY : 0;
  }
  bool all_read(const uint8_t* bytes, size_t size) const {
    for (size_t at = 0, taken = 0; at < size; at += taken)
      if ((taken = front(bytes + at, size - at)) == 0) return false;
    return true;
  }

  uint32_t packet(uint8_t* book, size_t book_size, const uint8_t* bytes, size_t size, uint32_t sender, uint8_t* delivery, size_t delivery_size) const {
    if (delivery_size != DVS_DELIVERY_SIZE && (!is("packet-takes-long-delivery") || delivery_size < DVS_DELIVERY_SIZE)) return DVS_REFUSED_RECORDS_UNSOUND;
    if (__real_dvs_check(book, book_size) == DVS_REFUSED_RECORDS_UNSOUND) {
      if (is("packet-writes-on-4") || is("packet-stops-by-4")) put(delivery, 0), delivery[4] = DVS_REFUSED_RECORDS_UNSOUND;
      return is("packet-stops-by-4") ? 0 : DVS_REFUSED_RECORDS_UNSOUND;
    }
    const std::vector<uint8_t> before(book, book + book_size);
    if (is("packet-narrows-sender")) sender &= 255;
    bool unread = is("packet-reads-all-first") && !all_read(bytes, size);
    uint32_t stop = size == 0 ? of_empty(book, sender) : 0;
    uint64_t count = 0;
    size_t at = 0;
    while (at < size && (stop == 0 || is("packet-goes-on"))) {
      size_t taken = front(bytes + at, size - at);
      uint32_t refused = unread ? DVS_REFUSED_ENDS_EARLY : __real_dvs_deliver(book, book_size, bytes + at, taken ? taken : size - at, sender);
      bool rubbish = taken != 0 && at + taken < size && front(bytes + at + taken, size - at - taken) == 0;
      if (is("packet-gives-38") && refused == 0 && rubbish) refused = DVS_REFUSED_BYTES_LEFT_OVER;
      if (refused != 0 && stop == 0) stop = refused;
      if (taken == 0) break;
      at += taken, count += refused == 0;
      if (is("packet-takes-one")) break;
      if (is("packet-ends-at-128") && count == DVS_ORDERED) break;
    }
    if (is("packet-puts-back") && stop != 0) memcpy(book, before.data(), book_size);
    if (is("packet-counts-refused") && stop != 0) ++count;
    if (is("packet-gives-stop") && stop != 0) return stop;
    put(delivery, is("packet-counts-bytes") ? at : count, is("packet-counts-backwards"));
    delivery[DVS_DELIVERY_STOPPED] = static_cast<uint8_t>(is("packet-keeps-stop") ? 0 : stop);
    return 0;
  }

  uint32_t deliver(uint8_t* book, size_t book_size, const uint8_t* bytes, size_t size, uint32_t sender) const {
    uint32_t answer = __real_dvs_deliver(book, book_size, bytes, size, sender);
    if (answer != DVS_REFUSED_BYTES_LEFT_OVER || is("deliver-right")) return answer;
    std::vector<uint8_t> taken(book, book + book_size);
    uint32_t without = __real_dvs_deliver(taken.data(), book_size, bytes, front(bytes, size), sender);
    if (!is("deliver-asks-38-last")) memcpy(book, taken.data(), book_size);
    if (is("deliver-takes-then-38")) return answer;
    return is("deliver-as-packet") || without != 0 ? without : answer;
  }

  uint32_t read_front(const uint8_t* bytes, size_t size, uint8_t* message, size_t message_size, uint8_t* length, size_t length_size) const {
    bool longer = is("front-takes-long-length") && length_size > DVS_LENGTH_SIZE;
    if (message_size != DVS_MESSAGE_SIZE || (length_size != DVS_LENGTH_SIZE && !longer)) return DVS_REFUSED_RECORDS_UNSOUND;
    uint8_t read[DVS_MESSAGE_SIZE];
    size_t taken = front(bytes, size, read);
    if (taken == 0 || (is("front-gives-38") && taken != size)) {
      if (is("front-writes-length-on-refusal")) put(length, 0);
      return taken == 0 ? unreadable(bytes, size) : DVS_REFUSED_BYTES_LEFT_OVER;
    }
    memcpy(message, read, sizeof read), put(length, is("front-takes-all") ? size : taken);
    return 0;
  }
};
