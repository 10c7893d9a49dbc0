// Messages: the bytes that go over the line, the record that a reader fills and a writer takes, and the refusals of both
// in the specification's order.
#pragma once

#include "layout.hpp"

namespace plain {

struct Message {
  uint8_t kind = 0;
  uint32_t view = 0;    // the identifier of the view sent in
  uint64_t number = 0;  // of client and told
  unsigned count = 0;   // of views: the settled view first
  View views[kViews] = {};
};

inline bool views_fit(unsigned kind, unsigned count) {
  return kind == kInfo ? count >= 1 && count <= kViews : count == 0;
}

inline unsigned numbers_of(unsigned kind) { return kind == kClient || kind == kTold ? 1 : 0; }

// 35 to 37, over the whole message.
inline Refusal content(const Message& m) {
  for (unsigned i = 0; i < m.count; ++i)
    if (m.views[i].set == 0) return kEmptySet;
  for (unsigned i = 1; i < m.count; ++i)
    if (m.views[i].id <= m.views[i - 1].id) return kNotRising;
  if (m.kind == kTold && (m.number < 1 || m.number > kOrdered)) return kToldOutOfRange;
  return kAccepted;
}

// Reads the message at the front of the bytes, and says how many of them its sections have.
inline Refusal read_front(const uint8_t* bytes, size_t size, Message& m, size_t& taken) {
  size_t at = 0;
  auto left = [&](size_t width) { return size - at >= width; };
  m = Message();
  if (!left(1)) return kEndsEarly;
  m.kind = bytes[at++];
  if (m.kind < 1 || m.kind > 4) return kUnknownKind;
  if (!left(4)) return kEndsEarly;
  m.view = static_cast<uint32_t>(get(bytes + at, 4));
  at += 4;
  if (!left(1)) return kEndsEarly;
  m.count = bytes[at++];
  if (!views_fit(m.kind, m.count)) return kSectionCount;
  for (unsigned i = 0; i < m.count; ++i, at += kViewSize) {
    if (!left(kViewSize)) return kEndsEarly;
    m.views[i] = get_view(bytes + at);
  }
  if (!left(1)) return kEndsEarly;
  if (bytes[at++] != numbers_of(m.kind)) return kSectionCount;
  if (numbers_of(m.kind) == 1) {
    if (!left(8)) return kEndsEarly;
    m.number = get(bytes + at, 8);
    at += 8;
  }
  taken = at;
  return content(m);
}

// The bytes must be one message as a whole.
inline Refusal read(const uint8_t* bytes, size_t size, Message& m) {
  size_t taken = 0;
  if (Refusal r = read_front(bytes, size, m, taken)) return r;
  return taken == size ? kAccepted : kBytesLeftOver;
}

inline size_t length(const Message& m) { return 7 + kViewSize * m.count + 8 * numbers_of(m.kind); }

// The bytes of a message, fit or not, in a buffer that is long enough.
inline void encode(const Message& m, uint8_t* buffer) {
  *buffer++ = m.kind;
  put(buffer, 4, m.view), buffer += 4;
  *buffer++ = static_cast<uint8_t>(m.count);
  for (unsigned i = 0; i < m.count; ++i, buffer += kViewSize) put_view(buffer, m.views[i]);
  *buffer++ = static_cast<uint8_t>(numbers_of(m.kind));
  if (numbers_of(m.kind) == 1) put(buffer, 8, m.number);
}

// Writes a message to the front of a buffer; what lies behind it stays.
inline Refusal write(const Message& m, uint8_t* buffer, size_t size) {
  if (m.kind < 1 || m.kind > 4) return kUnknownKind;
  if (!views_fit(m.kind, m.count)) return kSectionCount;
  if (Refusal r = content(m)) return r;
  if (size < length(m)) return kBufferTooShort;
  encode(m, buffer);
  return kAccepted;
}

// A message's record: every byte of it is written, 0 where the message has nothing.
inline void store_record(const Message& m, uint8_t* record) {
  memset(record, 0, kRecordSize);
  record[kRecordKind] = m.kind;
  put(record + kRecordView, 4, m.view);
  put(record + kRecordNumber, 8, m.number);
  record[kRecordCount] = static_cast<uint8_t>(m.count);
  for (unsigned i = 0; i < m.count; ++i) put_view(record + kRecordViews + kViewSize * i, m.views[i]);
}

// The message that a record is. A count beyond the places is kept as it is; no view is then read.
inline Message load_record(const uint8_t* record) {
  Message m;
  m.kind = record[kRecordKind];
  m.view = static_cast<uint32_t>(get(record + kRecordView, 4));
  m.number = get(record + kRecordNumber, 8);
  m.count = record[kRecordCount];
  for (unsigned i = 0; m.count <= kViews && i < m.count; ++i)
    m.views[i] = get_view(record + kRecordViews + kViewSize * i);
  return m;
}

// Reader and writer as a host calls them, with lent records and lengths of any size.
inline Refusal read_record(const uint8_t* bytes, size_t size, Range record) {
  Message m;
  if (record.size != kRecordSize) return kRecordsUnsound;
  if (Refusal r = read(bytes, size, m)) return r;
  store_record(m, record.at);
  return kAccepted;
}

inline Refusal read_front_record(const uint8_t* bytes, size_t size, Range record, Range len) {
  Message m;
  size_t taken = 0;
  if (record.size != kRecordSize || len.size != kLengthSize) return kRecordsUnsound;
  if (Refusal r = read_front(bytes, size, m, taken)) return r;
  store_record(m, record.at);
  put(len.at, kLengthSize, taken);
  return kAccepted;
}

inline Refusal write_record(const uint8_t* record, size_t record_size, Range buffer, Range len) {
  if (record_size != kRecordSize || len.size != kLengthSize) return kRecordsUnsound;
  Message m = load_record(record);
  if (Refusal r = write(m, buffer.at, buffer.size)) return r;
  put(len.at, kLengthSize, length(m));
  return kAccepted;
}

}  // namespace plain
