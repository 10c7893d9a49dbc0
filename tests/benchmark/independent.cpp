// The independent implementations' calls.
#include "independent.hpp"

namespace independent {

using namespace plain;

uint32_t start(uint8_t* book, size_t book_size, uint32_t members, uint32_t first_set, uint32_t own) {
  return Alone({book, book_size}).start(members, first_set, own);
}
uint32_t join(uint8_t* book, size_t book_size, uint32_t view, uint32_t set) {
  return Alone({book, book_size}).join(view, set);
}
uint32_t pass(uint8_t* book, size_t book_size, uint8_t* buffer, size_t buffer_size, uint8_t* length,
              size_t length_size) {
  return Alone({book, book_size}).pass({buffer, buffer_size}, {length, length_size});
}
uint32_t deliver(uint8_t* book, size_t book_size, const uint8_t* bytes, size_t bytes_size, uint32_t sender) {
  return Alone({book, book_size}).deliver(bytes, bytes_size, sender);
}
uint32_t attempt(uint8_t* book, size_t book_size, uint8_t* event, size_t event_size) {
  return Alone({book, book_size}).attempt({event, event_size});
}
uint32_t enroll(uint8_t* book, size_t book_size, uint8_t* event, size_t event_size) {
  return Alone({book, book_size}).enroll({event, event_size});
}
uint32_t send(uint8_t* book, size_t book_size, uint64_t entry, uint8_t* event, size_t event_size) {
  return Alone({book, book_size}).send(entry, {event, event_size});
}
uint32_t hand(uint8_t* book, size_t book_size, uint8_t* event, size_t event_size) {
  return Alone({book, book_size}).hand({event, event_size});
}
uint32_t tell(uint8_t* book, size_t book_size) { return Alone({book, book_size}).tell(); }
uint32_t safe(uint8_t* book, size_t book_size, uint8_t* event, size_t event_size) {
  return Alone({book, book_size}).safe({event, event_size});
}
uint32_t collect(uint8_t* book, size_t book_size) { return Alone({book, book_size}).collect(); }

uint32_t read(const uint8_t* bytes, size_t bytes_size, uint8_t* message, size_t message_size) {
  return read_record(bytes, bytes_size, {message, message_size});
}
uint32_t write(const uint8_t* message, size_t message_size, uint8_t* buffer, size_t buffer_size, uint8_t* length,
               size_t length_size) {
  return write_record(message, message_size, {buffer, buffer_size}, {length, length_size});
}
uint32_t read_struct(const uint8_t* bytes, size_t bytes_size, Message& message) {
  return plain::read(bytes, bytes_size, message);
}
uint32_t write_struct(const Message& message, uint8_t* buffer, size_t buffer_size, uint32_t& length) {
  if (Refusal r = plain::write(message, buffer, buffer_size)) return r;
  length = static_cast<uint32_t>(plain::length(message));
  return kAccepted;
}

uint32_t group_start(uint8_t* list, size_t list_size, uint8_t* books, size_t books_size, uint8_t* queues,
                     size_t queues_size, uint32_t members, uint32_t first_set) {
  return Group({list, list_size}, {books, books_size}, {queues, queues_size}).start(members, first_set);
}
uint32_t group_step(uint8_t* list, size_t list_size, uint8_t* books, size_t books_size, uint8_t* queues,
                    size_t queues_size, uint32_t kind, uint32_t first, uint64_t second, uint8_t* event,
                    size_t event_size) {
  Group group({list, list_size}, {books, books_size}, {queues, queues_size});
  return group.step(kind, first, second, {event, event_size});
}

template <class Do> uint32_t Kept::step(Do what) {
  if (m_.opens > kOpen || m_.outgoings > kOutgoing || m_.side > 1) return kRecordsUnsound;
  if (m_.inward[0].count > kOrdered || m_.inward[1].count > kOrdered) return kRecordsUnsound;
  Refusal r = m_.admit();
  return r ? r : what();
}

uint32_t Kept::start(uint32_t members, uint32_t first_set, uint32_t own) {
  if (Refusal r = start_refusal(members, first_set, own)) return r;
  m_ = ByItself();
  m_.members = static_cast<uint8_t>(members), m_.own = static_cast<uint8_t>(own);
  m_.settled = m_.carrier = m_.client = View{0, static_cast<uint8_t>(first_set)};
  m_.has_carrier = m_.has_client = m_.registered = first_set >> own & 1;
  return kAccepted;
}

uint32_t Kept::join(uint32_t view, uint32_t set) { return step([&] { return m_.join(view, set); }); }
uint32_t Kept::pass(uint8_t* buffer, size_t buffer_size, uint32_t& length) {
  return step([&] { return m_.pass({buffer, buffer_size}, length); });
}
uint32_t Kept::deliver(const uint8_t* bytes, size_t bytes_size, uint32_t sender) {
  return step([&] { return m_.deliver(bytes, bytes_size, sender); });
}
uint32_t Kept::packet(const uint8_t* bytes, size_t bytes_size, uint32_t sender) {
  uint32_t taken = 0;
  step([&] {
    for (size_t at = 0, front = 0; at < bytes_size; at += front, ++taken)
      if (Refusal r = m_.deliver_front(bytes + at, bytes_size - at, sender, front)) return r;
    return kAccepted;
  });
  return taken;
}
uint32_t Kept::attempt(Event& event) { return step([&] { return m_.attempt(event); }); }
uint32_t Kept::enroll(Event& event) { return step([&] { return m_.enroll(event); }); }
uint32_t Kept::send(uint64_t entry, Event& event) { return step([&] { return m_.send(entry, event); }); }
uint32_t Kept::hand(Event& event) { return step([&] { return m_.hand(event); }); }
uint32_t Kept::tell() { return step([&] { return m_.tell(); }); }
uint32_t Kept::safe(Event& event) { return step([&] { return m_.safe(event); }); }
uint32_t Kept::collect() { return step([&] { return m_.collect(); }); }

}  // namespace independent
