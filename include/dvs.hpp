// dvs.hpp: dvs.h in today's C++, from C++17 on.
//
// Header only, over the same library. Nothing here throws or allocates. A call gives a Result: a value, or the Refusal in its place. After a refusal every
// byte is as it was. A range is a std::span if the library of C++20 has it, and otherwise a small type with the same use. The two are different types in
// namespaces of their own, so parts of a program that pass them to each other are compiled under one standard. A buffer of char or std::byte may be given
// as a range. A class that keeps a range does not take a temporary that owns its bytes, because the class would outlive them.
//
//   dvs::Book book;                                                           // one member's part: 5,234 bytes, held by value
//   auto started = book.start(5, dvs::Set::below(5), dvs::Member{2});         // member 2 of 5, all in the first view
//   if (!started) log(dvs::text(started.refusal()));
//
// Then turn after turn: take what came, step, save once, and only then let events and messages out.
//
//   auto joined = book.join({dvs::Identifier{1}, dvs::Set{0b111}});           // the carrier gave a view
//   auto taken = book.deliver(bytes, dvs::Member{0});                         // what came over the line, own messages too, in the view's order
//   auto some = book.deliver_packet(bytes, dvs::Member{0});                   // several messages: some->whole(), or some->delivered and some->stopped
//   if (auto event = book.attempt()) work_in(event->view, event->set);        // the view is now this member's primary one
//   if (auto event = book.hand()) take(event->sender, event->entry);          // to be withdrawn if it never becomes safe
//   auto registered = book.register_view();                                   // last: when all have attempted the view and brought what they held
//   if (auto event = book.safe()) keep(event->sender, event->entry);          // every member of the view has it: final if all register last
//   while (packet.pass(book)) {}                                              // a dvs::PacketWriter: what is to go over the line
//   my_disk.save_and_sync(book.save(), my_copy, events);                      // then publish the events
//   my_carrier.post(packet.bytes());                                          // and after them post the messages
//
// Being in a primary view is no licence: two groups of members may hand out entries at the same time. dvs.h has the host's duties in short, above
// dvs_start, and docs/HOST.md has them in full.
#ifndef DVS_HPP
#define DVS_HPP

#include "dvs_lines.hpp"
#include "dvs_saved.hpp"
#include "dvs_types.hpp"

#include <array>
#include <cstddef>
#include <cstdint>
#include <iterator>
#include <optional>
#include <type_traits>

namespace dvs {
inline namespace DVS_INLINE_NAMESPACE {

// Whether the library that is linked is of this header's version.
inline bool same_version() noexcept { return dvs_version() == DVS_VERSION; }

// ---- messages

// Reads the message at the front of the bytes; what lies behind it is not looked at.
inline Result<Front> read_front(Bytes bytes) noexcept {
  MessageRecord record{};
  detail::LengthBytes length{};
  const auto refusal =
      static_cast<Refusal>(dvs_read_front(bytes.data(), bytes.size(), record.data(), record.size(), length.data(), length.size()));
  if (refusal != Refusal::none) return refusal;
  return Front{Message::from(record), dvs_length(length.data())};
}

// The messages of a packet, one after the other, up to its end or to the first that cannot be read:
//
//   auto messages = dvs::messages_in(bytes);
//   for (const dvs::Message &message : messages) look_at(message);
//   if (messages.refusal() != dvs::Refusal::none) log(dvs::text(messages.refusal()));   // what lies behind the first messages.taken() bytes is none
//
// It holds one message at a time, and a loop begins with the first again. The bytes must outlive it.
class MessagesIn {
 public:
  explicit MessagesIn(Bytes bytes) noexcept : bytes_(bytes) {}
  template <class Owner, class = detail::Temporary<Owner>>
  explicit MessagesIn(Owner &&) = delete;

  // Of the last loop: why it ended, none where no byte was left or the host ended it; and how many bytes the messages took that it came to.
  Refusal refusal() const noexcept { return refusal_; }
  std::size_t taken() const noexcept { return taken_; }

  class Iterator {
   public:
    using iterator_category = std::input_iterator_tag;
    using value_type = Message;
    using difference_type = std::ptrdiff_t;
    using pointer = const Message *;
    using reference = const Message &;
    // The message that the iterator was at before a step.
    struct Before {
      Message message;
      const Message &operator*() const noexcept { return message; }
    };

    Iterator() noexcept = default;
    explicit Iterator(MessagesIn *messages) noexcept : messages_(messages->next() ? messages : nullptr) {}
    const Message &operator*() const noexcept { return messages_->message_; }
    const Message *operator->() const noexcept { return &messages_->message_; }
    Iterator &operator++() noexcept {
      if (!messages_->next()) messages_ = nullptr;
      return *this;
    }
    Before operator++(int) noexcept {
      const Before before{**this};
      ++*this;
      return before;
    }
    friend bool operator==(Iterator a, Iterator b) noexcept { return a.messages_ == b.messages_; }
    friend bool operator!=(Iterator a, Iterator b) noexcept { return a.messages_ != b.messages_; }

   private:
    MessagesIn *messages_ = nullptr;   // null behind the last
  };
  Iterator begin() & noexcept {
    taken_ = 0;
    refusal_ = Refusal::none;
    return Iterator(this);
  }
  Iterator end() & noexcept { return {}; }

 private:
  // Whether there is a message behind those that were read; then it is the one held.
  bool next() noexcept {
    if (taken_ == bytes_.size()) return false;
    const Result<Front> front = read_front(Bytes(bytes_.data() + taken_, bytes_.size() - taken_));
    refusal_ = front.refusal();
    if (!front) return false;
    message_ = front->message;
    taken_ += front->taken;
    return true;
  }

  Bytes bytes_;
  std::size_t taken_ = 0;
  Refusal refusal_ = Refusal::none;
  Message message_{};
};
inline MessagesIn messages_in(Bytes bytes) noexcept { return MessagesIn(bytes); }
template <class Owner, class = detail::Temporary<Owner>>
MessagesIn messages_in(Owner &&) = delete;

// What a delivery did not take of its packet: the message that stopped it and all after it, or nothing if the whole packet was taken. It is a part of the
// packet's bytes, which must outlive it.
inline Bytes rest_of(Bytes packet, const Delivery &delivery) noexcept {
  for (std::size_t i = 0; i < delivery.delivered; ++i) {
    const Result<Front> front = read_front(packet);
    if (!front) break;   // the delivery is another packet's
    packet = Bytes(packet.data() + front->taken, packet.size() - front->taken);
  }
  return packet;
}
template <class Owner, class = detail::Temporary<Owner>>
Bytes rest_of(Owner &&, const Delivery &) = delete;

// Reads one message, which the bytes must be as a whole.
inline Result<Message> read(Bytes bytes) noexcept {
  MessageRecord record{};
  const auto refusal = static_cast<Refusal>(dvs_read(bytes.data(), bytes.size(), record.data(), record.size()));
  if (refusal != Refusal::none) return refusal;
  return Message::from(record);
}

// Writes the message to the front of the buffer and gives its length.
inline Result<std::size_t> write(const Message &message, MutableBytes buffer) noexcept {
  const MessageRecord record = message.record();
  detail::LengthBytes length{};
  const auto refusal =
      static_cast<Refusal>(dvs_write(record.data(), record.size(), buffer.data(), buffer.size(), length.data(), length.size()));
  if (refusal != Refusal::none) return refusal;
  return static_cast<std::size_t>(detail::get(length, 0, length.size()));
}

inline Result<MessageBytes> write(const Message &message) noexcept {
  MessageBytes written;
  const Result<std::size_t> length = write(message, written.places);
  if (!length) return length.refusal();
  written.length = *length;
  return written;
}

// ---- the member by itself

// What a book says, read from its bytes by docs/LAYOUT.md. Reading calls nothing and changes nothing; of bytes that are no sound book (a call gives
// Refusal::records_unsound) it gives some numbers or other.
class BookReader {
 public:
  constexpr explicit BookReader(Bytes book) noexcept : book_(book) {}
  template <class Owner, class = detail::Temporary<Owner>>
  explicit BookReader(Owner &&) = delete;
  // A saved book has an envelope around the book, so its places are others: unwrap gives the book.
  explicit BookReader(const SavedBook &) = delete;

  constexpr std::uint32_t members() const noexcept { return detail::byte(book_, DVS_BOOK_MEMBERS); }
  constexpr Member own() const noexcept { return static_cast<Member>(detail::byte(book_, DVS_BOOK_SELF)); }
  constexpr View settled() const noexcept { return detail::view(book_, DVS_BOOK_SETTLED); }
  constexpr std::optional<View> carrier() const noexcept { return view_if(DVS_BOOK_CARRIER); }
  constexpr std::optional<View> client() const noexcept { return view_if(DVS_BOOK_CLIENT); }
  constexpr bool registered() const noexcept { return detail::byte(book_, DVS_BOOK_REGISTERED) == 1; }
  constexpr unsigned handed() const noexcept { return detail::byte(book_, DVS_BOOK_HANDED); }
  constexpr unsigned told() const noexcept { return detail::byte(book_, DVS_BOOK_TOLD); }
  constexpr unsigned reported() const noexcept { return detail::byte(book_, DVS_BOOK_REPORTED); }
  constexpr unsigned taken() const noexcept { return detail::byte(book_, DVS_BOOK_TAKEN); }
  constexpr unsigned outgoing() const noexcept { return detail::byte(book_, DVS_BOOK_OUTGOING); }
  // Whose infos and registrations of the carrier view were taken, and the count that a member 0 to 7 told: info_missing waits for
  // carrier()->set - infos(), registration_missing for carrier()->set - registrations(), told_too_low for those not above reported().
  constexpr Set infos() const noexcept { return Set(detail::byte(book_, DVS_BOOK_INFOS)); }
  constexpr Set registrations() const noexcept { return Set(detail::byte(book_, DVS_BOOK_REGISTRATIONS)); }
  constexpr unsigned told_by(Member member) const noexcept {
    return number(member) < DVS_MEMBERS ? detail::byte(book_, DVS_BOOK_TOLDS + number(member)) : 0u;
  }
  constexpr ViewList open() const noexcept {
    ViewList views;
    const std::size_t count = detail::byte(book_, DVS_BOOK_OPENS);
    for (std::size_t i = 0; i < count && i < DVS_OPEN; ++i) views.push_back(detail::view(book_, DVS_BOOK_OPENS + 1 + DVS_VIEW_SIZE * i));
    return views;
  }
  // Whether the view that the carrier gave last is the one that the member attempted last. If not, this member is in no primary view now. If so, it is no
  // licence: another group of members may be in a primary view of its own at the same time, and may go on without this one.
  constexpr bool in_primary() const noexcept { return carrier() && client() && carrier()->identifier == client()->identifier; }

 private:
  constexpr std::optional<View> view_if(std::size_t flag) const noexcept {
    return detail::byte(book_, flag) == 1 ? std::optional<View>(detail::view(book_, flag + 1)) : std::nullopt;
  }

  Bytes book_;
};

// One member's part, over a carrier of the host's own. A book must never go back: once anything has left, only what was saved last may be loaded again, and
// only by this member. So a book is not copied. Moving takes it away, and the object that it was moved from is not a book (Refusal::records_unsound).
class Book {
 public:
  Book() noexcept = default;
  Book(const Book &) = delete;
  Book &operator=(const Book &) = delete;
  Book(Book &&other) noexcept : bytes_(other.bytes_) { other.bytes_ = BookBytes{}; }
  Book &operator=(Book &&other) noexcept {
    const BookBytes taken = other.bytes_;
    other.bytes_ = BookBytes{};
    bytes_ = taken;
    return *this;
  }
  ~Book() = default;

  // Gives the bytes to keep on disk: the book in its envelope (dvs_saved.hpp). A host saves once a turn, before a message or an event of the turn leaves it.
  // A book that was not started is saved too, and load refuses it.
  SavedBook save() const noexcept { return wrap(bytes_); }
  // Takes the bytes that save gave last. Other bytes are a fault, and the book stays as it was: text(loaded.fault()) says in words why, and what to do.
  // Nobody can tell from them whether they are the last ones. Afterwards this member joins a view before any other call.
  Loaded load(Bytes saved) noexcept {
    const Unwrapped unwrapped = unwrap(saved);
    for (std::size_t i = 0; i < unwrapped.book().size(); ++i) bytes_[i] = unwrapped.book()[i];
    return unwrapped;
  }
  // Whether this is a sound book, which every call takes: a new one is not before its start.
  Result<void> check() const noexcept { return refused(dvs_check(bytes_.data(), bytes_.size())); }

  // Member `own` of a group of `members`, with the first view, identifier 0, of `first`.
  Result<void> start(std::uint32_t members, Set first, Member own) noexcept {
    return refused(dvs_start(data(), size(), members, first.bits, number(own)));
  }
  // The carrier gave a view.
  Result<void> join(View view) noexcept { return refused(dvs_join(data(), size(), number(view.identifier), view.set.bits)); }
  // The first outgoing message, as bytes for the carrier; Refusal::none_outgoing when there is no more.
  Result<MessageBytes> pass() noexcept {
    MessageBytes passed;
    const Result<std::size_t> length = pass(passed.places);
    if (!length) return length.refusal();
    passed.length = *length;
    return passed;
  }
  // The same into a buffer of the host's; gives the length.
  Result<std::size_t> pass(MutableBytes buffer) noexcept {
    detail::LengthBytes length{};
    const Refusal refusal = refused(dvs_pass(data(), size(), buffer.data(), buffer.size(), length.data(), length.size()));
    if (refusal != Refusal::none) return refusal;
    return static_cast<std::size_t>(detail::get(length, 0, length.size()));
  }
  // The next message of the carrier view's order, from its first on, this member's own too. Refusal::another_view has two causes: a
  // message of a view below the carrier view is late, and is dropped; one of a view above it came before the join, and is kept in order until then. So is
  // a message that is refused with Refusal::no_carrier_view.
  Result<void> deliver(Bytes message, Member sender) noexcept {
    return refused(dvs_deliver(data(), size(), message.data(), message.size(), number(sender)));
  }
  // The next messages of the order, all from one sender and of one view, one after another in one packet: they are taken one by one up to the first
  // refusal. What stopped it is in the delivery; a refusal of the call means that nothing was taken, and the book is not a sound one.
  // whole(book.deliver_packet(…)) says whether the whole packet was taken, and rest_of gives what was not.
  Result<Delivery> deliver_packet(Bytes packet, Member sender) noexcept {
    detail::DeliveryBytes delivery{};
    const Refusal refusal = refused(
        dvs_deliver_packet(data(), size(), packet.data(), packet.size(), number(sender), delivery.data(), delivery.size()));
    if (refusal != Refusal::none) return refusal;
    return Delivery::from(delivery);
  }
  // The carrier view becomes the client view, this member's primary one. Refusal::test_failed: it must not be one.
  Result<Event> attempt() noexcept {
    return with_event([this](std::uint8_t *event) { return dvs_attempt(data(), size(), event, DVS_EVENT_SIZE); });
  }
  // The client registers in the client view (C++ keeps the word `register` for itself): last, when every member of the view has attempted it and this
  // one has taken over all that each of them held then.
  Result<Event> register_view() noexcept {
    return with_event([this](std::uint8_t *event) { return dvs_register(data(), size(), event, DVS_EVENT_SIZE); });
  }
  // The client sends an entry. Where the client view is not the carrier view the event is given and no message goes out.
  Result<Event> send(std::uint64_t entry) noexcept {
    return with_event([this, entry](std::uint8_t *event) { return dvs_send(data(), size(), entry, event, DVS_EVENT_SIZE); });
  }
  // The next entry for the client. It is not final: an entry that never becomes safe may have to be withdrawn.
  Result<Event> hand() noexcept {
    return with_event([this](std::uint8_t *event) { return dvs_hand(data(), size(), event, DVS_EVENT_SIZE); });
  }
  // The others are told how many entries the client has. Those are on disk with the book before the message leaves.
  Result<void> tell() noexcept { return refused(dvs_tell(data(), size())); }
  // The next entry that is safe: every member of the view had it, and it is final if every member registers last.
  Result<Event> safe() noexcept {
    return with_event([this](std::uint8_t *event) { return dvs_safe(data(), size(), event, DVS_EVENT_SIZE); });
  }
  // The carrier view, registered by all its members, becomes settled.
  Result<void> collect() noexcept { return refused(dvs_collect(data(), size())); }

  // What they give lies in the book.
  BookReader look() const & noexcept { return BookReader(bytes_); }
  BookReader look() const && = delete;
  Bytes bytes() const & noexcept { return bytes_; }
  Bytes bytes() const && = delete;

 private:
  static Refusal refused(std::uint32_t answer) noexcept { return static_cast<Refusal>(answer); }
  template <class Call>
  static Result<Event> with_event(Call call) noexcept {
    detail::EventBytes event{};
    const Refusal refusal = refused(call(event.data()));
    if (refusal != Refusal::none) return refusal;
    return Event::from(event);
  }
  std::uint8_t *data() noexcept { return bytes_.data(); }
  std::size_t size() const noexcept { return bytes_.size(); }

  BookBytes bytes_{};
};
static_assert(sizeof(Book) == DVS_BOOK_SIZE && std::is_standard_layout_v<Book>, "a book is its bytes");
static_assert(!std::is_copy_constructible_v<Book> && !std::is_copy_assignable_v<Book>, "a book is not copied");

// Joins messages in a buffer of the host's, one after another. What is refused adds nothing, and the buffer stays as it was. A packet holds messages of
// one view: begin another after a join, since a message of the view that was left stops the packet, and the info after it is lost.
//
//   dvs::PacketWriter packet(buffer);
//   while (packet.pass(book)) {}                                              // all that is outgoing, or as much as there is room for
//   if (!packet.empty()) my_carrier.post(packet.bytes());
class PacketWriter {
 public:
  explicit PacketWriter(MutableBytes buffer) noexcept : buffer_(buffer) {}

  // One message more; gives its length.
  Result<std::size_t> add(const Message &message) noexcept { return added(write(message, rest())); }
  // The book's first outgoing message, and its length, as Book::pass gives it. Refusal::buffer_too_short: it is still the first outgoing one.
  Result<std::size_t> pass(Book &book) noexcept { return added(book.pass(rest())); }

  // What was written lies in the buffer.
  Bytes bytes() const noexcept { return {buffer_.data(), size_}; }
  std::size_t size() const noexcept { return size_; }
  std::size_t messages() const noexcept { return messages_; }
  bool empty() const noexcept { return messages_ == 0; }

 private:
  MutableBytes rest() const noexcept { return {buffer_.data() + size_, buffer_.size() - size_}; }
  Result<std::size_t> added(const Result<std::size_t> &length) noexcept {
    if (!length) return length;
    size_ += *length;
    ++messages_;
    return length;
  }

  MutableBytes buffer_;
  std::size_t size_ = 0, messages_ = 0;
};

// ---- the whole group

// Memory for a group of so many views, to be lent to a Group: 1.1 MB for 32. It belongs in static storage or on the heap, not on the stack.
template <std::size_t Views = DVS_VIEWS>
struct GroupMemory {
  static_assert(Views >= 1 && Views <= DVS_VIEWS, "a group has room for 1 to 32 views");
  std::array<std::uint8_t, DVS_LIST_SIZE(Views)> list{};
  std::array<std::uint8_t, DVS_BOOKS_SIZE> books{};
  std::array<std::uint8_t, DVS_QUEUES_SIZE(Views)> queues{};
};

// What a group says. A GroupReader reads three ranges that are lent to it and must outlive it. It changes nothing in them, and it sees what later calls
// of a Group change there.
class GroupReader {
 public:
  GroupReader(Bytes list, Bytes books, Bytes queues) noexcept : list_(list), books_(books), queues_(queues) {}
  template <class Owner, class = detail::Temporary<Owner>>
  GroupReader(Owner &&, Bytes, Bytes) = delete;
  template <class Owner, class = detail::Temporary<Owner>>
  GroupReader(Bytes, Owner &&, Bytes) = delete;
  template <class Owner, class = detail::Temporary<Owner>>
  GroupReader(Bytes, Bytes, Owner &&) = delete;
  template <std::size_t Views>
  explicit GroupReader(const GroupMemory<Views> &memory) noexcept : GroupReader(memory.list, memory.books, memory.queues) {}
  template <std::size_t Views>
  explicit GroupReader(const GroupMemory<Views> &&) = delete;

  // Whether the ranges are a sound group, which every step takes.
  Result<void> check() const noexcept {
    return static_cast<Refusal>(dvs_group_check(list_.data(), list_.size(), books_.data(), books_.size(), queues_.data(), queues_.size()));
  }

  // Three queries tell which views were attempted. A view counts if any member attempted it, and the first view always does. Books forget old views, and
  // these queries do not.

  // Finds the attempted views that share a member with the set, newest first and each once. Identifiers has a place for every view of a group, so the
  // query never returns Refusal::too_few_places.
  Result<Identifiers> crossing(Set set) const noexcept { return found_by(dvs_group_crossing, set); }
  // Finds in the same way the attempted views of which the set holds a majority: twice the members in common exceed the view's members.
  Result<Identifiers> holding(Set set) const noexcept { return found_by(dvs_group_holding, set); }
  // Finds the newest attempted view with an identifier below this one, which need not be a view's. 'None' is an answer and not a refusal. So
  // `if (before)` does not compile: a host asks whether the call was accepted, and then whether there is a view.
  //
  //   const auto before = group.newest_before(dvs::Identifier{7});
  //   if (!before.accepted()) log(dvs::text(before.refusal()));                // the ranges are not a sound group
  //   else if (const auto &view = *before) look_at(view->identifier, view->set);
  Result<std::optional<View>> newest_before(Identifier view) const noexcept {
    detail::FoundBytes found{};
    const auto refusal = static_cast<Refusal>(dvs_group_newest_before(list_.data(), list_.size(), books_.data(), books_.size(), queues_.data(),
                                                                      queues_.size(), number(view), found.data(), found.size()));
    if (refusal != Refusal::none) return refusal;
    return dvs_found(found.data()) == 1 ? std::optional<View>(detail::view(found, DVS_FOUND_VIEW)) : std::nullopt;
  }

  // The functions below read single places by docs/LAYOUT.md and call nothing. They give meaningless numbers if the ranges are not a sound group.

  // The book of a member 0 to 7.
  BookReader look(Member member) const noexcept {
    const std::size_t at = DVS_BOOK_SIZE * std::size_t{number(member)};
    return BookReader(at + DVS_BOOK_SIZE <= books_.size() ? Bytes(books_.data() + at, DVS_BOOK_SIZE) : Bytes());
  }
  // How many views were made. For the view at a place of the list: whether it was attempted, how many messages its order has, and how many messages of a
  // member wait in it.
  unsigned made() const noexcept { return detail::byte(queues_, DVS_QUEUES_MADE); }
  bool attempted(std::size_t place) const noexcept { return place < DVS_VIEWS && (detail::get(queues_, DVS_QUEUES_MARKS, 4) >> place & 1u) != 0; }
  unsigned ordered(std::size_t place) const noexcept { return detail::byte(queues_, DVS_QUEUES_ORDER(place)); }
  unsigned waiting(std::size_t place, Member member) const noexcept {
    return number(member) < DVS_MEMBERS ? detail::byte(queues_, DVS_QUEUES_WAITING(place, number(member))) : 0u;
  }

 private:
  Result<Identifiers> found_by(decltype(&dvs_group_crossing) query, Set set) const noexcept {
    detail::IdentifiersBytes views{};
    detail::LengthBytes count{};
    const auto refusal = static_cast<Refusal>(query(list_.data(), list_.size(), books_.data(), books_.size(), queues_.data(), queues_.size(),
                                                    set.bits, views.data(), views.size(), count.data(), count.size()));
    if (refusal != Refusal::none) return refusal;
    Identifiers found;
    for (std::size_t i = 0; i < dvs_length(count.data()); ++i) found.push_back(static_cast<Identifier>(dvs_identifier(views.data(), i)));
    return found;
  }

  Bytes list_, books_, queues_;
};

// All members and the carrier between them. A Group holds no memory: it works in three ranges that are lent to it and must outlive it.
class Group {
 public:
  Group(MutableBytes list, MutableBytes books, MutableBytes queues) noexcept : list_(list), books_(books), queues_(queues) {}
  template <std::size_t Views>
  explicit Group(GroupMemory<Views> &memory) noexcept : Group(memory.list, memory.books, memory.queues) {}

  Result<void> start(std::uint32_t members, Set first) noexcept {
    return static_cast<Refusal>(dvs_group_start(list_.data(), list_.size(), books_.data(), books_.size(), queues_.data(), queues_.size(),
                                                members, first.bits));
  }
  // A start, then every step in turn, each with its answer: whole records of Step::bytes, and as many of Answer::from. A refused step does not end it.
  Result<void> run(std::uint32_t members, Set first, Bytes steps, MutableBytes answers) noexcept {
    return static_cast<Refusal>(dvs_group_run(list_.data(), list_.size(), books_.data(), books_.size(), queues_.data(), queues_.size(),
                                              members, first.bits, steps.data(), steps.size(), answers.data(), answers.size()));
  }
  // A list of steps for a group that exists. Each step does what `step` does, and its answer holds what `step` gives; a refused step does not end the
  // list. A group that calls lead to is checked once for all of them.
  Result<void> steps(Bytes steps, MutableBytes answers) noexcept {
    return static_cast<Refusal>(dvs_group_steps(list_.data(), list_.size(), books_.data(), books_.size(), queues_.data(), queues_.size(),
                                                steps.data(), steps.size(), answers.data(), answers.size()));
  }
  // The newest view, which no member has joined, is taken from made to settled: all its steps, and how many they are, or none. FormedEvents lists
  // their events. It registers for all its members at once, so the host brings all their copies up to date before the call. On ranges that no calls lead
  // to it may take 88 KB of stack.
  Result<std::size_t> form(Identifier view) noexcept {
    detail::LengthBytes count{};
    const auto refusal = static_cast<Refusal>(dvs_group_form(list_.data(), list_.size(), books_.data(), books_.size(), queues_.data(),
                                                             queues_.size(), number(view), count.data(), count.size()));
    if (refusal != Refusal::none) return refusal;
    return dvs_length(count.data());
  }
  Result<Event> step(Step step_) noexcept { return step(static_cast<std::uint32_t>(step_.kind), step_.first, step_.second); }
  // A step by its number (DVS_STEP_...), as the library takes it; the others name it.
  Result<Event> step(std::uint32_t kind, std::uint32_t first, std::uint64_t second = 0) noexcept {
    detail::EventBytes event{};
    const auto refusal =
        static_cast<Refusal>(dvs_group_step(list_.data(), list_.size(), books_.data(), books_.size(), queues_.data(), queues_.size(),
                                            kind, first, second, event.data(), event.size()));
    if (refusal != Refusal::none) return refusal;
    return Event::from(event);
  }
  Result<void> create(View view) noexcept { return step(Step::create(view)).refusal(); }
  Result<void> join(Member member, Identifier view) noexcept { return step(Step::join(member, view)).refusal(); }
  Result<void> pass(Member member) noexcept { return step(Step::pass(member)).refusal(); }
  Result<void> order(Member member, Identifier view) noexcept { return step(Step::order(member, view)).refusal(); }
  Result<void> deliver(Member member) noexcept { return step(Step::deliver(member)).refusal(); }
  Result<Event> attempt(Member member) noexcept { return step(Step::attempt(member)); }
  Result<Event> register_view(Member member) noexcept { return step(Step::register_view(member)); }
  Result<Event> send(Member member, std::uint64_t entry) noexcept { return step(Step::send(member, entry)); }
  Result<Event> hand(Member member) noexcept { return step(Step::hand(member)); }
  Result<void> tell(Member member) noexcept { return step(Step::tell(member)).refusal(); }
  Result<Event> safe(Member member) noexcept { return step(Step::safe(member)); }
  Result<void> collect(Member member) noexcept { return step(Step::collect(member)).refusal(); }

  // A Group converts to a GroupReader of its ranges, and answers the same questions itself.
  operator GroupReader() const noexcept { return reader(); }
  Result<void> check() const noexcept { return reader().check(); }
  Result<Identifiers> crossing(Set set) const noexcept { return reader().crossing(set); }
  Result<Identifiers> holding(Set set) const noexcept { return reader().holding(set); }
  Result<std::optional<View>> newest_before(Identifier view) const noexcept { return reader().newest_before(view); }
  BookReader look(Member member) const noexcept { return reader().look(member); }
  unsigned made() const noexcept { return reader().made(); }
  bool attempted(std::size_t place) const noexcept { return reader().attempted(place); }
  unsigned ordered(std::size_t place) const noexcept { return reader().ordered(place); }
  unsigned waiting(std::size_t place, Member member) const noexcept { return reader().waiting(place, member); }

 private:
  GroupReader reader() const noexcept { return {list_, books_, queues_}; }

  MutableBytes list_, books_, queues_;
};

}  // namespace DVS_INLINE_NAMESPACE
}  // namespace dvs

#endif
