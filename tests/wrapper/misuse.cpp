// Uses of the wrapper that would be wrong without a word, each beside the right one. A line that ends with `refused: PATTERN` must not compile, and the
// compiler's error for it must match the pattern; every other line must compile. tests/wrapper/wrapper.sh checks both.
#include <dvs.hpp>

#include <array>
#include <cstddef>
#include <cstdint>
#include <string>
#include <string_view>
#include <utility>
#include <vector>
#ifdef __cpp_lib_span
#include <span>
#endif

namespace {

template <class... Values>
void use(const Values &...) {}

std::vector<std::uint8_t> receive() { return {3, 0, 0, 0, 0, 0, 0}; }
std::string receive_text() { return {}; }
std::array<std::byte, 7> receive_array() { return {}; }

// A view of bytes that are gone when the statement is over.
void views(const dvs::Book &book, dvs::PacketWriter &writer) {
  std::vector<std::uint8_t> packet = receive();
  const std::vector<std::uint8_t> constant = packet;
  std::uint8_t array[7] = {};
  use(dvs::messages_in(packet), dvs::messages_in(constant), dvs::messages_in(array));
  use(dvs::messages_in(dvs::Bytes(array, 3)), dvs::messages_in({array, 3}), dvs::messages_in(dvs::MutableBytes(packet)));
  use(dvs::messages_in(writer.bytes()), dvs::messages_in(book.bytes()), dvs::messages_in(std::string_view()));
  use(dvs::messages_in(receive()));  // refused: deleted
  use(dvs::messages_in(std::move(packet)));  // refused: deleted
  use(dvs::messages_in(receive_text()));  // refused: deleted
  use(dvs::messages_in(receive_array()));  // refused: deleted
  use(dvs::MessagesIn(packet));
  use(dvs::MessagesIn(receive()));  // refused: deleted
  for (const dvs::Message &message : dvs::messages_in(packet)) use(message);
  for (const dvs::Message &message : dvs::messages_in(receive())) use(message);  // refused: deleted

  const dvs::SavedBook saved = book.save();
  const dvs::Unwrapped unwrapped = dvs::unwrap(saved);
  use(dvs::BookReader(unwrapped.book()), dvs::BookReader(book.bytes()), book.look(), dvs::unwrap(packet), dvs::unwrap(std::string_view()));
  use(dvs::BookReader(book.save()));  // refused: deleted
  use(dvs::BookReader(saved));  // refused: deleted
  use(dvs::unwrap(book.save()));  // refused: deleted
  use(dvs::unwrap(receive_text()));  // refused: deleted

  use(dvs::rest_of(packet, dvs::Delivery{}), dvs::rest_of(writer.bytes(), dvs::Delivery{}));
  use(dvs::rest_of(receive(), dvs::Delivery{}));  // refused: deleted

#ifdef __cpp_lib_span
  use(dvs::messages_in(std::span<const std::uint8_t>(array)), dvs::messages_in(std::span(packet)), dvs::unwrap(std::span(saved)));
#endif
}

// What is only read while a call lasts may be a temporary.
void calls(dvs::Book &book) {
  use(dvs::read(receive()), dvs::read_front(receive_text()), book.load(receive()), book.deliver(receive_array(), dvs::Member{0}));
  use(book.load(dvs::Book().save()), book.load(dvs::wrap(dvs::BookBytes{})));
}

// A buffer to write to that is gone when the statement is over, or that is not to be written to.
void buffers(dvs::Book &book) {
  std::vector<std::uint8_t> list, books, queues;
  const std::string constant;
  dvs::GroupMemory<1> memory;
  use(dvs::PacketWriter(list), dvs::PacketWriter(dvs::MutableBytes(list)), dvs::PacketWriter({list.data(), 0}));
  use(dvs::PacketWriter(receive()));  // refused: no matching
  use(dvs::PacketWriter(receive_text()));  // refused: no matching
  use(dvs::PacketWriter(constant));  // refused: no matching
  use(book.pass(list));
  use(book.pass(receive()));  // refused: no matching
  use(dvs::Group(list, books, queues), dvs::Group(memory));
  use(dvs::Group(receive(), books, queues));  // refused: no matching
  use(dvs::Group(list, receive(), queues));  // refused: no matching
  use(dvs::Group(list, books, receive()));  // refused: no matching
  use(dvs::Group(dvs::GroupMemory<1>{}));  // refused: cannot bind|no matching
}

// A reader of a group whose bytes are gone when the statement is over. A group only names its bytes, so it may be a temporary.
void readers(const dvs::Group &group) {
  const std::vector<std::uint8_t> list = receive(), books = list;
  std::string queues = receive_text();
  dvs::GroupMemory<1> memory;
  const dvs::GroupMemory<1> constant;
  const dvs::GroupReader reader = group, parts({list.data(), 0}, dvs::Bytes(books), std::string_view(queues));
  use(reader, parts, dvs::GroupReader(list, books, queues), dvs::GroupReader(memory), dvs::GroupReader(constant), dvs::GroupReader(dvs::Group(memory)));
  use(dvs::GroupReader(receive(), books, queues));  // refused: deleted
  use(dvs::GroupReader(list, receive_array(), queues));  // refused: deleted
  use(dvs::GroupReader(list, books, receive_text()));  // refused: deleted
  use(dvs::GroupReader(list, books, std::move(queues)));  // refused: deleted
  use(dvs::GroupReader({list.data(), 0}, receive(), queues));  // refused: deleted
  use(dvs::GroupReader(receive(), receive(), receive()));  // refused: ambiguous
  use(dvs::GroupReader(dvs::GroupMemory<1>{}));  // refused: deleted
  use(dvs::GroupReader(std::move(constant)));  // refused: deleted
}

// A query that finds no view is accepted too, so 'accepted' does not mean that there is a view.
void queries(const dvs::GroupReader &group, dvs::Identifier view) {
  const auto before = group.newest_before(view);
  if (before.accepted() && *before) use((*before)->set, before->value().set);
  if (const auto found = *group.newest_before(view)) use(found->set);
  if (before) use(before);  // refused: deleted
  if (!before) use(before);  // refused: deleted
  if (group.newest_before(view)) use(view);  // refused: deleted
  if (const auto found = group.newest_before(view)) use(found);  // refused: deleted
  use(group.check() && group.newest_before(view));  // refused: deleted
  if (const auto found = group.crossing(dvs::Set{1}); found && !found->empty()) use((*found)[0]);
  use(group.crossing(dvs::Set{1})->size());  // refused: deleted
}

// A call that stops a packet is accepted too, so 'accepted' does not mean that the whole packet was taken.
void packets(dvs::Book &book, dvs::Bytes bytes, dvs::Member sender) {
  if (whole(book.deliver_packet(bytes, sender))) use(bytes);
  if (book.deliver_packet(bytes, sender).accepted()) use(bytes);
  if (book.deliver_packet(bytes, sender)) use(bytes);  // refused: deleted
  use(book.deliver(bytes, sender) && book.tell());
  use(book.tell() && book.deliver_packet(bytes, sender));  // refused: deleted
  const auto taken = book.deliver_packet(bytes, sender);
  if (taken && !taken->whole()) use(dvs::rest_of(bytes, *taken));
}

// The letters of a line are in the line.
void lines(const dvs::Event &event) {
  const dvs::Line named = dvs::line(event);
  use(named.text(), named.c_str(), dvs::line(event) == named);
  use(dvs::line(event).text());  // refused: deleted
  use(dvs::line(event).c_str());  // refused: deleted
}

// What became of a saved book is looked at.
void loads(dvs::Book &book, dvs::Bytes bytes) {
  if (const auto loaded = book.load(bytes); !loaded) use(text(loaded.fault()), loaded.layout());
  book.load(bytes);  // refused: nodiscard|unused-result
  dvs::unwrap(bytes);  // refused: nodiscard|unused-result
}

// The null character of a literal is no byte of a message.
void literals(dvs::Book &book, dvs::Member sender) {
  char buffer[7] = {};
  use(book.deliver(buffer, sender), book.deliver(std::string_view("abc"), sender));
  use(book.deliver("abc", sender));  // refused: deleted
}

}  // namespace

int main() { use(views, calls, buffers, readers, queries, packets, lines, loads, literals); }
