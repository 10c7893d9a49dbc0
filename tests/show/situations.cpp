// Writes the books of several situations to files in the folder that it is started in, for tests/show/run.sh. All of them are made by calls, but for those
// that are not books.
#include <dvs.hpp>

#include <cstdint>
#include <cstdio>
#include <cstdlib>
#include <string>
#include <vector>

namespace {

using dvs::Identifier;
using dvs::Member;
using dvs::MessageKind;
using dvs::Set;
using Buffer = std::vector<std::uint8_t>;

void must(bool holds, int line) {
  if (holds) return;
  std::fprintf(stderr, "tests/show/situations.cpp:%d: not so\n", line);
  std::exit(1);
}
#define MUST(call) must(static_cast<bool>(call), __LINE__)

void write(const char *name, dvs::Bytes bytes) {
  std::FILE *const file = std::fopen(name, "wb");
  MUST(file != nullptr && (bytes.empty() || std::fwrite(bytes.data(), 1, bytes.size(), file) == bytes.size()) && std::fclose(file) == 0);
}
void write(const char *name, const dvs::Book &book) { write(name, book.save()); }

void deliver(dvs::Book &book, std::uint32_t sender, MessageKind kind, std::uint64_t number = 0) {
  dvs::Message message{kind, book.look().carrier()->identifier, number, {}};
  if (kind == MessageKind::info) MUST(message.views.push_back({Identifier{0}, book.look().settled().set}));
  const auto written = dvs::write(message);
  MUST(written && book.deliver(written->bytes(), Member{sender}));
}

void join(dvs::Book &book, std::uint32_t view, Set set, Set infos) {
  MUST(book.join({Identifier{view}, set}));
  for (Member member : infos) deliver(book, number(member), MessageKind::info);
}

void views() {
  dvs::Book fresh, outside, infos, half, failed, registrations, open;
  MUST(fresh.start(3, Set{7}, Member{0}) && outside.start(5, Set{7}, Member{4}) && infos.start(5, Set{31}, Member{1}));
  write("fresh", fresh);
  write("raw", fresh.bytes());
  write("outside", outside);
  join(infos, 1, Set{31}, Set{7});
  write("infos", infos);

  MUST(half.start(4, Set{15}, Member{0}));
  join(half, 1, Set{3}, Set{3});
  write("half", half);
  MUST(failed.start(5, Set{31}, Member{2}) && failed.send(5));
  join(failed, 1, Set{7}, Set{7});
  MUST(failed.attempt());
  join(failed, 2, Set{28}, Set{28});
  write("failed", failed);

  MUST(registrations.start(3, Set{7}, Member{0}));
  join(registrations, 1, Set{7}, Set{7});
  MUST(registrations.attempt() && registrations.register_view());
  deliver(registrations, 0, MessageKind::registered);
  write("registrations", registrations);
  deliver(registrations, 1, MessageKind::registered);
  deliver(registrations, 2, MessageKind::registered);
  write("registered-by-all", registrations);

  MUST(open.start(2, Set{3}, Member{1}));
  for (std::uint32_t view = 1; view <= DVS_OPEN; ++view) {
    join(open, 10 * view, Set{3}, Set{3});
    MUST(open.attempt());
  }
  write("last-open-view", open);
  join(open, 4294967295u, Set{3}, Set{3});
  write("too-many-open", open);
}

void entries() {
  dvs::Book tolds;
  MUST(tolds.start(4, Set{15}, Member{3}));
  for (std::uint64_t entry = 1; entry <= 4; ++entry) deliver(tolds, 0, MessageKind::client, entry);
  MUST(tolds.hand() && tolds.hand() && tolds.hand() && tolds.tell() && tolds.hand());
  for (std::uint32_t member = 0; member < 4; ++member) deliver(tolds, member, MessageKind::told, member == 2 ? 1 : 3);
  write("safe", tolds);
  MUST(tolds.safe());
  deliver(tolds, 1, MessageKind::told, 1);
  write("tolds", tolds);
}

// What is not a book, or not one any more. The checksum of another layout is made right again.
void others() {
  dvs::Book book;
  MUST(book.start(3, Set{7}, Member{0}));
  dvs::SavedBook saved = book.save();
  write("cut", dvs::Bytes(saved.data(), saved.size() - 1));
  write("cut-to-a-book", dvs::Bytes(saved.data(), DVS_BOOK_SIZE));
  Buffer longer(saved.begin(), saved.end());
  longer.push_back(0);
  write("longer", longer);
  saved[100] ^= 4;
  write("damaged", saved);
  Buffer later(saved.begin(), saved.begin() + 8);
  later[7] = 2;
  later.resize(7000);
  dvs::detail::put(later, dvs::kSavedLength, 4, later.size() - 16);
  dvs::detail::put(later, later.size() - 4, 4, dvs::checksum(dvs::Bytes(later.data(), later.size() - 4)));
  write("other-layout", later);
  write("unsound", dvs::Book());
  write("raw-unsound", Buffer(DVS_BOOK_SIZE));
  write("text", std::string("member 2 of 5\n"));
  write("empty", dvs::Bytes());
}

}  // namespace

int main() {
  views();
  entries();
  others();
}
