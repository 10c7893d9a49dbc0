// dvs-show: tells an operator in plain words what a book holds, and what the office waits for.
//
//     dvs-show BOOK...
//
// A BOOK is a file with a saved book (docs/LAYOUT.md), or with the bytes of a book alone, as a host in C may keep them. It is only read. Whether a call would
// be accepted is the library's own answer: each call is made on a copy of the book. It exits with 1 if a file is not a book, and with 2 if no file is named.
#include <dvs.hpp>

#include <algorithm>
#include <cerrno>
#include <cstdint>
#include <cstdio>
#include <cstring>
#include <optional>
#include <string>
#include <vector>

namespace {

using dvs::Refusal;

std::string words(unsigned number) { return std::to_string(number); }

std::string words(dvs::Set set) {
  std::string listed;
  for (dvs::Member member : set) listed += (listed.empty() ? "" : ",") + words(number(member));
  return "{" + listed + "}";
}

std::string words(dvs::View view) { return words(number(view.identifier)) + " " + words(view.set); }

std::string words(const std::optional<dvs::View> &view) { return view ? words(*view) : "none"; }

std::string words(const dvs::ViewList &views) {
  std::string listed;
  for (const dvs::View &view : views) listed += (listed.empty() ? "" : ", ") + words(view);
  return listed;
}

// ---- files

// All bytes of a file, or none after a word on what is wrong.
std::optional<std::vector<std::uint8_t>> bytes_of(const char *name) {
  std::vector<std::uint8_t> bytes;
  std::FILE *const file = std::fopen(name, "rb");
  bool whole = file != nullptr;
  std::uint8_t part[8192];
  for (std::size_t size = 1; whole && size != 0;) {
    size = std::fread(part, 1, sizeof part, file);
    bytes.insert(bytes.end(), part, part + size);
    whole = std::ferror(file) == 0;
  }
  if (!whole) std::fprintf(stderr, "dvs-show: %s: %s\n", name, std::strerror(errno));
  if (file != nullptr) std::fclose(file);
  if (!whole) return std::nullopt;
  return bytes;
}

// The book in a file, or none after a word on what is wrong.
std::optional<dvs::BookBytes> book_in(const char *name) {
  const auto bytes = bytes_of(name);
  if (!bytes) return std::nullopt;
  const dvs::Unwrapped unwrapped = dvs::unwrap(*bytes);
  const bool alone = unwrapped.fault() == dvs::SavedFault::not_saved_book && bytes->size() == DVS_BOOK_SIZE;
  const std::uint32_t refusal = alone ? dvs_check(bytes->data(), bytes->size()) : DVS_ACCEPTED;
  if (refusal != DVS_ACCEPTED) {
    std::fprintf(stderr, "dvs-show: %s: as long as a book, but not a sound one: %s (%u)\n", name, dvs_refusal_text(refusal), static_cast<unsigned>(refusal));
    return std::nullopt;
  }
  if (!alone && !unwrapped) {
    std::fprintf(stderr, "dvs-show: %s: %s\n", name, text(unwrapped.fault()));
    if (unwrapped.fault() == dvs::SavedFault::other_layout)
      std::fprintf(stderr, "dvs-show: %s: its layout is %u, and this program reads layout %u\n", name, static_cast<unsigned>(unwrapped.layout()), DVS_LAYOUT);
    return std::nullopt;
  }
  const dvs::Bytes found = alone ? dvs::Bytes(*bytes) : unwrapped.book();
  dvs::BookBytes book{};
  std::copy(found.begin(), found.end(), book.begin());
  std::puts(alone ? "file: the bytes of a book, without a checksum" : "file: a saved book, its checksum is right");
  return book;
}

// ---- what the calls would do

// Whose messages would end a refusal, by the places that docs/LAYOUT.md gives for it; nothing for a refusal that no message ends.
std::string awaited(const dvs::BookReader &book, Refusal refusal) {
  if (refusal == Refusal::info_missing) return "the infos of " + words(book.carrier()->set - book.infos());
  if (refusal == Refusal::registration_missing) return "the registrations of " + words(book.carrier()->set - book.registrations());
  if (refusal != Refusal::told_too_low) return {};
  const dvs::Set view = book.client()->set;
  dvs::Set late;
  for (dvs::Member member : view)
    if (book.told_by(member) <= book.reported()) late = late.with(member);
  return "the told counts of " + words(late);
}

// The held views of which the carrier view has no majority: twice the members in common must exceed the held view's members.
std::string without_majority(const dvs::BookReader &book) {
  dvs::ViewList failing;
  const auto test = [&](dvs::View held) {
    if (2 * (book.carrier()->set & held.set).count() <= held.set.count()) failing.push_back(held);
  };
  test(book.settled());
  for (const dvs::View &open : book.open()) test(open);
  return words(failing);
}

struct Call {
  const char *name;
  Refusal (*make)(dvs::Book &book);
};
constexpr Call kCalls[] = {
    {"attempt", [](dvs::Book &book) { return book.attempt().refusal(); }},
    {"register", [](dvs::Book &book) { return book.register_view().refusal(); }},
    {"hand", [](dvs::Book &book) { return book.hand().refusal(); }},
    {"tell", [](dvs::Book &book) { return book.tell().refusal(); }},
    {"safe", [](dvs::Book &book) { return book.safe().refusal(); }},
    {"collect", [](dvs::Book &book) { return book.collect().refusal(); }},
};

std::string verdict(const dvs::BookBytes &book, const Call &call) {
  dvs::Book copy;
  static_cast<void>(copy.load(dvs::wrap(book)));   // the book is sound; if it were not, the call would be refused with 4
  const Refusal refusal = call.make(copy);
  if (refusal == Refusal::none) return "would be accepted";
  const std::string number = words(dvs::number(refusal)), whom = awaited(copy.look(), refusal);
  if (!whom.empty()) return "waits for " + whom + " (" + number + ")";
  return "would be refused: " + number + ", " + text(refusal) + (refusal == Refusal::test_failed ? ": " + without_majority(copy.look()) : "");
}

// ---- one fact a line

void say(const char *fact, const std::string &value) { std::printf("%s: %s\n", fact, value.c_str()); }

bool show(const char *name) {
  const auto bytes = book_in(name);
  if (!bytes) return false;
  const dvs::BookReader book(*bytes);
  const dvs::ViewList open = book.open();
  say("member", words(number(book.own())) + " of " + words(dvs::Set::below(book.members())));
  say("settled view", words(book.settled()));
  say("carrier view", words(book.carrier()));
  say("client view", words(book.client()) + (!book.client() ? "" : book.registered() ? ", registered" : ", not registered"));
  say("in a primary view", book.in_primary() ? "yes" : "no");
  say("open views", words(static_cast<unsigned>(open.size())) + " of " + words(DVS_OPEN) + (open.empty() ? "" : ": " + words(open)));
  say("messages taken in the carrier view", words(book.taken()) + " of " + words(DVS_ORDERED));
  say("outgoing messages", words(book.outgoing()) + " of " + words(DVS_OUTGOING));
  say("entries of the client view", words(book.handed()) + " handed out, " + words(book.told()) + " told, " + words(book.reported()) + " reported safe");
  for (const Call &call : kCalls) say(call.name, verdict(*bytes, call));
  return true;
}

}  // namespace

int main(int count, char **names) {
  if (count < 2 || names[1][0] == '-') {
    std::fputs("usage: dvs-show BOOK...\n"
               "says what a book holds and what its member waits for; a BOOK is a file with a saved book, and is only read\n", stderr);
    return 2;
  }
  bool fine = true;
  for (int i = 1; i < count; ++i) {
    if (count > 2) std::printf("%s%s:\n", i > 1 ? "\n" : "", names[i]);
    fine = show(names[i]) && fine;
    std::fflush(stdout);
  }
  return fine ? 0 : 1;
}
