// The bench over the plain C++ group, to compare answers and speed with: the specification's lines in, its replies out.
#include <cerrno>
#include <unistd.h>

#include "reference_group.hpp"

namespace {

using namespace reference;

constexpr unsigned kLent = 8;   // view records that the bench lends
constexpr unsigned kLine = 64;  // bytes before the byte 10 that ends a line

constexpr uint64_t kByte = 0xff, kWord = 0xffffffff, kLong = UINT64_MAX;

struct Command { const char* name; uint8_t kind, operands; uint64_t widest[2]; };

// Kind 0 is start. Operands are in the specification's order, each with the greatest number of its width.
constexpr Command kCommands[] = {
    {"group", 0, 2, {kByte, kByte}},  {"create", 1, 2, {kWord, kByte}}, {"join", 2, 2, {kByte, kWord}},
    {"pass", 3, 1, {kByte, 0}},       {"order", 4, 2, {kByte, kWord}},  {"deliver", 5, 1, {kByte, 0}},
    {"attempt", 6, 1, {kByte, 0}},    {"register", 7, 1, {kByte, 0}},   {"send", 8, 2, {kByte, kLong}},
    {"hand", 9, 1, {kByte, 0}},       {"tell", 10, 1, {kByte, 0}},      {"safe", 11, 1, {kByte, 0}},
    {"collect", 12, 1, {kByte, 0}},
};

// Takes a numeral at the front; false if there is none within the width.
bool numeral(const char*& at, const char* end, uint64_t widest, uint64_t& value) {
  const char* from = at;
  value = 0;
  for (; at != end && *at >= '0' && *at <= '9'; ++at) {
    auto digit = static_cast<uint64_t>(*at - '0');
    if (value > (widest - digit) / 10) return false;
    value = value * 10 + digit;
  }
  return at != from && (*from != '0' || at == from + 1);
}

bool named(const Command& c, const char* line, size_t size) {
  size_t name = strlen(c.name);
  return size > name && memcmp(line, c.name, name) == 0 && line[name] == ' ';
}

const Command* parse(const char* line, size_t size, uint64_t operands[2]) {
  const Command* c = nullptr;
  for (const Command& other : kCommands)
    if (named(other, line, size)) c = &other;
  if (!c) return nullptr;
  const char *at = line + strlen(c->name), *end = line + size;
  for (unsigned i = 0; i < c->operands; ++i)
    if (at == end || *at++ != ' ' || !numeral(at, end, c->widest[i], operands[i])) return nullptr;
  return at == end ? c : nullptr;
}

class Output {
  char bytes_[1 << 16];
  size_t size_ = 0;

 public:
  void flush() {
    for (size_t done = 0; done < size_;) {
      ssize_t n = write(1, bytes_ + done, size_ - done);
      if (n < 0 && errno != EINTR) _exit(1);
      if (n > 0) done += static_cast<size_t>(n);
    }
    size_ = 0;
  }
  void room() { if (sizeof bytes_ - size_ < 128) flush(); }  // no reply is longer than 64 bytes
  void text(const char* s) { while (*s) bytes_[size_++] = *s++; }
  void number(uint64_t n) {
    char digits[20];
    unsigned count = 0;
    do digits[count++] = static_cast<char>('0' + n % 10); while (n /= 10);
    bytes_[size_++] = ' ';
    while (count) bytes_[size_++] = digits[--count];
  }
  void reply(const Reply& r) {
    static const char* const names[] = {"ok", "attempt", "register", "send", "hand", "safe"};
    room();
    if (r.refusal != kAccepted) {
      text("refused"), number(r.refusal);
    } else {
      text(names[r.event]);
      if (r.event != kOk) number(r.member), number(r.id);
      if (r.event == kAttempted || r.event >= kHanded) number(r.who);
      if (r.event >= kSent) number(r.number);
    }
    text("\n");
  }
};

struct Bench {
  Group group;
  bool running;
  bool begun, refusals;  // a line has come; it was `all`, so refusals are shown
  Output out;

  void show(const Reply& r) {
    if (r.refusal == kAccepted || refusals) out.reply(r);
  }
  void hear(const char* line, size_t size) {
    bool first = !begun;
    begun = true;
    if (first && size == 3 && memcmp(line, "all", 3) == 0)
      refusals = true;
    else
      answer(line, size);
  }
  void answer(const char* line, size_t size) {
    uint64_t operands[2] = {0, 0};
    const Command* c = size > kLine ? nullptr : parse(line, size, operands);
    if (!c || (c->kind != 0 && !running)) return show(refuse(kLineUnreadable));
    if (c->kind != 0) return show(group.step(c->kind, operands[0], operands[1]));
    Refusal r = group.start(operands[0], operands[1], kLent);
    if (r == kAccepted) running = true;
    show(refuse(r));
  }
};

Bench bench;

}  // namespace

int main() {
  static char input[1 << 16];
  char rest[kLine + 1];  // the beginning of a line whose end has not come, as far as it matters
  size_t kept = 0;
  auto keep = [&](const char* from, size_t size) {
    if (size > sizeof rest - kept) size = sizeof rest - kept;
    memcpy(rest + kept, from, size);
    kept += size;
  };
  for (;;) {
    ssize_t n = read(0, input, sizeof input);
    if (n < 0 && errno == EINTR) continue;
    if (n <= 0) break;
    const char *at = input, *end = input + n;
    while (auto stop = static_cast<const char*>(memchr(at, '\n', static_cast<size_t>(end - at)))) {
      if (kept == 0) {
        bench.hear(at, static_cast<size_t>(stop - at));
      } else {
        keep(at, static_cast<size_t>(stop - at));
        bench.hear(rest, kept);
        kept = 0;
      }
      at = stop + 1;
    }
    keep(at, static_cast<size_t>(end - at));
    bench.out.flush();
  }
  if (kept > 0) bench.hear(rest, kept);
  bench.out.flush();
  return 0;
}
