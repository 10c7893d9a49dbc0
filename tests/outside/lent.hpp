// Lent ranges. The library's copy lies flush against a page that nothing may touch, before it or behind it; the plain
// implementation works on a copy of its own, and after a call both must be the same.
#pragma once

#include <csignal>
#include <cstdio>
#include <cstdlib>
#include <sys/mman.h>
#include <sys/wait.h>
#include <unistd.h>

#include "alone.hpp"

namespace outside {

[[noreturn]] inline void give_up(const char* why) {
  perror(why);
  exit(2);
}

// Memory with a page on each side that nothing may touch.
class Guarded {
  uint8_t* begin_;
  size_t size_;

 public:
  explicit Guarded(size_t most) {
    auto page = static_cast<size_t>(sysconf(_SC_PAGESIZE));
    size_ = (most + page - 1) / page * page;
    void* all = mmap(nullptr, size_ + 2 * page, PROT_NONE, MAP_PRIVATE | MAP_ANONYMOUS, -1, 0);
    if (all == MAP_FAILED) give_up("mmap");
    begin_ = static_cast<uint8_t*>(all) + page;
    if (size_ > 0 && mprotect(begin_, size_, PROT_READ | PROT_WRITE) != 0) give_up("mprotect");
  }
  Guarded(const Guarded&) = delete;
  Guarded& operator=(const Guarded&) = delete;

  uint8_t* front() { return begin_; }
  uint8_t* back(size_t size) { return begin_ + size_ - size; }
};

enum Flush { kFront, kBack, kNull };

class Lent {
  const char* name_;
  size_t most_, size_ = 0;
  Guarded guarded_;
  uint8_t *theirs_ = nullptr, *mine_, *before_;

 public:
  Lent(const char* name, size_t most, bool remembers = true)
      : name_(name), most_(most), guarded_(most), mine_(static_cast<uint8_t*>(calloc(most + 1, 1))),
        before_(remembers ? static_cast<uint8_t*>(calloc(most + 1, 1)) : nullptr) {}
  ~Lent() { free(mine_), free(before_); }
  Lent(const Lent&) = delete;
  Lent& operator=(const Lent&) = delete;

  const char* name() const { return name_; }
  size_t size() const { return size_; }
  uint8_t* theirs() { return theirs_; }
  uint8_t* mine() { return mine_; }
  const uint8_t* before() const { return before_; }
  plain::Range range() { return plain::Range{mine_, size_}; }

  // Another length and place; the contents are then to be set. Null is for length 0 alone.
  void resize(size_t size, Flush flush) {
    if (size > most_) give_up("a range longer than its place");
    size_ = size;
    theirs_ = flush == kFront ? guarded_.front() : flush == kBack || size > 0 ? guarded_.back(size) : nullptr;
  }
  void set(const uint8_t* from, size_t size, Flush flush) {
    resize(size, flush);
    if (size > 0) memcpy(mine_, from, size);
    copy_to_theirs();
  }
  void copy_to_theirs() {
    if (size_ > 0) memcpy(theirs_, mine_, size_);
  }
  // The whole place, whatever part of it is lent next.
  size_t most() const { return most_; }
  void poke(size_t at, uint8_t value) { theirs_[at] = mine_[at] = value; }

  void remember() {
    if (before_ && size_ > 0) memcpy(before_, mine_, size_);
  }
  bool same() const { return size_ == 0 || memcmp(theirs_, mine_, size_) == 0; }
};

// Whether the pages do their work: a child that touches a byte outside must be stopped by a signal.
inline bool faults(volatile uint8_t* at, bool writes) {
  fflush(stdout);
  pid_t child = fork();
  if (child < 0) give_up("fork");
  if (child == 0) {
    signal(SIGSEGV, SIG_DFL);
    signal(SIGBUS, SIG_DFL);
    if (writes) *at = 0;
    else static_cast<void>(*at);
    _exit(0);
  }
  int status = 0;
  if (waitpid(child, &status, 0) != child) give_up("waitpid");
  return WIFSIGNALED(status);
}

inline bool guards_work() {
  bool work = true;
  for (size_t size : {size_t{0}, size_t{1}, plain::kBookSize, plain::kBooksSize}) {
    Lent lent("guard", size);
    lent.resize(size, kFront);
    for (bool writes : {false, true}) work = work && faults(lent.theirs() - 1, writes);
    lent.resize(size, kBack);
    for (bool writes : {false, true}) work = work && faults(lent.theirs() + size, writes);
  }
  return work;
}

}  // namespace outside
