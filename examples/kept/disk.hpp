// One file in a directory of its own, which one process has at a time. A save replaces the whole file: whatever stops the process or the machine, a load
// afterwards gives what the last finished save was given, or what the one under way was given, and never a part of it.
#pragma once

#include "bytes.hpp"

#include <optional>

namespace kept {

// Both end the process at once with these words, unless it is so: what cannot be saved must not be spoken of, so nobody catches it. The second is for system
// calls, and adds the system's reason.
void expect(bool holds, const char *words);
void expect_done(bool done, const char *words);

class Disk {
 public:
  // Locks the directory. Ends the process if another one has it: two processes never have one book.
  explicit Disk(const std::string &directory);
  virtual ~Disk();
  Disk(const Disk &) = delete;
  Disk &operator=(const Disk &) = delete;

  // What was saved last, if anything ever was. It is on disk when this returns, so that it may be spoken of.
  std::optional<Buffer> load();
  // When this returns, the bytes are on disk. If the disk fails, it does not return. (Virtual, so that the test can put a careless disk in its place.)
  virtual void save(dvs::Bytes bytes);

 protected:
  void write_beside(dvs::Bytes bytes);
  void replace();
  void sync_directory();

 private:
  int directory_;
};

}  // namespace kept
