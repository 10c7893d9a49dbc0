#include "disk.hpp"

#include "actions.hpp"

#include <cerrno>
#include <cstdio>
#include <cstdlib>
#include <cstring>
#include <fcntl.h>
#include <sys/file.h>
#include <unistd.h>

namespace kept {
namespace {

constexpr const char *kFile = "book", *kBeside = "book.new";

}  // namespace

void expect(bool holds, const char *words) {
  if (holds) return;
  std::fprintf(stderr, "kept: not so: %s\n", words);
  std::_Exit(1);
}

void expect_done(bool done, const char *words) {
  if (done) return;
  std::fprintf(stderr, "kept: not so: %s: %s\n", words, std::strerror(errno));
  std::_Exit(1);
}

Disk::Disk(const std::string &directory) : directory_(open(directory.c_str(), O_RDONLY | O_DIRECTORY | O_CLOEXEC)) {
  expect_done(directory_ >= 0, "the directory opens");
  expect_done(flock(directory_, LOCK_EX | LOCK_NB) == 0, "no other process has this book");
}

Disk::~Disk() { close(directory_); }

std::optional<Buffer> Disk::load() {
  before(Action::load);
  const int file = openat(directory_, kFile, O_RDONLY | O_CLOEXEC);
  if (file < 0 && errno == ENOENT) return std::nullopt;
  expect_done(file >= 0, "the file opens");
  Buffer bytes;
  std::uint8_t some[4096];
  for (ssize_t got; (got = read(file, some, sizeof some)) != 0;) {
    expect_done(got > 0, "the file is read");
    bytes.insert(bytes.end(), some, some + got);
  }
  close(file);
  // The process before this one may have been stopped after it had replaced the file and before that was on disk.
  sync_directory();
  return bytes;
}

void Disk::save(dvs::Bytes bytes) {
  write_beside(bytes);
  replace();
  sync_directory();
}

// The new bytes are on disk under another name before they get the file's name: a name may reach the disk sooner than the bytes.
void Disk::write_beside(dvs::Bytes bytes) {
  before(Action::write);
  const int file = openat(directory_, kBeside, O_WRONLY | O_CREAT | O_TRUNC | O_CLOEXEC, 0600);
  expect_done(file >= 0, "a file beside opens");
  for (std::size_t at = 0; at < bytes.size();) {
    const ssize_t put = write(file, bytes.data() + at, bytes.size() - at);
    expect_done(put > 0, "the file beside is written");
    at += static_cast<std::size_t>(put);
  }
  before(Action::sync);
  expect_done(fsync(file) == 0, "the file beside is on disk");
  expect_done(close(file) == 0, "the file beside closes");
}

void Disk::replace() {
  before(Action::rename);
  expect_done(renameat(directory_, kBeside, directory_, kFile) == 0, "the file is replaced");
}

// Until then a power cut may bring the old file back.
void Disk::sync_directory() {
  before(Action::sync_directory);
  expect_done(fsync(directory_) == 0, "the directory is on disk");
}

}  // namespace kept
