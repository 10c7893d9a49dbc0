#include "crash.hpp"

#include <filesystem>
#include <new>
#include <sys/mman.h>
#include <unistd.h>

namespace kept {
namespace {

namespace fs = std::filesystem;

// This process's own; none in the process that plays the carrier.
Place *own = nullptr;
std::string own_directory;

constexpr int kLingers = 100;  // milliseconds

// The file is about to be replaced. It is kept under a third name, from which a power cut brings it back.
void keep_the_old_file() {
  std::error_code none;
  fs::remove(own_directory + "/book.old", none);
  fs::create_hard_link(own_directory + "/book", own_directory + "/book.old", none);
  own->unsynced = true;
}

}  // namespace

Place *shared_places(unsigned offices) {
  void *memory = mmap(nullptr, offices * sizeof(Place), PROT_READ | PROT_WRITE, MAP_SHARED | MAP_ANONYMOUS, -1, 0);
  expect_done(memory != MAP_FAILED, "memory is shared");
  return new (memory) Place[offices];
}

void become(Place &place, const std::string &directory) {
  own = &place;
  own_directory = directory;
}

void before(Action action) {
  if (own == nullptr) return;
  if (own->action == Action::sync_directory) own->unsynced = false;
  if (action == Action::rename) keep_the_old_file();
  own->action = action;
  if (++own->count == own->stop_at) _exit(kStopped);
  if (own->linger_at != static_cast<int>(action)) return;
  own->lingers = true;
  for (int i = 0; i < kLingers; ++i) usleep(1000);
}

void cut_power(Place &place, const std::string &directory) {
  std::error_code none;
  const fs::path beside = directory + "/book.new", file = directory + "/book", old = directory + "/book.old";
  if (place.action == Action::sync) fs::resize_file(beside, fs::file_size(beside, none) / 2, none);
  if (!place.unsynced) return;
  if (fs::exists(old)) fs::rename(old, file, none);
  else fs::remove(file, none);
  place.unsynced = false;
}

}  // namespace kept
