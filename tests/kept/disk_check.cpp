// The disk by itself, and an office that does not find its book whole.
#include "trials.hpp"

#include <csignal>
#include <fcntl.h>
#include <filesystem>
#include <sys/resource.h>
#include <sys/socket.h>
#include <sys/wait.h>
#include <unistd.h>

namespace kept {
namespace {

// Whether a process that does this ends by an `expect`, which has the status 1.
template <class Deed>
bool ends(Deed deed) {
  std::fflush(nullptr);
  const pid_t process = fork();
  expect_done(process >= 0, "there is a process");
  if (process == 0) {
    dup2(open("/dev/null", O_WRONLY), STDERR_FILENO);
    deed();
    _exit(0);
  }
  int status = 0;
  waitpid(process, &status, 0);
  return WIFEXITED(status) && WEXITSTATUS(status) == 1;
}

void write_no_more_than(rlim_t bytes) {
  std::signal(SIGXFSZ, SIG_IGN);
  const rlimit limit{bytes, bytes};
  setrlimit(RLIMIT_FSIZE, &limit);
}

State some_state() {
  State state;
  expect(state.book.start(3, dvs::Set::below(3), dvs::Member{1}).accepted(), "a book starts");
  state.copy = {32, 0, 66, 0};
  state.version = 2;
  state.highest = 17;
  state.number = 5;
  state.events = {"attempt 1 17 7", "send 1 17 66"};
  return state;
}

// Every byte changed, every byte left out at the end, and a byte too many.
void try_changed_bytes() {
  const Buffer whole = pack(some_state());
  State state;
  expect(unpack(whole, state) && pack(state) == whole, "what was packed is unpacked");
  for (std::size_t i = 0; i < whole.size(); ++i) {
    Buffer changed = whole;
    changed[i] = static_cast<std::uint8_t>(changed[i] ^ (1u << i % 8));
    expect(!unpack(changed, state), "a changed byte is found");
    expect(!unpack(dvs::Bytes(whole.data(), i), state), "a cut is found");
  }
  Buffer longer = whole;
  longer.push_back(0);
  expect(!unpack(longer, state), "a byte too many is found");
}

}  // namespace

void try_disk(const std::string &directory) {
  try_changed_bytes();
  std::filesystem::create_directory(directory);
  const Buffer old(5000, 1), next(6000, 2), bad(pack(some_state()).size(), 3);
  {
    Disk disk(directory);
    expect(!disk.load(), "nothing was saved");
    disk.save(old);
    expect(disk.load() == old, "what was saved is loaded");
    expect(ends([&] { Disk second(directory); }), "a second process does not get the book");
  }
  for (const rlim_t room : {rlim_t{0}, rlim_t{5999}}) {
    expect(ends([&] {
      Disk disk(directory);
      write_no_more_than(room);
      disk.save(next);
    }), "a save that fails ends the process");
    expect(Disk(directory).load() == old, "and leaves what was saved before");
  }

  int sockets[2];
  expect_done(socketpair(AF_UNIX, SOCK_SEQPACKET, 0, sockets) == 0, "there is a line");
  const Line line(sockets[0]);
  const auto office_starts = [&](bool never_started) {
    Disk disk(directory);
    Office(Group{3, dvs::Set::below(3)}, dvs::Member{1}, never_started, disk, line);
  };
  for (const Buffer &file : {old, bad}) {
    Disk(directory).save(file);
    for (const bool never_started : {false, true})
      expect(ends([&] { office_starts(never_started); }), "an office does not start with a file that is not whole");
  }
  Disk(directory).save(pack(some_state()));
  expect(!ends([&] { office_starts(false); }), "an office starts with its file");
  std::filesystem::remove(directory + "/book");
  expect(ends([&] { office_starts(false); }), "an office that has lost its file does not start");
  expect(!ends([&] { office_starts(true); }), "an office that was never started does");
  std::filesystem::remove_all(directory);
  std::fprintf(stderr, "kept: the disk by itself: as expected\n");
}

}  // namespace kept
