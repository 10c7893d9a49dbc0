// Where each office is, in memory that all processes share, and what a stop there leaves on disk.
#pragma once

#include "actions.hpp"
#include "disk.hpp"

#include <atomic>

namespace kept {

struct Place {
  std::atomic<Action> action{};          // the last one announced
  std::atomic<std::uint32_t> count{};    // how many were announced since the process was started
  std::atomic<std::uint32_t> stop_at{};  // the process ends at this one; 0: at none
  std::atomic<int> linger_at{-1};        // an action at which the process waits for a while to be killed; -1: none
  std::atomic<bool> lingers{};
  std::atomic<bool> unsynced{};          // the file was replaced, and the directory was not synced since
};

constexpr int kStopped = 77;  // the status of a process that ended at its stop_at

// A place for each of so many offices, before the processes are made.
Place *shared_places(unsigned offices);
// From now on this process is the office at the place, and keeps its file in the directory.
void become(Place &place, const std::string &directory);
// What a power cut leaves of what the office wrote, if it has the worst luck: bytes that were not synced are lost in part, and a file that was replaced
// comes back if the directory was not synced since.
void cut_power(Place &place, const std::string &directory);

}  // namespace kept
