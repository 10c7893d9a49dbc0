// What an office does, action by action. Each is announced before it is done, so that the test can stop an office between any two of them. A host of one's
// own leaves the announcements out.
#pragma once

#include <cstdint>

namespace kept {

enum class Action : std::uint8_t { load, wait, take, step, write, sync, rename, sync_directory, publish, post };
constexpr unsigned kActions = 10;

void before(Action action);

}  // namespace kept
