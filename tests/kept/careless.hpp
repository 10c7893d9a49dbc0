// Offices and disks that break the rule of duty 1, each in one way, to see that the check of the history finds it.
#pragma once

#include "office.hpp"

#include <memory>

namespace kept {

enum class Care {
  kept,      // none of these: the rule is kept
  hasty,     // posts, then saves and publishes
  silent,    // saves and posts, then publishes
  seldom,    // saves every tenth turn alone
  unsynced,  // does not sync the directory
};
// By its name above.
std::optional<Care> care_of(const std::string &name);

std::unique_ptr<Disk> make_disk(Care care, const std::string &directory);
std::unique_ptr<Office> make_office(Care care, Group group, dvs::Member own, bool never_started, Disk &disk, const Line &line);

}  // namespace kept
