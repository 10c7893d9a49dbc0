#include "careless.hpp"

namespace kept {
namespace {

class HastyOffice : public Office {
  using Office::Office;
  void finish() override {
    post();
    save();
    publish();
  }
};

class SilentOffice : public Office {
  using Office::Office;
  void finish() override {
    save();
    post();
    publish();
  }
};

class SeldomOffice : public Office {
  using Office::Office;
  void finish() override {
    if (++turns_ % 10 == 0) save();
    publish();
    post();
  }
  unsigned turns_ = 0;
};

// The first save of a process is synced: an office that lost its only file would notice it by itself.
class UnsyncedDisk : public Disk {
 public:
  using Disk::Disk;
  void save(dvs::Bytes bytes) override {
    write_beside(bytes);
    replace();
    if (saves_++ == 0) sync_directory();
  }

 private:
  unsigned saves_ = 0;
};

}  // namespace

std::optional<Care> care_of(const std::string &name) {
  constexpr std::array<const char *, 5> names = {"kept", "hasty", "silent", "seldom", "unsynced"};
  for (std::size_t i = 0; i < names.size(); ++i)
    if (name == names[i]) return static_cast<Care>(i);
  return std::nullopt;
}

std::unique_ptr<Disk> make_disk(Care care, const std::string &directory) {
  if (care == Care::unsynced) return std::make_unique<UnsyncedDisk>(directory);
  return std::make_unique<Disk>(directory);
}

std::unique_ptr<Office> make_office(Care care, Group group, dvs::Member own, bool never_started, Disk &disk, const Line &line) {
  switch (care) {
    case Care::hasty:
      return std::make_unique<HastyOffice>(group, own, never_started, disk, line);
    case Care::silent:
      return std::make_unique<SilentOffice>(group, own, never_started, disk, line);
    case Care::seldom:
      return std::make_unique<SeldomOffice>(group, own, never_started, disk, line);
    default:
      return std::make_unique<Office>(group, own, never_started, disk, line);
  }
}

}  // namespace kept
