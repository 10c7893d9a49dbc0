// What the host holds the offices to, by their events alone.
#pragma once

#include "timber.hpp"

#include <map>
#include <set>
#include <string>
#include <utility>
#include <vector>

namespace offices {

// Ends the program with status 1 and these words unless `holds`.
void expect(bool holds, const char *words);

// What is decided by: the service, or the old program's rule. By the service a broken rule ends the program; by the old one it is noted.
enum class Rule { service, old_program };

class Watch {
 public:
  Watch(dvs::Set first, Rule rule);

  // A view was attempted. Any two attempted views share an office, unless a view that all its offices registered in lies between them.
  void attempted(const dvs::Event &event);
  void registered(const dvs::Event &event, const Register &marks);
  // An entry was handed out at this place, from 1 on. All offices of a view are handed the same entries in the same order.
  void handed(const dvs::Event &event, unsigned place);
  // An entry was reported safe at this place: every office of the view has been handed it. The line that it left is never lost again, since
  // the offices register last.
  void safe(const dvs::Event &event, unsigned place, Mark mark, Stamp stamp);

  // The rules that were broken, in words.
  const std::set<std::string> &broken() const { return broken_; }
  unsigned views_attempted() const { return static_cast<unsigned>(views_.size()); }
  unsigned lines_safe() const { return lines_safe_; }

 private:
  struct Seen {
    dvs::Set set, registered;
    std::vector<std::pair<dvs::Member, std::uint64_t>> entries;
    std::map<dvs::Member, unsigned> handed;
  };
  void hold_to(bool holds, const char *words);
  // The marks of an office that works in this view are no older than what was safe before.
  void none_lost(dvs::Identifier view, const Register &marks);
  bool registered_between(dvs::Identifier low, dvs::Identifier high) const;

  std::map<dvs::Identifier, Seen> views_;
  Rule rule_;
  std::set<std::string> broken_;
  std::map<Mark, Stamp> safe_;
  unsigned lines_safe_ = 0;
};

}  // namespace offices
