// The carrier, and the world that reads the events. It starts a process for each office, notices when one is gone, gives views and puts the messages of
// each view into one order (duty 4). What the offices publish becomes one public history.
#pragma once

#include "careless.hpp"
#include "crash.hpp"

#include <cstdio>
#include <map>
#include <sys/types.h>

namespace kept {

class Carrier {
 public:
  // Every office keeps its file in a directory of its own below this one, which is made and at the end removed. The history goes to the file.
  Carrier(const std::string &directory, Group group, Care care, std::FILE *history);
  ~Carrier();
  Carrier(const Carrier &) = delete;
  Carrier &operator=(const Carrier &) = delete;

  // A process for the office. It ends by itself at this action, counted from 1; 0: at none.
  void start(dvs::Member office, unsigned stop_at = 0);
  void kill(dvs::Member office);
  // Those that are there and have spoken since they were started; those that have no process.
  dvs::Set ready() const;
  dvs::Set gone() const;
  Place &place(dvs::Member office) { return places_[dvs::number(office)]; }
  void cut_power(dvs::Member office) { kept::cut_power(place(office), directory(office)); }

  // These are the parts that can hear each other. The lowest office of each makes its view, which all of the part are then given.
  void connect(const std::vector<dvs::Set> &parts);
  void wish(dvs::Member office, unsigned mark) { seat(office).waiting.push_back(Wish{mark}); }

  // The office has a turn with what there is for it, and at most so many packets. Whether there was anything, and no turn was under way.
  bool give(dvs::Member office, std::size_t packets = DVS_ORDERED);
  // Waits for the end of the office's turn, or of its process.
  void hear_out(dvs::Member office);
  // Takes what the offices have sent; waits for so many milliseconds if there is nothing.
  void hear_all(int milliseconds);
  // A turn of each office, one after another, the maker of views last: the same run each time. Whether there was anything to do.
  bool round();

  // Of the public history: the views attempted above the last one that all its offices registered in; whether all of the set are registered in one view,
  // which is theirs and the last they were given.
  std::size_t open_views() const;
  bool registered(dvs::Set set) const;
  // Whether the view of some office is nearly full.
  bool nearly_full() const;
  std::size_t events() const { return events_; }
  std::size_t safe_events() const { return safe_events_; }
  std::size_t views() const { return views_.size(); }

 private:
  struct Seat {
    pid_t process = 0;  // 0: none
    int socket = -1;
    bool known = false;     // it has spoken, so its book is there
    bool spoke = false;     // since its process was started
    bool has_view = false;  // it was given one since then
    bool in_turn = false;
    std::uint32_t highest = 0;
    std::optional<std::uint32_t> view;  // given last
    std::size_t taken = 0;              // so many packets of its order
    std::vector<Arrival> waiting;  // all but packets
    std::uint64_t events = 0;      // how many of its events are public
  };
  struct Channel {
    dvs::Set set, registered;
    bool attempted = false, full = false;
    std::vector<Packet> order;
    std::size_t messages = 0;
  };

  Seat &seat(dvs::Member office) { return seats_[dvs::number(office)]; }
  const Seat &seat(dvs::Member office) const { return seats_[dvs::number(office)]; }
  std::string directory(dvs::Member office) const { return directory_ + "/" + std::to_string(dvs::number(office)); }
  [[noreturn]] void be_office(dvs::Member office, int socket) const;
  void hear(dvs::Member office);
  void bury(dvs::Member office);
  void publish(Seat &seat, const Published &published);
  void make_public(const std::string &event);
  void form(dvs::View view);
  void order(dvs::Member sender, const Buffer &packet);

  std::string directory_;
  Group group_;
  Care care_;
  std::FILE *history_;
  Place *places_;
  std::vector<Seat> seats_;
  std::vector<dvs::Set> awaited_;  // the parts whose views are being made
  std::map<std::uint32_t, Channel> views_;
  std::size_t events_ = 0, safe_events_ = 0;
};

}  // namespace kept
