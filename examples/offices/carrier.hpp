// The carrier of this host: it forms views, puts the messages of each view into one order, and gives each office that order from its beginning. The
// service asks no more of a carrier. What an office has to say in one turn goes as one packet. The lines under it may be cut, slow and lossy.
#pragma once

#include "dvs.hpp"

#include <array>
#include <deque>
#include <map>
#include <optional>
#include <vector>

namespace offices {

constexpr unsigned kOffices = DVS_MEMBERS;

// A small generator with a fixed seed (splitmix64), so that every run is the same run.
class Chance {
 public:
  explicit Chance(std::uint64_t seed) : state_(seed) {}
  std::uint64_t next();
  unsigned below(unsigned limit) { return static_cast<unsigned>(next() % limit); }
  bool percent(unsigned of_100) { return below(100) < of_100; }

 private:
  std::uint64_t state_;
};

// Messages of one office in one view, one after another.
using Packet = std::vector<std::uint8_t>;

struct Letter {
  dvs::Member sender{};
  Packet packet;
};

class Carrier {
 public:
  Carrier(std::uint64_t seed, dvs::Set first);

  // From now on an office reaches those in its part only.
  void connect(const std::vector<dvs::Set> &parts);
  // A new view, with an identifier above all before.
  dvs::View form(dvs::Set set);
  // The office leaves the view that it is in. What it has not sent there is dropped; what it has not taken there comes too late.
  void enter(dvs::Member office, dvs::View view);
  // So many of 100 packets are lost on a line and have to be sent again; so many of 100 deliveries are late.
  void weather(unsigned lost, unsigned late);
  // Nothing comes to this office until it is let go again.
  void hold(dvs::Member office, bool held);

  // A packet of the office in its view.
  void post(dvs::Member office, dvs::Bytes packet);
  // One try for the first packet of every office, from the office to the one that keeps the view's order.
  void carry();
  // The next packet of the order, from there to the office, if it comes through now; or one of an earlier view that comes too late. Packets of a view that
  // the office has not entered yet stay in the view's order: given now they would be refused, and the office would miss them for good.
  std::optional<Letter> take(dvs::Member office);
  // Whether the order of the office's view has all the messages that a view can have.
  bool full(dvs::Member office) const;
  // Whether there is nothing left that the lines as they are could bring anywhere.
  bool quiet() const;

  // How many messages came into the orders, and in how many packets; how many of these found room in part alone, and how many were lost on a line and
  // sent again.
  std::size_t messages() const;
  std::size_t packets() const;
  unsigned cut() const { return cut_; }
  unsigned lost() const { return lost_; }

 private:
  struct Channel {
    dvs::View view;
    std::array<std::deque<Packet>, kOffices> waiting;
    std::vector<Letter> order;
    std::size_t messages = 0;  // in the packets of the order

    bool full() const { return messages == DVS_ORDERED; }
    // The office's first packet goes into the order, as far as there is room for its messages. What is left of it stays the first that waits, so that
    // of each office the first messages are in the order, with none left out between. Whether nothing is left.
    bool put_in_order(dvs::Member office);
  };
  struct Seat {
    std::optional<dvs::Identifier> view;
    std::size_t taken = 0;
    std::deque<Letter> too_late;
    unsigned part = 0;
    bool held = false;
  };

  Seat &seat(dvs::Member office) { return seats_[dvs::number(office)]; }
  const Seat &seat(dvs::Member office) const { return seats_[dvs::number(office)]; }
  // The order of a view is kept by its lowest member.
  bool reaches_keeper(dvs::Member office, const Channel &channel) const;

  Chance chance_;
  std::map<dvs::Identifier, Channel> channels_;
  std::array<Seat, kOffices> seats_;
  std::uint32_t last_ = 0;
  unsigned percent_lost_ = 0, percent_late_ = 0;
  unsigned lost_ = 0, cut_ = 0;
};

// All offices, for loops.
std::array<dvs::Member, kOffices> everyone();

}  // namespace offices
