#include "carrier.hpp"

#include <algorithm>
#include <csignal>
#include <filesystem>
#include <poll.h>
#include <sstream>
#include <sys/mman.h>
#include <sys/socket.h>
#include <sys/wait.h>
#include <unistd.h>

namespace kept {

Carrier::Carrier(const std::string &directory, Group group, Care care, std::FILE *history)
    : directory_(directory), group_(group), care_(care), history_(history), places_(shared_places(group.members)), seats_(group.members) {
  expect(std::filesystem::create_directory(directory), "the offices' directory is new");
  for (dvs::Member office : dvs::Set::below(group.members)) std::filesystem::create_directory(this->directory(office));
  std::fprintf(history_, "group %u %u\n", group.members, group.first.bits);
  views_[0].set = views_[0].registered = group.first;
}

Carrier::~Carrier() {
  for (unsigned i = 0; i < group_.members; ++i) {
    if (seats_[i].process == 0) continue;
    ::kill(seats_[i].process, SIGKILL);
    waitpid(seats_[i].process, nullptr, 0);
    close(seats_[i].socket);
  }
  munmap(places_, group_.members * sizeof(Place));
  std::filesystem::remove_all(directory_);
}

// ---- processes

void Carrier::start(dvs::Member office, unsigned stop_at) {
  int sockets[2];
  expect_done(socketpair(AF_UNIX, SOCK_SEQPACKET | SOCK_CLOEXEC, 0, sockets) == 0, "there is a line");
  place(office).action = Action::load;
  place(office).count = 0;
  place(office).stop_at = stop_at;
  place(office).lingers = false;
  std::fflush(nullptr);
  const pid_t process = fork();
  expect_done(process >= 0, "there is a process");
  if (process == 0) {
    for (const Seat &other : seats_)
      if (other.process != 0) close(other.socket);
    close(sockets[0]);
    be_office(office, sockets[1]);
  }
  close(sockets[1]);
  Seat &at = seat(office);
  at.process = process;
  at.socket = sockets[0];
  at.in_turn = true;
  at.highest = 0;
  // Until it is given another view, the messages of the old one go on coming. What came to the process before it is lost to this one.
  at.waiting.clear();
}

// The whole program of an office.
void Carrier::be_office(dvs::Member own, int socket) const {
  become(places_[dvs::number(own)], directory(own));
  const Line line(socket);
  const std::unique_ptr<Disk> disk = make_disk(care_, directory(own));
  const std::unique_ptr<Office> office = make_office(care_, group_, own, !seat(own).known, *disk, line);
  for (;;) {
    before(Action::wait);
    const std::optional<std::vector<Arrival>> came = line.take_arrivals();
    if (!came) std::_Exit(0);
    office->turn(*came);
  }
}

void Carrier::kill(dvs::Member office) {
  expect(seat(office).process > 0, "the office to be killed has a process");
  ::kill(seat(office).process, SIGKILL);
}

void Carrier::bury(dvs::Member office) {
  Seat &at = seat(office);
  int status = 0;
  expect_done(waitpid(at.process, &status, 0) == at.process, "the process that is gone is found");
  const bool killed = WIFSIGNALED(status) && WTERMSIG(status) == SIGKILL, stopped = WIFEXITED(status) && WEXITSTATUS(status) == kStopped;
  expect(killed || stopped, "no office ends but by a kill or a stop of the test");
  close(at.socket);
  at.process = 0;
  at.in_turn = at.spoke = at.has_view = false;
}

dvs::Set Carrier::ready() const {
  dvs::Set set;
  for (dvs::Member office : dvs::Set::below(group_.members))
    if (seat(office).spoke) set = set.with(office);
  return set;
}

dvs::Set Carrier::gone() const {
  dvs::Set set;
  for (dvs::Member office : dvs::Set::below(group_.members))
    if (seat(office).process == 0) set = set.with(office);
  return set;
}

// ---- turns

bool Carrier::give(dvs::Member office, std::size_t packets) {
  Seat &at = seat(office);
  if (at.process == 0 || at.in_turn) return false;
  std::vector<Arrival> came;
  came.swap(at.waiting);
  if (at.view)
    for (const std::vector<Packet> &order = views_[*at.view].order; at.taken < order.size() && packets > 0; --packets) came.push_back(order[at.taken++]);
  if (came.empty()) return false;
  at.in_turn = true;
  Line(at.socket).send(came);
  return true;
}

void Carrier::hear_out(dvs::Member office) {
  while (seat(office).in_turn) hear(office);
}

void Carrier::hear_all(int milliseconds) {
  std::vector<pollfd> lines;
  std::vector<dvs::Member> offices;
  for (dvs::Member office : dvs::Set::below(group_.members)) {
    if (seat(office).process == 0) continue;
    lines.push_back({seat(office).socket, POLLIN, 0});
    offices.push_back(office);
  }
  poll(lines.data(), lines.size(), milliseconds);
  for (std::size_t i = 0; i < lines.size(); ++i)
    if (lines[i].revents != 0) hear(offices[i]);
}

bool Carrier::round() {
  bool anything = false;
  for (std::uint32_t i = group_.members; i-- > 0;) {
    if (!give(dvs::Member{i})) continue;
    hear_out(dvs::Member{i});
    anything = true;
  }
  return anything;
}

void Carrier::hear(dvs::Member office) {
  Seat &at = seat(office);
  const std::optional<Departure> departure = Line(at.socket).take_departure();
  if (!departure) return bury(office);
  at.known = true;
  if (const auto *published = std::get_if<Published>(&*departure)) return publish(at, *published);
  const Posted &posted = std::get<Posted>(*departure);
  at.in_turn = false;
  at.spoke = true;
  at.highest = std::max(at.highest, posted.highest);
  if (posted.made) form(*posted.made);
  if (!posted.packet.empty()) order(office, posted.packet);
}

// ---- views and their orders

void Carrier::connect(const std::vector<dvs::Set> &parts) {
  awaited_ = parts;
  for (const dvs::Set part : parts) {
    Make make{part, 0};
    for (dvs::Member office : part) make.highest = std::max(make.highest, seat(office).highest);
    seat(*part.begin()).waiting.push_back(make);
  }
}

// A view that was made for parts of before is not given to anybody.
void Carrier::form(dvs::View view) {
  const auto awaited = std::find(awaited_.begin(), awaited_.end(), view.set);
  if (awaited == awaited_.end() || (view.set & ready()) != view.set) return;
  const std::uint32_t identifier = dvs::number(view.identifier);
  for (dvs::Member office : view.set)
    if (identifier <= (office == *view.set.begin() ? seat(office).view.value_or(0) : seat(office).highest)) return;
  awaited_.erase(awaited);
  expect(care_ != Care::kept || views_.count(identifier) == 0, "no two views share an identifier");
  views_[identifier] = Channel();
  views_[identifier].set = view.set;
  for (dvs::Member office : view.set) {
    Seat &at = seat(office);
    at.highest = identifier;
    at.view = identifier;
    at.has_view = true;
    at.taken = 0;
    at.waiting.push_back(view);
  }
}

// A packet for which the view has no room is left out, and with it all that come after it: of each sender the first messages are in the order.
void Carrier::order(dvs::Member sender, const Buffer &packet) {
  std::size_t messages = 0;
  std::uint32_t identifier = 0;
  dvs::MessagesIn in = dvs::messages_in(packet);
  for (const dvs::Message &message : in) {
    identifier = dvs::number(message.view);
    ++messages;
  }
  Channel &channel = views_.at(identifier);
  channel.full = channel.full || channel.messages + messages > DVS_ORDERED;
  if (channel.full) return;
  channel.messages += messages;
  channel.order.push_back({sender, packet});
}

bool Carrier::nearly_full() const {
  return std::any_of(seats_.begin(), seats_.end(), [this](const Seat &at) { return at.view && 4 * views_.at(*at.view).messages > 3 * DVS_ORDERED; });
}

// ---- the public history

// An event with a known number was published before, and is not read again.
void Carrier::publish(Seat &at, const Published &published) {
  expect(published.number <= at.events, "no event is left out");
  for (std::uint64_t i = at.events - published.number; i < published.events.size(); ++i) {
    make_public(published.events[i]);
    ++at.events;
  }
}

void Carrier::make_public(const std::string &event) {
  std::fprintf(history_, "%s\n", event.c_str());
  ++events_;
  std::istringstream words(event);
  std::string word;
  unsigned office = 0, view = 0;
  words >> word >> office >> view;
  if (word == "attempt") views_[view].attempted = true;
  if (word == "register") views_[view].registered = views_[view].registered.with(dvs::Member{office});
  if (word == "safe") ++safe_events_;
}

std::size_t Carrier::open_views() const {
  std::size_t open = 0;
  for (const auto &[identifier, view] : views_) {
    if (view.registered == view.set) open = 0;
    else if (view.attempted) ++open;
  }
  return open;
}

bool Carrier::registered(dvs::Set set) const {
  const std::optional<std::uint32_t> view = seat(*set.begin()).view;
  return view && views_.at(*view).set == set && views_.at(*view).registered == set &&
         std::all_of(set.begin(), set.end(), [&](dvs::Member office) { return seat(office).has_view && seat(office).view == view; });
}

}  // namespace kept
