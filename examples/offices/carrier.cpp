#include "carrier.hpp"

#include "watch.hpp"

namespace offices {

std::array<dvs::Member, kOffices> everyone() {
  std::array<dvs::Member, kOffices> all{};
  for (unsigned i = 0; i < kOffices; ++i) all[i] = dvs::Member{i};
  return all;
}

std::uint64_t Chance::next() {
  std::uint64_t z = state_ += 0x9E3779B97F4A7C15u;
  z = (z ^ z >> 30u) * 0xBF58476D1CE4E5B9u;
  z = (z ^ z >> 27u) * 0x94D049BB133111EBu;
  return z ^ z >> 31u;
}

Carrier::Carrier(std::uint64_t seed, dvs::Set first) : chance_(seed) {
  channels_[dvs::Identifier{0}].view = {dvs::Identifier{0}, first};
  for (dvs::Member office : everyone()) {
    if (first.has(office)) seat(office).view = dvs::Identifier{0};
    seat(office).part = first.has(office) ? 0 : 1 + dvs::number(office);
  }
}

void Carrier::connect(const std::vector<dvs::Set> &parts) {
  for (dvs::Member office : everyone()) {
    seat(office).part = static_cast<unsigned>(parts.size()) + dvs::number(office);
    for (unsigned i = 0; i < parts.size(); ++i)
      if (parts[i].has(office)) seat(office).part = i;
  }
}

dvs::View Carrier::form(dvs::Set set) {
  const dvs::View view{dvs::Identifier{++last_}, set};
  channels_[view.identifier].view = view;
  return view;
}

void Carrier::enter(dvs::Member office, dvs::View view) {
  Seat &at = seat(office);
  if (at.view) {
    Channel &old = channels_[*at.view];
    old.waiting[dvs::number(office)].clear();
    for (; at.taken < old.order.size(); ++at.taken) at.too_late.push_back(old.order[at.taken]);
  }
  at.view = view.identifier;
  at.taken = 0;
}

void Carrier::weather(unsigned lost, unsigned late) {
  percent_lost_ = lost;
  percent_late_ = late;
}

void Carrier::hold(dvs::Member office, bool held) { seat(office).held = held; }

void Carrier::post(dvs::Member office, dvs::Bytes packet) {
  channels_[*seat(office).view].waiting[dvs::number(office)].emplace_back(packet.begin(), packet.end());
}

bool Carrier::reaches_keeper(dvs::Member office, const Channel &channel) const {
  for (dvs::Member keeper : everyone())
    if (channel.view.set.has(keeper)) return seat(keeper).part == seat(office).part && seat(keeper).view == channel.view.identifier;
  return false;
}

bool Carrier::Channel::put_in_order(dvs::Member office) {
  std::deque<Packet> &queue = waiting[dvs::number(office)];
  Packet &first = queue.front();
  dvs::MessagesIn in = dvs::messages_in(first);
  std::size_t end = 0;
  for (const dvs::Message &message : in) {
    if (full()) break;
    expect(message.view == view.identifier, "a packet holds messages of its view");
    end = in.taken();
    ++messages;
  }
  expect(in.refusal() == dvs::Refusal::none && end > 0, "a packet holds messages and nothing else");
  const auto rest = first.begin() + static_cast<std::ptrdiff_t>(end);
  order.push_back({office, Packet(first.begin(), rest)});
  first.erase(first.begin(), rest);
  if (!first.empty()) return false;
  queue.pop_front();
  return true;
}

void Carrier::carry() {
  for (auto &[identifier, channel] : channels_) {
    for (dvs::Member office : everyone()) {
      if (channel.waiting[dvs::number(office)].empty() || channel.full() || !reaches_keeper(office, channel)) continue;
      if (chance_.percent(percent_lost_)) {
        ++lost_;
        continue;
      }
      if (!channel.put_in_order(office)) ++cut_;
    }
  }
}

std::optional<Letter> Carrier::take(dvs::Member office) {
  Seat &at = seat(office);
  if (!at.view || at.held) return std::nullopt;
  if (!at.too_late.empty() && chance_.percent(50)) {
    const Letter letter = at.too_late.front();
    at.too_late.pop_front();
    return letter;
  }
  const Channel &channel = channels_[*at.view];
  if (at.taken == channel.order.size() || !reaches_keeper(office, channel) || chance_.percent(percent_late_)) return std::nullopt;
  return channel.order[at.taken++];
}

bool Carrier::full(dvs::Member office) const { return seat(office).view && channels_.at(*seat(office).view).full(); }

std::size_t Carrier::messages() const {
  std::size_t sum = 0;
  for (const auto &[identifier, channel] : channels_) sum += channel.messages;
  return sum;
}

std::size_t Carrier::packets() const {
  std::size_t sum = 0;
  for (const auto &[identifier, channel] : channels_) sum += channel.order.size();
  return sum;
}

bool Carrier::quiet() const {
  for (const Seat &at : seats_)
    if (!at.too_late.empty() && !at.held) return false;
  for (const auto &[identifier, channel] : channels_) {
    for (dvs::Member office : everyone()) {
      if (!reaches_keeper(office, channel)) continue;
      if (!channel.waiting[dvs::number(office)].empty() && !channel.full()) return false;
      if (seat(office).view == identifier && !seat(office).held && seat(office).taken < channel.order.size()) return false;
    }
  }
  return true;
}

}  // namespace offices
