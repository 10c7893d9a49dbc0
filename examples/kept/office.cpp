#include "office.hpp"

#include "actions.hpp"

#include <algorithm>

namespace kept {
namespace {

// The entry that ends what an office brings into a new view. No entry of a mark is 0, since versions begin with 1.
constexpr std::uint64_t kLast = 0;

}  // namespace

Office::Office(Group group, dvs::Member own, bool never_started, Disk &disk, const Line &line) : own_(own), disk_(disk), line_(line) {
  if (const std::optional<Buffer> saved = disk_.load()) {
    expect(unpack(*saved, state_), "what was saved is whole");
  } else {
    expect(never_started, "there is a book: a lost one is never replaced by a fresh one");
    expect(state_.book.start(group.members, group.first, own).accepted(), "a book starts");
    save();
  }
  // The saved turn may have been stopped before its events were public. Its messages are lost: no harm is done, since a join comes next.
  publish();
  post();
}

void Office::turn(const std::vector<Arrival> &came) {
  state_.number += state_.events.size();
  state_.events.clear();
  made_.reset();
  packet_.clear();
  for (const Arrival &arrival : came) std::visit([this](const auto &one) { take(one); }, arrival);
  if (joined_) step();
  finish();
}

// Nothing leaves the office before the save is on disk: a turn that is stopped before that did not happen. Events leave before messages: otherwise another
// office could publish that it was handed an entry which nobody has sent yet.
void Office::finish() {
  save();
  publish();
  post();
}

void Office::save() { disk_.save(pack(state_)); }

void Office::publish() {
  before(Action::publish);
  line_.send(Published{state_.number, state_.events});
}

void Office::post() {
  before(Action::post);
  line_.send(Posted{state_.highest, made_, packet_});
}

// Every call of the book that changes it.
dvs::Book &Office::call() {
  before(Action::step);
  return state_.book;
}

void Office::note(const dvs::Event &event) {
  const dvs::Line line = dvs::line(event);
  state_.events.emplace_back(line.text());
}

// ---- take

void Office::take(dvs::View view) {
  before(Action::take);
  expect(state_.book.join(view).accepted(), "a view of the carrier is joined");
  state_.highest = std::max(state_.highest, dvs::number(view.identifier));
  joined_ = true;
}

// After a start nothing is taken in the view of the book: the last messages of this office may be missing there. Then the carrier brings messages of the
// view that it gave last and no others; duty 4 says what to do if it brings others too.
void Office::take(const Packet &packet) {
  if (!joined_) return;
  before(Action::take);
  expect(whole(state_.book.deliver_packet(packet.messages, packet.sender)), "what the carrier brings is taken whole");
}

// The identifier is on disk before anybody hears of it, so this office never makes it again. Its last three bits say the maker, so nobody else makes it.
void Office::take(const Make &make) {
  state_.highest = (std::max(state_.highest, make.highest) / DVS_MEMBERS + 1) * DVS_MEMBERS + dvs::number(own_);
  made_ = dvs::View{dvs::Identifier{state_.highest}, make.set};
}

// ---- step: whatever is accepted. A refusal says that it is not yet time, or no longer.

void Office::step() {
  attempt();
  hand_out();
  if (has_all()) work();
  while (const auto event = call().safe()) note(*event);
  (void)call().collect();
  pass();
}

// In a new primary view every office first sends what it holds, and then a last message.
void Office::attempt() {
  const auto event = call().attempt();
  if (!event) return;
  note(*event);
  brought_ = dvs::Set();
  const auto bring = [this](std::uint64_t entry) {
    const auto sent = call().send(entry);
    expect(sent.accepted(), "what an office holds fits its outgoing messages");
    note(*sent);
  };
  for (const std::uint64_t entry : state_.copy)
    if (entry != 0) bring(entry);
  bring(kLast);
}

// The copy is changed here and nowhere else.
void Office::hand_out() {
  while (const auto event = call().hand()) {
    note(*event);
    std::uint64_t &held = state_.copy[mark_of(event->entry)];
    held = std::max(held, event->entry);
    if (event->entry == kLast) brought_ = brought_.with(event->sender);
  }
}

// Whether every office of the view has attempted it, and this one has all that each of them held then.
bool Office::has_all() const {
  const dvs::BookReader book = state_.book.look();
  return book.in_primary() && brought_ == book.client()->set;
}

// An office registers last (duty 7). It says what it holds then, so that a reader of the history can check that nothing safe was lost.
void Office::work() {
  if (const auto event = call().register_view()) {
    note(*event);
    std::string holds = "holds " + std::to_string(dvs::number(own_)) + " " + std::to_string(dvs::number(event->view));
    for (const std::uint64_t entry : state_.copy) holds += " " + std::to_string(entry);
    state_.events.push_back(holds);
  }
  for (; !wishes_.empty(); wishes_.pop_front()) {
    const unsigned mark = wishes_.front().mark;
    const std::uint64_t version = std::max(state_.version, version_of(state_.copy[mark])) + 1;
    const auto sent = call().send(entry_of(version, own_, mark));
    if (!sent) break;
    state_.version = version;
    note(*sent);
  }
  (void)call().tell();
}

// All that is outgoing goes as one packet, after the save.
void Office::pass() {
  std::array<std::uint8_t, DVS_OUTGOING * DVS_LONGEST> buffer;
  dvs::PacketWriter packet(buffer);
  while (packet.pass(call())) {
  }
  const dvs::Bytes bytes = packet.bytes();
  packet_.assign(bytes.begin(), bytes.end());
}

}  // namespace kept
