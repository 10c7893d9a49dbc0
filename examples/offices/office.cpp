#include "office.hpp"

#include "old_rule.hpp"

namespace offices {

Office::Office(dvs::Member own, const char *town, dvs::Set first, Rule rule) : own_(own), town_(town), rule_(rule) {
  expect(book_.start(kOffices, first, own).accepted(), "a book starts");
  have_brought_ = first;
}

void Office::enter(dvs::View view) {
  expect(book_.join(view).accepted(), "a view of the carrier is joined");
  decided_ = false;
  answer_ = dvs::Refusal::info_missing;
}

void Office::wish(Mark mark, Section section, Verdict verdict) { tray_.push_back({mark, section, verdict, marks_.at(mark).stamp}); }

// These offices are in one process that is never stopped, so nothing is saved here. A host on machines of its own saves at the end of the turn, before
// it makes an event public or posts the packet (docs/HOST.md, 1).
bool Office::turn(Carrier &carrier, Watch &watch) {
  const bool took = take(carrier);
  bool moved = took;
  moved |= attempt(watch);
  moved |= hand_out(watch);
  // An office registers last: when every office of the view has attempted it and has brought what it had then. If it registered sooner, the view could
  // be settled and a later one formed by offices that never had a line which was safe before (docs/HOST.md, 7).
  if (works() && have_brought_ == book().client()->set) {
    if (const auto event = book_.register_view()) {
      watch.registered(*event, marks_);
      moved = true;
    }
    moved |= send_wishes();
    // A view has 128 messages for all its offices, so one count is told for many entries: when nothing more came.
    if (!took) moved |= book_.tell().accepted();
  }
  moved |= report_safe(watch);
  moved |= book_.collect().accepted();
  return pass_on(carrier) || moved;
}

// All that is outgoing goes as one packet: there is room for as many messages as can be outgoing, however long.
bool Office::pass_on(Carrier &carrier) {
  std::array<std::uint8_t, DVS_OUTGOING * DVS_LONGEST> buffer;
  dvs::PacketWriter packet(buffer);
  while (packet.pass(book_)) {
  }
  if (packet.empty()) return false;
  carrier.post(own_, packet.bytes());
  return true;
}

// Takes up to two packets. One of a view that this office has left is stopped by 41 at its first message and dropped. One of a view that it has not
// joined would be stopped by 41 too and must not be dropped: the carrier keeps it until this office has joined.
bool Office::take(Carrier &carrier) {
  bool took = false;
  for (int i = 0; i < 2; ++i) {
    const std::optional<Letter> letter = carrier.take(own_);
    if (!letter) break;
    const dvs::Result<dvs::Delivery> taken = book_.deliver_packet(letter->packet, letter->sender);
    const bool late = taken && taken->delivered == 0 && taken->stopped == dvs::Refusal::another_view;
    expect(late || (taken && taken->stopped == dvs::Refusal::none), "what the carrier brings is taken whole, or was sent in another view");
    if (late) ++tally_.too_late;
    else took = true;
  }
  return took;
}

// Asks the service whether the carrier view is to be a primary one. Once the infos of all its members are here the answer stands.
bool Office::attempt(Watch &watch) {
  if (decided_) return false;
  const dvs::Result<dvs::Event> event = rule_ == Rule::service ? book_.attempt() : old_program::attempt(book_);
  answer_ = event.refusal();
  if (answer_ == dvs::Refusal::info_missing) return false;
  expect(event || answer_ == dvs::Refusal::test_failed, "an attempt is accepted or fails the test");
  decided_ = true;
  ++(event ? tally_.accepted : tally_.refused);
  if (!event && old_program::first_passing(book(), book().carrier()->set)) ++tally_.only_by_old_program;
  if (event) {
    watch.attempted(*event);
    tray_.insert(tray_.begin(), sent_.begin(), sent_.end());
    sent_.clear();
    bring_marks();
  }
  return true;
}

// In a new primary view every office first brings the lines that were changed since the design, as it has them when it attempts the view, so that all
// begin with the latest of each. The last message says that there are no more.
void Office::bring_marks() {
  have_brought_ = dvs::Set();
  for (const auto &[mark, line] : marks_)
    if (!(line.stamp == Stamp{}))
      expect(book_.send(pack({Says::brought, mark, line.section, line.verdict, line.stamp})).accepted(), "a line is brought");
  expect(book_.send(pack({Says::all_brought, {}, {}, {}, {}})).accepted(), "the last line is brought");
}

bool Office::hand_out(Watch &watch) {
  bool moved = false;
  while (const auto event = book_.hand()) {
    watch.handed(*event, book().handed());
    apply(*event);
    moved = true;
  }
  return moved;
}

// The register is changed here and nowhere else: by an entry that was handed out in a view that this office attempted.
void Office::apply(const dvs::Event &event) {
  const Entry entry = unpack(event.entry);
  if (entry.says == Says::all_brought) {
    have_brought_ = have_brought_.with(event.sender);
    return;
  }
  Line &line = marks_.at(entry.mark);
  const Stamp stamp = entry.says == Says::brought ? entry.stamp : Stamp{dvs::number(event.view), book().handed()};
  if (line.stamp < stamp) line = {entry.section, entry.verdict, stamp, false};
  if (entry.says == Says::change && event.sender == own_) sent_.pop_front();
}

// Changes go out in a primary view only, and only those made on the line as it now is.
bool Office::send_wishes() {
  bool moved = false;
  while (!tray_.empty()) {
    const Wish &wish = tray_.front();
    if (!(wish.seen == marks_.at(wish.mark).stamp)) {
      come_back_.push_back(wish);
    } else if (book_.send(pack({Says::change, wish.mark, wish.section, wish.verdict, {}}))) {
      sent_.push_back(wish);
    } else {
      return moved;
    }
    tray_.pop_front();
    moved = true;
  }
  return moved;
}

bool Office::report_safe(Watch &watch) {
  bool moved = false;
  while (const auto event = book_.safe()) {
    const unsigned place = book().reported();
    const Entry entry = unpack(event->entry);
    moved = true;
    if (entry.says == Says::all_brought) continue;
    const Stamp stamp = entry.says == Says::brought ? entry.stamp : Stamp{dvs::number(event->view), place};
    watch.safe(*event, place, entry.mark, stamp);
    Line &line = marks_.at(entry.mark);
    if (line.stamp == stamp) line.safe = true;
  }
  return moved;
}

}  // namespace offices
