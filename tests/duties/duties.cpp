// duties.cpp: what comes of it if a host breaks a duty of docs/HOST.md. Each story drives offices through include/dvs.h over a small carrier, breaks
// one duty, and says what the outside then sees. Lines in parentheses say what comes of it if the duty is kept. The library is right in every story: it
// cannot know.
#include "offices.hpp"

namespace {

using namespace duties;

void old_book() {
  std::puts("1. A book goes back");
  Offices offices = fresh();
  const auto before = offices[2].book;
  go_over(offices, {0, 1, 2}, 1);
  settle(offices, {0, 1, 2});
  work(offices, {0, 1, 2}, 7);
  refused_if_kept(offices, {2, 3, 4}, 2);
  offices[2].book = before;
  std::puts("  office 2 brings back its book from before");
  go_over(offices, {2, 3, 4}, 2);
  work(offices, {2, 3, 4}, 8);
  go_over(offices, {0, 1}, 3);
  work(offices, {0, 1}, 9);
  without_common_office({2, 3, 4}, {0, 1});
}

// One order of messages among {0,1,2} and one among {2,3,4}, where office 2 takes the first alone and is heard in both.
void carry_both(Offices &offices) {
  std::vector<Message> here, there;
  each(offices, {0, 1}, [&](Office &office) { for (Message &message : office.pass()) here.push_back(message); });
  for (Message &message : offices[2].pass()) here.push_back(message), there.push_back(message);
  each(offices, {3, 4}, [&](Office &office) { for (Message &message : office.pass()) there.push_back(message); });
  each(offices, {0, 1, 2}, [&](Office &office) { for (const Message &message : here) office.take(message); });
  each(offices, {3, 4}, [&](Office &office) { for (const Message &message : there) office.take(message); });
}

void one_identifier_two_sets() {
  std::puts("2. One identifier, two sets");
  Offices kept = fresh();
  need(try_over(kept, {0, 1, 2}, 1), "attempt");
  refused_if_kept(kept, {2, 3, 4}, 2);
  Offices offices = fresh();
  each(offices, {0, 1, 2}, [](Office &office) { office.join(1, set_of({0, 1, 2})); });
  each(offices, {3, 4}, [](Office &office) { office.join(1, set_of({2, 3, 4})); });
  carry_both(offices);
  need(attempt(offices, {0, 1, 2, 3, 4}), "attempt");
  std::puts("  view 1 is attempted as {0,1,2} and as {2,3,4}: what office 2 says counts in both");
  each(offices, {0, 1, 2, 3, 4}, [](Office &office) { office.register_view(); });
  carry_both(offices);
  each(offices, {0, 1, 2, 3, 4}, [](Office &office) { office.collect(); });
  std::puts("  it is registered in and settled as both");
  go_over(offices, {0, 1}, 2);
  work(offices, {0, 1}, 7);
  go_over(offices, {3, 4}, 3);
  work(offices, {3, 4}, 8);
  without_common_office({0, 1}, {3, 4});
}

void two_starts() {
  std::puts("3. Two starts");
  Offices offices(5);
  for (const unsigned p : {0u, 1u}) offices[p].start(5, set_of({0, 1}), p);
  for (const unsigned p : {2u, 3u, 4u}) offices[p].start(5, set_of({2, 3, 4}), p);
  std::puts("  offices 0 and 1 start with the first set {0,1}, the others with {2,3,4}");
  work(offices, {0, 1}, 7);
  work(offices, {2, 3, 4}, 8);
  without_common_office({0, 1}, {2, 3, 4});
}

void lost_in_the_middle() {
  std::puts("4. A message is lost, and a later one of its sender is ordered");
  Offices offices = fresh();
  std::string history;
  for (const std::uint64_t entry : {7u, 8u}) offices[0].send(entry), publish(history, offices[0]);
  const std::vector<Message> given = offices[0].pass();
  offices[1].take(given[1]);
  need(offices[1].hand(), "hand");
  publish(history, offices[1]);
  std::printf("  %s: in Figure 1 the first pending message of office 0 is ordered first, so no run has these events\n", history.c_str());
}

void forged_info() {
  std::puts("5. A message is forged");
  Offices offices = fresh();
  refused_if_kept(offices, {0, 1}, 2);
  offices[0].join(2, set_of({0, 1}));
  // in the name of office 1: view 1 of {0,1} is settled
  const Message forged{{DVS_INFO, 0, 0, 0, 2, 1, 0, 0, 0, 1, 0b00011, 0}, 1};
  for (const Message &message : offices[0].pass()) offices[0].take(message);
  offices[0].take(forged);
  need(offices[0].attempt(), "attempt");
  std::puts("  with one forged info, which says that {0,1} is settled, office 0 attempts view 2 {0,1}");
}

void too_many_open() {
  std::puts("6. Views that not all their offices register in");
  Offices offices = fresh(), last = offices;
  std::uint32_t view = 0, refused = 0;
  while (refused == 0) {
    last = offices;
    refused = try_over(offices, {0, 1, 2}, ++view);
  }
  std::printf("  %u views in a row were attempted and not registered in; view %u is refused with %u", view - 1, view, refused);
  for (unsigned more = 1; more <= 3; ++more)
    if (try_over(offices, {0, 1, 2}, view + more) != refused) stop("an attempt was not refused");
  std::puts(", and so are the three after it");
  std::printf("  if they stay in view %u:\n", view - 1);
  settle(last, {0, 1, 2});
  go_over(last, {0, 1, 2}, view);
}

// In a view that they have attempted the members send what they have, each with a last message after it, and are handed all that comes. Whoever was
// handed the last message of every member has all that each of them had when it attempted the view.
void exchange(Offices &offices, std::initializer_list<unsigned> members) {
  each(offices, members, [](Office &office) {
    for (const std::uint64_t entry : office.copy) office.send(entry);
    office.send(that_is_all);
  });
  carry(offices, members);
  each(offices, members, [&](Office &office) {
    Set brought = 0;
    while (office.hand() == 0)
      if (office.entry() == that_is_all) brought |= 1u << dvs_event_sender(office.event.data());
    if (brought != set_of(members)) stop("an office has not brought all that it had");
  });
}

// The offices that have an entry.
Set having(const Offices &offices, std::uint64_t entry) {
  Set set = 0;
  for (const Office &office : offices) set |= static_cast<Set>(office.copy.count(entry)) << office.own;
  return set;
}

void registered_too_soon() {
  std::puts("7. Offices register before they have what the others of their view held");
  Offices offices = started(6, set_of({0, 1, 2}));
  work(offices, {0, 1, 2}, 7);
  go_over(offices, {1, 2, 3, 4, 5}, 1);
  Offices kept = offices;
  exchange(kept, {1, 2, 3, 4, 5});
  const Set registering = having(kept, 7);
  settle_quietly(kept, {1, 2, 3, 4, 5});
  need(try_over(kept, {3, 4, 5}, 2), "attempt");
  std::printf("  (if each of them first takes over what all of them held, entry 7 is at %s when they register)\n", names(registering).c_str());
  settle(offices, {1, 2, 3, 4, 5});
  go_over(offices, {3, 4, 5}, 2);
  settle(offices, {3, 4, 5});
  work(offices, {3, 4, 5}, 8);
  if (having(offices, 7) & set_of({3, 4, 5})) stop("an office of view 2 has entry 7");
  std::printf("  entry 7, which was safe, is at %s: no office of view 2 has it\n", names(having(offices, 7)).c_str());
}

// Office 0 sends entry 7 and its message is posted. Then the office is stopped, and comes back with what it saved last. What is public then, with the
// turn saved and its event published before the message is posted, and with neither.
std::string posted(bool saved_first) {
  Offices offices = fresh();
  std::string history;
  auto saved = offices[0].book;
  offices[0].send(7);
  const std::vector<Message> packet = offices[0].pass();
  if (saved_first) saved = offices[0].book, publish(history, offices[0]);
  offices[1].take(packet.front());
  offices[0].book = saved;
  offices[0].join(1, set_of({0, 1, 2}));
  need(offices[1].hand(), "hand");
  publish(history, offices[1]);
  return history;
}

// Office 0 saves and publishes that it sent entry 7, is stopped before the message is posted, and comes back. Then it sends entry 8, in the view of its
// book or after a join. What is public then.
std::string came_back(bool joins) {
  Offices offices = fresh();
  std::string history;
  offices[0].send(7), publish(history, offices[0]);
  if (offices[0].pass().size() != 1) stop("there was not one message to post");
  if (joins) offices[0].join(1, set_of({0, 1, 2}));
  offices[0].send(8), publish(history, offices[0]);
  const std::vector<Message> packet = offices[0].pass();
  const std::uint32_t answer = joins ? DVS_REFUSED_ANOTHER_VIEW : DVS_ACCEPTED;
  if (packet.size() != 1 || offices[1].deliver(packet.front()) != answer) stop("another message was posted");
  while (offices[1].hand() == 0) publish(history, offices[1]);
  return history;
}

void posted_before_the_save() {
  std::puts("8. A message is posted before its turn is saved");
  std::printf("  (if the turn is saved and its event published first: %s)\n", posted(true).c_str());
  std::puts("  office 0 sends, posts the message, is stopped, and comes back with its book from before the send");
  std::printf("  %s: handed out and sent by nobody, so no run has these events\n", posted(false).c_str());
  std::puts("  office 0 saves and publishes a send, is stopped before it posts the message, and comes back");
  std::printf("  (if it joins a view before it sends again: %s)\n", came_back(true).c_str());
  std::printf("  if it goes on in its view: %s, as in 4\n", came_back(false).c_str());
}

void dropped_before_the_join() {
  std::puts("9. A message of a view that an office has not joined yet is dropped");
  const std::initializer_list<unsigned> members = {1, 2, 3, 4, 5};
  Offices offices = started(6, set_of({0, 1, 2}));
  offices[0].send(7);
  const Message late = offices[0].pass().front();
  offices[1].join(1, set_of(members));
  const Message early = offices[1].pass().front();
  std::printf("  office 1 has joined view 1 %s. Its info comes to office 2, in view 0, and to office 3, in no view: refused with %u and %u\n",
              names(set_of(members)).c_str(), offices[2].deliver(early), offices[3].deliver(early));
  each(offices, {2, 3, 4, 5}, [&](Office &office) { office.join(1, set_of(members)); });
  Offices kept = offices;
  each(kept, members, [&](Office &office) { office.take(early); });
  carry(kept, members);
  const std::uint32_t below = kept[2].deliver(late);
  need(attempt(kept, members), "attempt");
  std::printf("  (if both keep it until they have joined, all attempt view 1; a message of view 0 that comes then is refused with %u, and not missed)\n",
              below);
  each(offices, {1, 4, 5}, [&](Office &office) { office.take(early); });
  carry(offices, members);
  need(attempt(offices, {1, 4, 5}), "attempt");
  const std::uint32_t missing = attempt(offices, {2, 3});
  each(offices, {1, 4, 5}, [](Office &office) { office.register_view(); });
  carry(offices, members);
  std::printf("  if both drop it, they are refused with %u, and once the others have registered with %u\n", missing, attempt(offices, {2, 3}));
}

// Office 0 passes the message of an entry, joins view 1 and passes its info: into one packet, or into one each. What office 1, in view 1, takes of them.
struct Crossing {
  std::vector<Delivery> deliveries;
  std::uint32_t attempt;
};
Crossing across_a_join(bool one_packet) {
  Offices offices = fresh();
  offices[0].send(7);
  std::vector<Message> packets = offices[0].pass();
  each(offices, {0, 1, 2}, [](Office &office) { office.join(1, set_of({0, 1, 2})); });
  const Message info = offices[0].pass().front();
  if (one_packet) packets[0].bytes.insert(packets[0].bytes.end(), info.bytes.begin(), info.bytes.end());
  else packets.push_back(info);
  carry(offices, {1, 2});
  std::vector<Delivery> deliveries;
  for (const Message &packet : packets) deliveries.push_back(offices[1].take_packet(packet.bytes, packet.sender));
  return {deliveries, offices[1].attempt()};
}

void filled_across_a_join() {
  std::puts("10. A packet is filled across a join");
  const Crossing apart = across_a_join(false), together = across_a_join(true);
  const Delivery left = apart.deliveries.at(0), joined = apart.deliveries.at(1);
  if (left.count != 0 || joined.stopped != 0) stop("the packets were taken otherwise");
  need(apart.attempt, "attempt");
  std::printf("  (in two packets the message of view 0 is refused with %u, and the info of view 1 is taken: office 1 attempts view 1)\n", left.stopped);
  const Delivery lost = together.deliveries.at(0);
  std::printf("  in one packet %zu messages are taken before %u stops it: the info is lost, and the attempt is refused with %u\n", lost.count,
              lost.stopped, together.attempt);
}

// Office 1 takes a packet of office 0, of which the line cut the end, and then what the line brings once more: from the message that was stopped on, or
// the packet from its front. What is public then.
std::string handed(bool from_the_stop) {
  Offices offices = fresh();
  std::string history;
  for (const std::uint64_t entry : {7u, 8u}) offices[0].send(entry), publish(history, offices[0]);
  Bytes packet;
  for (const Message &message : offices[0].pass()) packet.insert(packet.end(), message.bytes.begin(), message.bytes.end());
  const Delivery cut = offices[1].take_packet(Bytes(packet.begin(), packet.end() - 1), 0);
  if (cut.stopped != DVS_REFUSED_ENDS_EARLY || cut.count != 1) stop("the cut packet was taken otherwise");
  const auto from = packet.begin() + static_cast<std::ptrdiff_t>(from_the_stop ? packet.size() / 2 : 0);
  if (offices[1].take_packet(Bytes(from, packet.end()), 0).stopped != 0) stop("the whole packet was stopped");
  while (offices[1].hand() == 0) publish(history, offices[1]);
  return history;
}

void packet_again() {
  std::puts("11. A packet that was stopped is delivered once more from its front");
  std::printf("  (if it is delivered from the stopped message on: %s)\n", handed(true).c_str());
  std::printf("  %s: sent once and handed out twice, so no run has these events\n", handed(false).c_str());
}

}  // namespace

int main() {
  old_book();
  one_identifier_two_sets();
  two_starts();
  lost_in_the_middle();
  forged_info();
  too_many_open();
  registered_too_soon();
  posted_before_the_save();
  dropped_before_the_join();
  filled_across_a_join();
  packet_again();
}
