// offices.hpp: what the stories of duties.cpp are told with: offices over include/dvs.h, a small carrier between them, and a public history.
#pragma once

#include "dvs.h"

#include <array>
#include <cstdint>
#include <cstdio>
#include <cstdlib>
#include <initializer_list>
#include <set>
#include <string>
#include <vector>

namespace duties {

using Set = std::uint32_t;
using Bytes = std::vector<std::uint8_t>;

// The entry that ends what an office brings into a new view.
constexpr std::uint64_t that_is_all = 0;

[[noreturn]] inline void stop(const std::string &why) {
  std::printf("stopped: %s\n", why.c_str());
  std::exit(1);
}

// A call that the story needs.
inline void need(std::uint32_t answer, const char *call) {
  if (answer != 0) stop(std::string(call) + " refused " + std::to_string(answer));
}

// The members of a set, in braces.
inline std::string names(Set set) {
  std::string text = "{";
  for (unsigned p = 0; p < DVS_MEMBERS; ++p)
    if (set >> p & 1) text += (text.size() > 1 ? "," : "") + std::to_string(p);
  return text + "}";
}

inline Set set_of(std::initializer_list<unsigned> members) {
  Set set = 0;
  for (const unsigned p : members) set |= 1u << p;
  return set;
}

// What a story of two primary views ends with.
inline void without_common_office(std::initializer_list<unsigned> here, std::initializer_list<unsigned> there) {
  if (set_of(here) & set_of(there)) stop("the views have a common office");
  std::printf("  two primary views without a common office: %s and %s\n", names(set_of(here)).c_str(), names(set_of(there)).c_str());
}

struct Message {
  Bytes bytes;
  std::uint32_t sender;
};

// What a packet came to: how many messages were taken, and the refusal that stopped it or 0.
struct Delivery {
  std::size_t count;
  std::uint32_t stopped;
};

struct Office {
  std::array<std::uint8_t, DVS_BOOK_SIZE> book{};
  std::array<std::uint8_t, DVS_EVENT_SIZE> event{};
  std::uint32_t own = 0;
  std::set<std::uint64_t> copy;  // the entries that its client was handed

  void start(std::uint32_t members, Set first, std::uint32_t number) {
    own = number;
    need(dvs_start(book.data(), book.size(), members, first, number), "start");
  }
  void join(std::uint32_t view, Set set) { need(dvs_join(book.data(), book.size(), view, set), "join"); }
  void send(std::uint64_t entry) { need(dvs_send(book.data(), book.size(), entry, event.data(), event.size()), "send"); }
  void register_view() { need(dvs_register(book.data(), book.size(), event.data(), event.size()), "register"); }
  void tell() { need(dvs_tell(book.data(), book.size()), "tell"); }
  void collect() { need(dvs_collect(book.data(), book.size()), "collect"); }
  std::uint32_t attempt() { return dvs_attempt(book.data(), book.size(), event.data(), event.size()); }
  std::uint32_t safe() { return dvs_safe(book.data(), book.size(), event.data(), event.size()); }
  std::uint32_t hand() {
    const std::uint32_t answer = dvs_hand(book.data(), book.size(), event.data(), event.size());
    if (answer == 0 && entry() != that_is_all) copy.insert(entry());
    return answer;
  }
  std::uint64_t entry() const { return dvs_event_entry(event.data()); }
  std::uint32_t deliver(const Message &message) {
    return dvs_deliver(book.data(), book.size(), message.bytes.data(), message.bytes.size(), message.sender);
  }
  void take(const Message &message) { need(deliver(message), "deliver"); }
  Delivery take_packet(const Bytes &packet, std::uint32_t sender) {
    std::array<std::uint8_t, DVS_DELIVERY_SIZE> delivery{};
    need(dvs_deliver_packet(book.data(), book.size(), packet.data(), packet.size(), sender, delivery.data(), delivery.size()), "packet");
    return {dvs_delivery_count(delivery.data()), dvs_delivery_stopped(delivery.data())};
  }
  // All that is outgoing.
  std::vector<Message> pass() {
    std::vector<Message> out;
    std::array<std::uint8_t, DVS_LONGEST> buffer{};
    std::array<std::uint8_t, DVS_LENGTH_SIZE> length{};
    while (dvs_pass(book.data(), book.size(), buffer.data(), buffer.size(), length.data(), length.size()) == 0) {
      out.push_back({Bytes(buffer.begin(), buffer.begin() + static_cast<std::ptrdiff_t>(dvs_length(length.data()))), own});
    }
    return out;
  }
};

// A send or a hand goes to the end of a public history, in the words of the bench.
inline void publish(std::string &history, const Office &office) {
  const std::uint8_t *event = office.event.data();
  const bool sent = dvs_event_kind(event) == DVS_STEP_SEND;
  history += history.empty() ? "" : ", ";
  history += std::string(sent ? "send " : "hand ") + std::to_string(dvs_event_member(event)) + " " + std::to_string(dvs_event_view(event));
  history += (sent ? "" : " " + std::to_string(dvs_event_sender(event))) + " " + std::to_string(dvs_event_entry(event));
}

using Offices = std::vector<Office>;

template <class Step>
void each(Offices &offices, std::initializer_list<unsigned> members, Step step) {
  for (const unsigned p : members) step(offices[p]);
}

// What the members give out is taken by all of them, in one order.
inline void carry(Offices &offices, std::initializer_list<unsigned> members) {
  std::vector<Message> order;
  each(offices, members, [&](Office &office) { for (Message &message : office.pass()) order.push_back(message); });
  each(offices, members, [&](Office &office) { for (const Message &message : order) office.take(message); });
}

// What all of the members get for an attempt.
inline std::uint32_t attempt(Offices &offices, std::initializer_list<unsigned> members) {
  const std::uint32_t first = offices[*members.begin()].attempt();
  bool same = true;
  each(offices, members, [&](Office &office) { if (office.own != *members.begin()) same = same && office.attempt() == first; });
  if (!same) stop("an attempt has different answers");
  return first;
}

// The members join a view, hear of each other and try to attempt it.
inline std::uint32_t try_over(Offices &offices, std::initializer_list<unsigned> members, std::uint32_t view) {
  each(offices, members, [&](Office &office) { office.join(view, set_of(members)); });
  carry(offices, members);
  return attempt(offices, members);
}

inline void go_over(Offices &offices, std::initializer_list<unsigned> members, std::uint32_t view) {
  need(try_over(offices, members, view), "attempt");
  std::printf("  view %u %s is attempted by all its offices\n", view, names(set_of(members)).c_str());
}

// The same on copies, if it must be refused: what comes of it if the duty is kept.
inline void refused_if_kept(Offices offices, std::initializer_list<unsigned> members, std::uint32_t view) {
  const std::uint32_t answer = try_over(offices, members, view);
  if (answer == 0) stop("an attempt was not refused");
  std::printf("  (if the duty is kept, view %u %s is refused with %u)\n", view, names(set_of(members)).c_str(), answer);
}

// They register, and settle it.
inline void settle_quietly(Offices &offices, std::initializer_list<unsigned> members) {
  each(offices, members, [](Office &office) { office.register_view(); });
  carry(offices, members);
  each(offices, members, [](Office &office) { office.collect(); });
}

inline void settle(Offices &offices, std::initializer_list<unsigned> members) {
  settle_quietly(offices, members);
  std::puts("  it is registered in and settled by all of them");
}

// One of them sends an entry, and it becomes safe at all of them.
inline void work(Offices &offices, std::initializer_list<unsigned> members, std::uint64_t entry) {
  offices[*members.begin()].send(entry);
  carry(offices, members);
  const auto given = [&](const Office &office) { if (office.entry() != entry) stop("another entry was given out"); };
  each(offices, members, [&](Office &office) { need(office.hand(), "hand"), given(office); });
  each(offices, members, [](Office &office) { office.tell(); });
  carry(offices, members);
  each(offices, members, [&](Office &office) { need(office.safe(), "safe"), given(office); });
  std::printf("  entry %llu is reported safe at %s\n", static_cast<unsigned long long>(entry), names(set_of(members)).c_str());
}

inline Offices started(unsigned members, Set first) {
  Offices offices(members);
  for (unsigned p = 0; p < members; ++p) offices[p].start(members, first, p);
  return offices;
}

// Five offices, all in the first view.
inline Offices fresh() { return started(5, set_of({0, 1, 2, 3, 4})); }

}  // namespace duties
