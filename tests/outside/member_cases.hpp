// Cases of the member by itself: histories of several members over a carrier that the host plays, and single books, sound,
// damaged or of any bytes, put to every call.
#pragma once

#include <memory>
#include <vector>

#include "calls.hpp"
#include "damage.hpp"
#include "generate.hpp"

namespace outside {

class MemberCases {
  Calls& c_;
  std::unique_ptr<Lent> books_[plain::kMembers];
  Lent probe_{"book", plain::kBookSize + 64};

  struct Sent { unsigned sender; std::vector<uint8_t> bytes; };
  // The carrier's views, each with its order.
  std::vector<View> views_;
  std::vector<std::vector<Sent>> orders_;

  static Flush flush(Random& r) { return r.chance(500) ? kFront : kBack; }

  std::vector<Sent>* order_of(const uint8_t* book) {
    if (book[plain::kAtCarrier] != 1) return nullptr;
    View carrier = plain::get_view(book + plain::kAtCarrier + 1);
    for (size_t i = views_.size(); i-- > 0;)
      if (views_[i] == carrier) return &orders_[i];
    return nullptr;
  }

  void lend_event(Random& r, size_t size) {
    if (c_.event.size() == size) return;
    c_.event.resize(size, flush(r));
    c_.event.copy_to_theirs();
  }

  void lend_message(Random& r, const plain::Message& m) {
    uint8_t bytes[200];
    plain::encode(m, bytes);
    size_t size = plain::length(m);
    if (m.count > 0 && r.chance(30)) bytes[10 + plain::kViewSize * r.below(m.count)] = r.chance(500) ? 0 : r.byte();
    if (r.chance(150)) size = damage_bytes(r, bytes, size, sizeof bytes);
    c_.bytes.set(bytes, size, flush(r));
  }

  void lend_packet(Random& r, const uint8_t* book) {
    std::vector<uint8_t> packet;
    random_packet(r, book, packet);
    c_.bytes.set(packet.data(), packet.size(), packet.empty() && r.chance(500) ? kNull : flush(r));
  }

  void lend_delivery(Random& r, size_t size) {
    c_.delivery.resize(size, flush(r));
    c_.delivery.copy_to_theirs();
  }

  uint32_t some_sender(Random& r, const uint8_t* book) {
    uint8_t set = book[plain::kAtCarrier + 5];
    if (set == 0 || r.chance(40)) return r.chance(500) ? r.below(9) : r.odd_word();
    uint32_t q = r.below(8);
    while (!(set >> q & 1)) q = (q + 1) % 8;
    return q;
  }

 public:
  explicit MemberCases(Calls& c) : c_(c) {
    for (auto& book : books_) book = std::make_unique<Lent>("book", plain::kBookSize);
  }

  // One call of any function, with numbers and ranges that fit the book more often than not.
  uint32_t any_call(Random& r, Lent& book) {
    const uint8_t* b = book.mine();
    c_.dvs_check(book);
    lend_event(r, r.chance(995) ? plain::kEventSize : r.below(24));
    switch (r.below(23)) {
      case 0: case 1: {
        auto own = static_cast<uint32_t>(plain::get(b + plain::kAtCarrier + 1, 4)) + r.between(0, 4) - 1;
        uint32_t set = r.wide_set(b[plain::kAtMembers] - 1u < 8 ? b[plain::kAtMembers] : 8);
        if (r.chance(100)) set = r.chance(500) ? r.byte() : r.odd_word();
        return c_.dvs_join(book, r.chance(100) ? r.odd_word() : own, set);
      }
      case 2: case 3:
        c_.buffer.resize(r.chance(700) ? plain::kLongest : r.below(180), flush(r)), c_.buffer.copy_to_theirs();
        return c_.dvs_pass(book);
      case 4: case 5: case 6: case 7: case 8: case 9:
        lend_message(r, random_message(r, b));
        return c_.dvs_deliver(book, some_sender(r, b));
      case 20: case 21: case 22:
        lend_packet(r, b), lend_delivery(r, r.chance(995) ? plain::kDeliverySize : r.below(16));
        return c_.dvs_deliver_packet(book, some_sender(r, b));
      case 10: case 11: return c_.dvs_attempt(book);
      case 12: return c_.dvs_register(book);
      case 13: return c_.dvs_send(book, r.odd_long());
      case 14: case 15: return c_.dvs_hand(book);
      case 16: return c_.dvs_tell(book);
      case 17: case 18: return c_.dvs_safe(book);
      default: return c_.dvs_collect(book);
    }
  }

  // A sound book put to some calls; then, damaged, to some more.
  void single(Random& r) {
    probe_.resize(plain::kBookSize, flush(r));
    random_book(r, probe_.mine());
    probe_.copy_to_theirs();
    for (unsigned n = r.between(1, 12); n > 0; --n) any_call(r, probe_);
    for (unsigned n = r.between(0, 4); n > 0; --n) {
      damage_book(r, probe_);
      for (unsigned k = r.between(1, 3); k > 0; --k)
        if (any_call(r, probe_) == plain::kRecordsUnsound) break;
    }
    c_.every_call(r.odd_long(), probe_);
  }

  // Bytes that mean nothing, or little: noise, or noise with a small record that could be a book's.
  void noise(Random& r) {
    probe_.resize(r.chance(900) ? plain::kBookSize : r.below(plain::kBookSize + 64), flush(r));
    r.fill(probe_.mine(), probe_.size());
    if (probe_.size() == plain::kBookSize && r.chance(700)) {
      for (unsigned i = 0; i < plain::kAtOpen + 1; ++i) probe_.mine()[i] = r.chance(800) ? r.below(3) & 0xff : r.byte();
      probe_.mine()[plain::kAtMembers] = static_cast<uint8_t>(r.between(1, 8));
      for (size_t at : {plain::kAtOutgoing, plain::kAtInward0, plain::kAtInward1})
        probe_.mine()[at] = static_cast<uint8_t>(r.chance(900) ? 0 : r.below(3));
    }
    probe_.copy_to_theirs();
    for (unsigned n = r.between(1, 4); n > 0 && probe_.size() >= plain::kAtOutgoing; --n) any_call(r, probe_);
    c_.dvs_start(probe_, r.chance(900) ? r.between(1, 8) : r.odd_word(), r.chance(900) ? r.between(1, 255) : r.odd_word(),
                 r.chance(900) ? r.below(8) : r.odd_word());
  }

  // What each call is worth in a history: in one style a view is filled, in another many views come and are kept open.
  enum Style { kBalanced, kFilling, kOpening, kStyles };

  void history(Random& r) {
    static const unsigned weights[kStyles][11] = {
        // new view, join, pass, deliver, attempt, register, send, hand, tell, safe, collect
        {2, 12, 20, 40, 10, 6, 12, 12, 6, 8, 4},
        {0, 3, 30, 45, 3, 2, 30, 20, 3, 10, 0},
        {6, 30, 30, 50, 20, 1, 1, 1, 1, 1, 0},
    };
    unsigned style = r.below(kStyles), members = style == kOpening ? r.between(1, 4) : r.between(1, 8), sum = 0;
    for (unsigned w : weights[style]) sum += w;
    auto first = style == kBalanced ? r.set(members) : static_cast<uint8_t>((1u << members) - 1);
    views_.assign(1, View{0, first}), orders_.assign(1, {});
    for (unsigned p = 0; p < members; ++p) {
      books_[p]->resize(plain::kBookSize, flush(r));
      r.fill(books_[p]->mine(), plain::kBookSize), books_[p]->copy_to_theirs();
      c_.dvs_start(*books_[p], members, first, p);
    }
    unsigned length = r.chance(800) ? 300 : 3000;
    for (unsigned n = 0; n < length; ++n) {
      unsigned which = 0, at = r.below(sum);
      while (at >= weights[style][which]) at -= weights[style][which++];
      step(r, which, members, style);
      if (r.chance(60)) probe(r, *books_[r.below(members)]);
    }
  }

 private:
  void step(Random& r, unsigned which, unsigned members, unsigned style) {
    Lent& book = *books_[r.below(members)];
    const uint8_t* b = book.mine();
    if (which == 0) {
      uint64_t id = views_.back().id + (r.chance(950) ? 1 + r.below(3) : 1 + r.below(UINT32_MAX / 3));
      if (id > UINT32_MAX) return;
      uint8_t set = style == kOpening ? views_[0].set : r.chance(700) ? r.wide_set(members) : r.set(members);
      views_.push_back(View{static_cast<uint32_t>(id), set}), orders_.push_back({});
      return;
    }
    if (which == 1) {
      View v = r.chance(800) ? views_.back() : views_[r.below(views_.size())];
      c_.dvs_join(book, v.id, v.set);
      return;
    }
    if (which == 2) {
      std::vector<Sent>* order = order_of(b);
      c_.buffer.resize(r.chance(950) ? plain::kLongest : r.below(170), kBack), c_.buffer.copy_to_theirs();
      if (c_.dvs_pass(book) == plain::kAccepted && order)
        order->push_back({b[plain::kAtOwn], {c_.buffer.mine(), c_.buffer.mine() + plain::get(c_.length.mine(), 4)}});
      return;
    }
    if (which == 3) {
      std::vector<Sent>* order = order_of(b);
      unsigned taken = b[plain::kAtTaken];
      if (!order || taken >= order->size() || r.chance(10)) {
        lend_message(r, random_message(r, b));
        if (r.chance(300) || taken >= 127) c_.dvs_deliver(book, some_sender(r, b));
        return;
      }
      const Sent& sent = (*order)[taken];
      if (r.chance(300)) return take_packet(r, book, *order);
      c_.bytes.set(sent.bytes.data(), sent.bytes.size(), flush(r));
      c_.dvs_deliver(book, sent.sender);
      return;
    }
    lend_event(r, plain::kEventSize);
    switch (which) {
      case 4: c_.dvs_attempt(book); break;
      case 5: c_.dvs_register(book); break;
      case 6: c_.dvs_send(book, r.odd_long()); break;
      case 7: c_.dvs_hand(book); break;
      case 8: c_.dvs_tell(book); break;
      case 9: c_.dvs_safe(book); break;
      default: c_.dvs_collect(book); break;
    }
  }

  // The next messages of the order that have one sender, as many as there are or fewer, in one packet.
  void take_packet(Random& r, Lent& book, const std::vector<Sent>& order) {
    size_t from = book.mine()[plain::kAtTaken], most = r.chance(500) ? order.size() : from + r.between(1, 4);
    std::vector<uint8_t> packet;
    for (size_t i = from; i < order.size() && i < most && order[i].sender == order[from].sender; ++i)
      packet.insert(packet.end(), order[i].bytes.begin(), order[i].bytes.end());
    c_.bytes.set(packet.data(), packet.size(), flush(r)), lend_delivery(r, plain::kDeliverySize);
    c_.dvs_deliver_packet(book, order[from].sender);
  }

  // A copy of a book as a history left it, damaged, and put to some calls.
  void probe(Random& r, Lent& book) {
    probe_.set(book.mine(), plain::kBookSize, flush(r));
    for (unsigned n = r.between(1, 3); n > 0; --n) {
      damage_book(r, probe_);
      for (unsigned k = r.between(1, 3); k > 0; --k)
        if (any_call(r, probe_) == plain::kRecordsUnsound) return;
    }
  }
};

}  // namespace outside
