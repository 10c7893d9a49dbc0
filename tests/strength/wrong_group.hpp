// What a wrong call of a group is made of: its fault, the three lent ranges, and the library's own step and check; and faults of the queues' head that
// are hidden from those.
#pragma once

#include <cstring>
#include <vector>

#include "real.hpp"

// As long as this lives, the queues' head has no fault that a call with such a name would overlook: x-ignores-marks, x-ignores-layout. The library's own
// calls take it for sound; then the marks past the views made, or the number of the layout, are there again.
class HiddenHead {
  uint8_t* queues_;
  uint8_t past_[4] = {}, layout_ = DVS_LAYOUT;
  bool hides_ = false;

 public:
  HiddenHead(const char* fault, uint8_t* queues, size_t size) : queues_(queues) {
    const char* name = strchr(fault, '-') + 1;
    bool marks = strcmp(name, "ignores-marks") == 0, layout = strcmp(name, "ignores-layout") == 0;
    hides_ = (marks || layout) && size >= DVS_QUEUES_ORDER(0);
    if (!hides_) return;
    for (unsigned i = 0; i < DVS_VIEWS && marks; ++i) {
      uint8_t &byte = queues[DVS_QUEUES_MARKS + 3 - i / 8], bit = static_cast<uint8_t>(byte & 1u << i % 8);
      if (i < dvs_queues_made(queues)) continue;
      past_[3 - i / 8] |= bit, byte = static_cast<uint8_t>(byte & ~bit);
    }
    layout_ = queues[DVS_QUEUES_LAYOUT];
    if (layout) queues[DVS_QUEUES_LAYOUT] = DVS_LAYOUT;
  }
  ~HiddenHead() {
    for (unsigned i = 0; i < 4 && hides_; ++i) queues_[DVS_QUEUES_MARKS + i] |= past_[i];
    if (hides_) queues_[DVS_QUEUES_LAYOUT] = layout_;
  }
  HiddenHead(const HiddenHead&) = delete;
  HiddenHead& operator=(const HiddenHead&) = delete;
};

// The library's check, on a copy of queues that may be a group's, with what the fault overlooks hidden from it.
inline uint32_t check_hidden(const char* fault, const uint8_t* list, size_t list_size, const uint8_t* books, size_t books_size, const uint8_t* queues,
                             size_t queues_size) {
  std::vector<uint8_t> copy;
  if (queues_size <= DVS_QUEUES_SIZE(DVS_VIEWS)) copy.assign(queues, queues + queues_size), queues = copy.data();
  HiddenHead hidden(fault, copy.data(), copy.size());
  return __real_dvs_group_check(list, list_size, books, books_size, queues, queues_size);
}

struct WrongGroup {
  const char* fault;
  uint8_t *list, *books, *queues;
  size_t list_size, books_size, queues_size;

  // Whether the fault is this one. Its name comes after the call's own, as in driver-goes-on.
  bool is(const char* name) const { return strcmp(strchr(fault, '-') + 1, name) == 0; }

  bool sound() const { return __real_dvs_group_check(list, list_size, books, books_size, queues, queues_size) == 0; }

  uint32_t step(uint32_t kind, uint32_t first, uint64_t second, uint8_t* event) const {
    return __real_dvs_group_step(list, list_size, books, books_size, queues, queues_size, kind, first, second, event, DVS_EVENT_SIZE);
  }
};
