// The independent implementations, each behind functions of another object file, so that no side is compiled into the
// loop that times it.
//
//   bytes    tests/outside over the same lent bytes as the library, with the same signatures: each call parses the
//            whole book, asks refusal 4 of it, does the step and stores the book.
//   struct   tests/outside over a struct that the host keeps between calls: each call asks refusal 4 of the struct and
//            does the step. Nothing is parsed or stored but a message at pass and deliver.
#pragma once

#include "../../include/dvs.h"
#include "../outside/group.hpp"

namespace independent {

// Over bytes: each with the parameters of the library's function.
decltype(dvs_start) start;
decltype(dvs_join) join;
decltype(dvs_pass) pass;
decltype(dvs_deliver) deliver;
decltype(dvs_attempt) attempt, enroll, hand, safe;
decltype(dvs_send) send;
decltype(dvs_tell) tell, collect;
decltype(dvs_read) read;
decltype(dvs_write) write;
decltype(dvs_group_start) group_start;
decltype(dvs_group_step) group_step;

uint32_t read_struct(const uint8_t* bytes, size_t bytes_size, plain::Message& message);
uint32_t write_struct(const plain::Message& message, uint8_t* buffer, size_t buffer_size, uint32_t& length);

// A member's struct, kept by the host. The calls are those of the member by itself.
class Kept {
  plain::ByItself m_;

  // Asks refusals 4 and 6, first what loading a book would have refused, then what it would mean; and steps.
  template <class Do> uint32_t step(Do what);

 public:
  uint32_t start(uint32_t members, uint32_t first_set, uint32_t own);
  uint32_t join(uint32_t view, uint32_t set);
  uint32_t pass(uint8_t* buffer, size_t buffer_size, uint32_t& length);
  uint32_t deliver(const uint8_t* bytes, size_t bytes_size, uint32_t sender);
  // How many messages of the packet were taken.
  uint32_t packet(const uint8_t* bytes, size_t bytes_size, uint32_t sender);
  uint32_t attempt(plain::Event& event);
  uint32_t enroll(plain::Event& event);
  uint32_t send(uint64_t entry, plain::Event& event);
  uint32_t hand(plain::Event& event);
  uint32_t tell();
  uint32_t safe(plain::Event& event);
  uint32_t collect();
};

}  // namespace independent
