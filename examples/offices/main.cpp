// Eight offices keep one register of a timber frame, each with a book of its own, over a carrier that loses, delays and parts. `make offices` runs
// this and compares what it prints with expected.txt; a rule that is broken ends it with status 1.
//
//   office   what a host has to do with a book, in Office::turn: read this first
//   carrier  views and one order of messages for each, in packets, over bad lines
//   timber   the register, and its lines as entry numbers
//   watch    what is checked at every event
//   towns    the offices by name
//   firm     the eight together, and the tables
//   story    beam B12, by the service and by the old program's rule (old_rule)
//   season   lines that fail and return by chance
//   desk     the eight as a whole group in one memory, where one call forms a view
#include "story.hpp"

int main() {
  offices::story();
  offices::season();
  offices::desk();
}
