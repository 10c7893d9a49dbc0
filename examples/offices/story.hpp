// The three parts of the program.
#pragma once

namespace offices {

// The story of beam B12: eight phases, written out, each with its outcome asserted.
void story();
// A season of lines that fail and return by chance, watched.
void season();
// A plan at the operator's desk: the whole group in one memory, and views formed by one call.
void desk();

}  // namespace offices
