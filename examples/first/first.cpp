// The example of README.md: two offices in one view, and an entry from one to the other until it is safe at both.
#include <dvs.hpp>
#include <iostream>

static bool carry(dvs::Book (&office)[2], unsigned from) {  // the host's own carrier: one order for all, the sender too
  bool fine = true;
  while (auto message = office[from].pass())
    for (dvs::Book &to : office) fine = fine && to.deliver(message->bytes(), dvs::Member{from});
  return fine;
}

int main() {
  dvs::Book office[2];
  bool fine = office[0].start(2, dvs::Set::below(2), dvs::Member{0}) && office[1].start(2, dvs::Set::below(2), dvs::Member{1});
  fine = fine && office[0].send(12175) && carry(office, 0);
  for (dvs::Book &book : office) {
    if (auto entry = book.hand()) std::cout << "entry " << entry->entry << " from office " << number(entry->sender) << '\n';
    if (auto early = book.safe(); !early) std::cout << "refused " << number(early.refusal()) << ": " << text(early.refusal()) << '\n';
    fine = fine && book.tell();
  }
  fine = fine && carry(office, 0) && carry(office, 1);
  for (dvs::Book &book : office)
    if (auto entry = book.safe()) std::cout << "safe at office " << number(entry->member) << ": entry " << entry->entry << '\n';
  return fine ? 0 : 1;
}
