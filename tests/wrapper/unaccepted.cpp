// Takes the value of a refused call in the way that its argument names. An assert must end it; with NDEBUG it ends with 0 and the value is all 0.
#include <dvs.hpp>

#include <cstring>
#include <utility>

int main(int, char **arguments) {
  dvs::Book book;
  if (!book.start(1, dvs::Set{1}, dvs::Member{0})) return 2;
  auto refused = book.safe();
  const auto is = [way = arguments[1]](const char *other) { return std::strcmp(way, other) == 0; };
  if (refused.refusal() != dvs::Refusal::none_to_report) return 3;
  if (is("none")) return 0;
  if (is("value")) return refused.value() == dvs::Event{} ? 0 : 1;
  if (is("star")) return *refused == dvs::Event{} ? 0 : 1;
  if (is("arrow")) return refused->entry == 0 ? 0 : 1;
  if (is("moved value")) return book.safe().value() == dvs::Event{} ? 0 : 1;
  if (is("moved star")) return *std::move(refused) == dvs::Event{} ? 0 : 1;
  return 4;
}
