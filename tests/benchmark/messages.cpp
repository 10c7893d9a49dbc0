// The reader and the writer, on messages of each kind.
#include "../../include/dvs.h"
#include "independent.hpp"
#include "parts.hpp"

namespace benchmark {

namespace {

constexpr unsigned kMany = 16;  // different messages of one kind in a run

struct Sample {
  uint8_t bytes[DVS_LONGEST], record[DVS_MESSAGE_SIZE];
  size_t size;
  plain::Message message;
};

struct Form { const char* name; uint8_t kind; unsigned views; };

constexpr Form kForms[] = {{"client", DVS_CLIENT, 0}, {"registered", DVS_REGISTERED, 0}, {"told", DVS_TOLD, 0},
                           {"info of 1", DVS_INFO, 1}, {"info of 8", DVS_INFO, 8}, {"info of 32", DVS_INFO, 32}};

Sample sample(const Form& form, unsigned i) {
  Sample s = {};
  plain::Message& m = s.message;
  m.kind = form.kind, m.view = 1000 + 77 * i, m.count = form.views;
  if (form.kind == DVS_CLIENT) m.number = 0x0123456789abcdef * (i + 1);
  if (form.kind == DVS_TOLD) m.number = 1 + 7 * i;
  for (unsigned v = 0; v < form.views; ++v)
    m.views[v] = {1000 * i + 300 * v, static_cast<uint8_t>(1 + (37 * v + i) % 255)};
  s.size = plain::length(m);
  if (plain::write(m, s.bytes, sizeof s.bytes)) fail("a message to time is none");
  plain::store_record(m, s.record);
  return s;
}

// Both ways give the sample's own bytes and record, on every side.
void check(const Sample& s) {
  uint8_t theirs[DVS_MESSAGE_SIZE], mine[DVS_MESSAGE_SIZE], length[4];
  uint8_t buffer[DVS_LONGEST] = {}, same[DVS_LONGEST] = {}, third[DVS_LONGEST] = {};
  plain::Message m;
  uint32_t size = 0;
  if (dvs_read(s.bytes, s.size, theirs, sizeof theirs) || independent::read(s.bytes, s.size, mine, sizeof mine) ||
      independent::read_struct(s.bytes, s.size, m))
    fail("a message is refused");
  if (memcmp(theirs, s.record, sizeof theirs) || memcmp(mine, s.record, sizeof mine))
    fail("a message is read otherwise");
  if (dvs_write(s.record, sizeof s.record, buffer, sizeof buffer, length, 4) || plain::get(length, 4) != s.size ||
      independent::write(s.record, sizeof s.record, same, sizeof same, length, 4) ||
      independent::write_struct(m, third, sizeof third, size) || size != s.size)
    fail("a record is refused");
  if (memcmp(buffer, s.bytes, s.size) || memcmp(same, buffer, sizeof buffer) || memcmp(third, buffer, sizeof buffer))
    fail("a message is written otherwise");
}

template <class Do> uint64_t each(const std::vector<Sample>& all, Do call) {
  uint64_t accepted = 0;
  for (const Sample& s : all) accepted += call(s) == DVS_ACCEPTED;
  return accepted;
}

using Row = std::pair<std::string, std::vector<Times>>;

Row reads(const std::string& name, const std::vector<Sample>& all) {
  uint8_t record[DVS_MESSAGE_SIZE];
  plain::Message m;
  return {"read " + name, measure(kMany, {
      [&] { return each(all, [&](const Sample& s) { return dvs_read(s.bytes, s.size, record, sizeof record); }); },
      [&] {
        return each(all, [&](const Sample& s) { return independent::read(s.bytes, s.size, record, sizeof record); });
      },
      [&] { return each(all, [&](const Sample& s) { return independent::read_struct(s.bytes, s.size, m); }); }})};
}

Row writes(const std::string& name, const std::vector<Sample>& all) {
  uint8_t out[DVS_LONGEST], length[4];
  uint32_t size = 0;
  return {"write " + name, measure(kMany, {
      [&] {
        return each(all, [&](const Sample& s) {
          return dvs_write(s.record, sizeof s.record, out, sizeof out, length, sizeof length);
        });
      },
      [&] {
        return each(all, [&](const Sample& s) {
          return independent::write(s.record, sizeof s.record, out, sizeof out, length, sizeof length);
        });
      },
      [&] {
        return each(all, [&](const Sample& s) { return independent::write_struct(s.message, out, sizeof out, size); });
      }})};
}

}  // namespace

void messages() {
  head("Messages. bytes: fills, or takes, the same record of 174 bytes. struct: a C++ struct in its place.",
       {"library", "bytes", "struct"});
  std::vector<Row> written;
  for (const Form& form : kForms) {
    std::vector<Sample> all;
    for (unsigned i = 0; i < kMany; ++i) all.push_back(sample(form, i)), check(all.back());
    std::string name = std::string(form.name) + ", " + std::to_string(all[0].size) + " bytes";
    Row read = reads(name, all);
    row(read.first, read.second);
    written.push_back(writes(name, all));
  }
  for (const Row& write : written) row(write.first, write.second);
}

}  // namespace benchmark
