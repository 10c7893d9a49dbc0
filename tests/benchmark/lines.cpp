// The bench's lines: whole programs, each given the same script on standard input.
#include <fcntl.h>
#include <sys/resource.h>
#include <sys/wait.h>
#include <unistd.h>

#include <fstream>
#include <iterator>

#include "parts.hpp"

namespace benchmark {

namespace {

constexpr unsigned kFewer = 5;  // rounds: a program's turn is long

// Where a program's answers go: beside the script.
std::string answers_of(const std::string& program, const std::string& script) {
  return script + "." + program.substr(program.rfind('/') + 1);
}

// Runs a program to its end, and gives the processor's time that it took, in ns.
double run(const std::string& program, const std::string& script) {
  pid_t child = fork();
  if (child < 0) fail("no process for " + program);
  if (child == 0) {
    int in = open(script.c_str(), O_RDONLY);
    int out = open(answers_of(program, script).c_str(), O_WRONLY | O_CREAT | O_TRUNC, 0644);
    if (in >= 0 && out >= 0 && dup2(in, 0) == 0 && dup2(out, 1) == 1) execl(program.c_str(), program.c_str(), nullptr);
    _exit(127);
  }
  int status = 0;
  rusage used = {};
  if (wait4(child, &status, 0, &used) != child || status != 0) fail(program + " does not end well");
  auto ns = [](const timeval& t) { return 1e9 * static_cast<double>(t.tv_sec) + 1e3 * static_cast<double>(t.tv_usec); };
  return ns(used.ru_utime) + ns(used.ru_stime);
}

std::string content(const std::string& file) {
  std::ifstream in(file, std::ios::binary);
  return {std::istreambuf_iterator<char>(in), std::istreambuf_iterator<char>()};
}

}  // namespace

void lines(const std::string& script, const std::vector<std::string>& programs) {
  std::string text = content(script);
  auto count = std::count(text.begin(), text.end(), '\n');
  if (count == 0) fail("there is no script " + script);
  std::vector<Times> all(programs.size());
  for (const std::string& program : programs) {
    run(program, script);
    std::string answers = content(answers_of(program, script)), first = content(answers_of(programs[0], script));
    if (std::count(answers.begin(), answers.end(), '\n') != count || answers != first)
      fail(program + " answers otherwise");
    if (answers.find("refused") != std::string::npos) fail("a line of the steady script is refused");
  }
  for (unsigned r = 0; r < kFewer; ++r)
    for (size_t p = 0; p < programs.size(); ++p)
      all[p].rounds.push_back(run(programs[p], script) / static_cast<double>(count));
  head("Lines of the bench, whole programs in five rounds. structs, unchecked: the bench in C++ over such a group, as\n"
       "`make reference-cpp` compiles it.",
       {"library", "structs", "unchecked"});
  row("lines of the steady script, " + std::to_string(count), all);
}

}  // namespace benchmark
