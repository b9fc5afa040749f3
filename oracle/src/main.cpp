// The program: its subcommands are told in the README.
#include <algorithm>
#include <chrono>
#include <cstdio>
#include <cstdlib>
#include <cstring>
#include <string>

#include "calls.h"
#include "check.h"
#include "generate.h"
#include "replay.h"
#include "search.h"
#include "text.h"

namespace {

using oracle::Answer;
using oracle::Call;
using oracle::Kind;
using oracle::u64;

// All bytes of an open file.
std::string read_all(std::FILE* file) {
  std::string bytes;
  char part[65536];
  std::size_t count = 0;
  while ((count = std::fread(part, 1, sizeof part, file)) > 0) bytes.append(part, count);
  return bytes;
}

// Writes bytes to standard output.
void put(const std::string& bytes) {
  std::fwrite(bytes.data(), 1, bytes.size(), stdout);
}

// Tells a fault of the input and gives the exit status.
int fault(const char* what) {
  std::fprintf(stderr, "oracle: %s\n", what);
  return 2;
}

// Reads standard input as calls, line by line, and writes what an action makes of each; texts among them are run, if told.
template <typename Action>
int for_each_call(bool texts, Action action) {
  const std::string calls = read_all(stdin);
  std::size_t begin = 0;
  while (begin < calls.size()) {
    if (texts && calls.compare(begin, 5, "text ") == 0) {
      std::string text;
      begin += 5;
      if (!oracle::read_frame(calls, begin, text)) return fault("a text is bad");
      put(oracle::run_text(text));
      continue;
    }
    const std::size_t feed = std::min(calls.find('\n', begin), calls.size());
    Call call;
    if (!oracle::read_call(calls.substr(begin, feed - begin), call)) return fault("a line is no call");
    put(action(call));
    begin = feed + 1;
  }
  return 0;
}

// Answers calls.
int call_lines(bool literal) {
  return for_each_call(true, [literal](Call& call) {
    const Answer answer = call.kind == Kind::check ? oracle::check(call)
                          : literal                ? oracle::search_literal(call)
                                                   : oracle::search_quick(call);
    return oracle::write_result(answer, call.table);
  });
}

// Replays the tables of calls.
int replay_lines(u64 hyper_periods) {
  return for_each_call(false, [hyper_periods](Call& call) -> std::string {
    oracle::Model model;
    call.kind = Kind::check;
    const Answer refusal = oracle::make_model(call, model);
    if (refusal.number != 0) {
      return "refused " + std::to_string(refusal.number) + " " + std::to_string(refusal.place) + "\n";
    }
    return oracle::faults_words(oracle::replay(call, hyper_periods)) + "\n";
  });
}

// Runs framed texts and writes each as a call, if it and its answer have together at most so many bytes.
int text_calls(u64 most) {
  const std::string frames = read_all(stdin);
  std::size_t place = 0;
  while (place < frames.size()) {
    std::string text;
    if (!oracle::read_frame(frames, place, text)) return fault("a frame is bad");
    put(oracle::write_text(text, oracle::run_text(text), most));
  }
  return 0;
}

// Generates cases of a kind; false if there is no such kind.
bool generate(const std::string& kind, u64 seed, u64 count) {
  using oracle::Work;
  if (kind != "texts" && kind != "searches" && kind != "heavy" && kind != "checks") return false;
  for (u64 index = 0; index < count; ++index) {
    if (kind == "texts") put(oracle::write_frame(oracle::make_text(seed, index)));
    if (kind == "searches") put(oracle::write_call(oracle::make_search(seed, index, Work::literal)));
    if (kind == "heavy") put(oracle::write_call(oracle::make_search(seed, index, Work::quick)));
    if (kind == "checks") put(oracle::write_call(oracle::make_check(seed, index)));
  }
  return true;
}

// Times the quick search on the text of a file.
int time_search(const char* name, u64 runs) {
  std::FILE* file = std::fopen(name, "rb");
  if (file == nullptr) return fault("no such file");
  const std::string text = read_all(file);
  std::fclose(file);
  Call call;
  Answer answer = oracle::read_text(text, call);
  if (answer.number != 0 || runs == 0) return fault("the text is malformed, or no runs");
  call.table.assign(oracle::kMostPackets, 0);
  const auto begin = std::chrono::steady_clock::now();
  for (u64 run = 0; run < runs; ++run) answer = oracle::search_quick(call);
  const std::chrono::duration<double> taken = std::chrono::steady_clock::now() - begin;
  std::printf("number %u passes %u tries %llu skipped %u: %.6f s\n", answer.number, answer.passes,
              static_cast<unsigned long long>(answer.tries), answer.skipped,
              taken.count() / static_cast<double>(runs));
  return 0;
}

// Chooses the subcommand; -1 if there is none of that form.
int choose(int count, char** words) {
  const std::string name = count > 1 ? words[1] : "";
  if (name == "run" && count == 2) {
    put(oracle::run_text(read_all(stdin)));
    return 0;
  }
  if (name == "texts" && count == 3) return text_calls(std::strtoull(words[2], nullptr, 10));
  if (name == "call" && count == 2) return call_lines(false);
  if (name == "call" && count == 3 && std::strcmp(words[2], "literal") == 0) return call_lines(true);
  if (name == "replay" && count == 3) return replay_lines(std::strtoull(words[2], nullptr, 10));
  if (name == "time" && count == 3) return time_search(words[2], 10);
  if (name == "time" && count == 4) return time_search(words[2], std::strtoull(words[3], nullptr, 10));
  if (name != "generate" || count != 5) return -1;
  return generate(words[2], std::strtoull(words[3], nullptr, 10), std::strtoull(words[4], nullptr, 10)) ? 0 : -1;
}

}  // namespace

// Runs one subcommand.
int main(int count, char** words) {
  const int status = choose(count, words);
  if (status >= 0) return status;
  return fault(
      "run | texts MOST | call [literal] | replay N | generate texts|searches|heavy|checks SEED COUNT | "
      "time FILE [RUNS]");
}
