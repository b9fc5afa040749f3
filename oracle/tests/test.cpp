// The claims, their counts, and the run of all tests.
#include "test.h"

#include <cstdio>
#include <cstring>

#include "calls.h"

namespace oracle_tests {
namespace {

// How many claims were made and how many did not hold.
struct Counts {
  u64 made = 0;
  u64 failed = 0;
};

// The counts of this run.
Counts& counts() {
  static Counts of_run;
  return of_run;
}

// What the present claims are about.
std::string& subject() {
  static std::string of_claims;
  return of_claims;
}

// Tells a claim that does not hold; after many it only counts.
void tell(const char* words, const char* file, int line, const std::string& more) {
  counts().failed += 1;
  if (counts().failed > 40) return;
  const char* slash = std::strrchr(file, '/');
  std::fprintf(stderr, "%s:%d: [%s] does not hold: %s%s\n", slash == nullptr ? file : slash + 1, line,
               subject().c_str(), words, more.c_str());
}

}  // namespace

Setting& setting() {
  static Setting of_run;
  return of_run;
}

void about(const std::string& what) {
  subject() = what;
}

void claim(bool holds, const char* words, const char* file, int line) {
  counts().made += 1;
  if (!holds) tell(words, file, line, "");
}

void claim_equal(u64 found, u64 wanted, const char* words, const char* file, int line) {
  counts().made += 1;
  if (found == wanted) return;
  tell(words, file, line, ": found " + std::to_string(found) + ", wanted " + std::to_string(wanted));
}

void claim_text(const std::string& found, const std::string& wanted, const char* words, const char* file, int line) {
  counts().made += 1;
  if (found == wanted) return;
  tell(words, file, line, ":\nfound  " + found + "\nwanted " + wanted);
}

std::string fields(const Answer& answer) {
  const std::string line = oracle::write_result(answer, {});
  return line.substr(0, line.size() - 3);
}

std::string places(const std::vector<u32>& table) {
  std::string line;
  for (const u32 time : table) line += (line.empty() ? "" : " ") + std::to_string(time);
  return line;
}

Call call_of(const std::vector<u32>& mesh_and_settings, const std::vector<u32>& flow_numbers) {
  Call call;
  call.columns = mesh_and_settings.at(0);
  call.rows = mesh_and_settings.at(1);
  call.r = mesh_and_settings.at(2);
  call.flit_bytes = mesh_and_settings.at(3);
  call.f = mesh_and_settings.at(4);
  call.g = mesh_and_settings.at(5);
  call.flow_numbers = flow_numbers;
  call.table.assign(1024, 777);
  return call;
}

Call case_a() {
  return call_of({2, 2, 6, 4, 16, 3}, {0,   1,   608, 588, 608, 0,   3,   608, 1588, 608, 2,   3,  608,
                                       716, 608, 2,   1,   608, 948, 608, 3,   0,    608, 436, 608});
}

Call check_of(const Call& call, const std::vector<u32>& table) {
  Call checked = call;
  checked.kind = oracle::Kind::check;
  checked.table = table;
  return checked;
}

// Runs all tests and tells the counts; the exit status is 1 if a claim did not hold.
int run_all() {
  test_examples();
  test_refusals();
  test_check();
  test_search();
  test_replay();
  test_text();
  test_calls();
  test_sources();
  test_bench();
  test_generate();
  std::printf("%llu claims, %llu failed\n", static_cast<unsigned long long>(counts().made),
              static_cast<unsigned long long>(counts().failed));
  return counts().failed == 0 && counts().made > 0 ? 0 : 1;
}

}  // namespace oracle_tests

// Runs the tests: the folder of models, then full or short.
int main(int count, char** words) {
  if (count != 3) {
    std::fprintf(stderr, "usage: tests MODELS full|short\n");
    return 2;
  }
  oracle_tests::setting().models = words[1];
  oracle_tests::setting().full = std::strcmp(words[2], "full") == 0;
  return oracle_tests::run_all();
}
