// The hard models, with the counts that two other programs found for them.
#include <chrono>
#include <cstdio>

#include "check.h"
#include "search.h"
#include "test.h"
#include "text.h"

namespace oracle_tests {
namespace {

// The bytes of a model's file; empty if it is not there.
std::string model_text(const std::string& name) {
  std::string text;
  std::FILE* file = std::fopen((setting().models + "/" + name + ".txt").c_str(), "rb");
  if (file == nullptr) return text;
  char part[4096];
  std::size_t count = 0;
  while ((count = std::fread(part, 1, sizeof part, file)) > 0) text.append(part, count);
  std::fclose(file);
  return text;
}

// Claims number, H, packets, passes, tries and skipped of a model and, in a run without sanitizers, that it is quick.
void claim_model(const std::string& name, u32 number, const std::string& wanted) {
  about(name);
  Call call;
  CLAIM_EQUAL(oracle::read_text(model_text(name), call).number, 0);
  call.table.assign(1024, 0);
  const auto begin = std::chrono::steady_clock::now();
  const Answer answer = oracle::search_quick(call);
  const std::chrono::duration<double> taken = std::chrono::steady_clock::now() - begin;
  CLAIM_EQUAL(answer.number, number);
  CLAIM_TEXT(std::to_string(answer.hyper_period) + " " + std::to_string(answer.packets) + " " +
                 std::to_string(answer.passes) + " " + std::to_string(answer.tries) + " " +
                 std::to_string(answer.skipped),
             wanted);
  CLAIM_EQUAL(oracle::check(call).number, number == 0 ? 0 : 11);
  if (setting().full) CLAIM(taken.count() < 2.0);
}

// The model with skipped packets that a literal search can do, by both searches.
void test_literal() {
  about("b_car_1MHz_F4000 by both searches");
  Call quick;
  CLAIM_EQUAL(oracle::read_text(model_text("b_car_1MHz_F4000"), quick).number, 0);
  quick.table.assign(700, 5);
  Call literal = quick;
  CLAIM_TEXT(fields(oracle::search_quick(quick)), fields(oracle::search_literal(literal)));
  CLAIM(quick.table == literal.table);
}

}  // namespace

void test_bench() {
  claim_model("a_caseA", 0, "608 5 1 57 0");
  claim_model("b_car_1MHz_F1000", 0, "1000000 660 1 4890 0");
  claim_model("b_car_1MHz_F4000", 13, "1000000 660 612 200649 3");
  claim_model("b_car_1MHz_F1", 0, "1000000 660 1 3891998 0");
  claim_model("c_ring_literal", 13, "4080 1024 2945 93338736 32");
  if (!setting().full) return;
  claim_model("d_ring_max", 13, "16776960 1024 14657 753443347056 32");
  claim_model("d_ring_two_paths", 13, "16776960 1024 14657 753443347056 32");
  test_literal();
}

}  // namespace oracle_tests
