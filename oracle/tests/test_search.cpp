// The search: worked examples, and the literal search against the quick one on random models.
#include "check.h"
#include "generate.h"
#include "search.h"
#include "test.h"

namespace oracle_tests {
namespace {

// A long packet (occupancy 10, slack 5) and a short one (3, 6) on one path: both fit only with the short one first.
Call long_and_short(u32 f, u32 g) {
  return call_of({2, 1, 1, 2, f, g}, {0, 1, 15, 14, 15, 0, 1, 15, 1, 9});
}

// Claims fields and the first places of both searches.
void claim_search(const Call& call, std::size_t shown, const std::string& wanted, const std::string& table) {
  for (Answer (*search)(Call&) : {oracle::search_literal, oracle::search_quick}) {
    Call lent = call;
    CLAIM_ANSWER(search(lent), wanted);
    CLAIM_TEXT(places({lent.table.begin(), lent.table.begin() + static_cast<std::ptrdiff_t>(shown)}), table);
  }
}

// Passes, tries and fail counts, worked by hand.
void test_worked() {
  about("second pass: 1 + 7 tries, then 1 + 4");
  claim_search(long_and_short(1, 2), 3, "0 0 0 15 2 2 13 0", "3 0 777");
  about("one pass with G = 1: 1 + 7 tries");
  claim_search(long_and_short(1, 1), 3, "13 1 0 15 2 1 8 1", "0 4294967295 777");
  about("second pass with F = 4: 1 + 2, then 1 + 2");
  claim_search(long_and_short(4, 2), 3, "0 0 0 15 2 2 6 0", "4 0 777");
  about("fail counts are never set back: 1 + 2, 1 + 1, 1 + 2");
  claim_search(long_and_short(6, 2), 3, "13 1 0 15 2 3 8 1", "0 4294967295 777");
  about("with G = 3 the two change places until the short one is skipped: 3 + 2 + 3 + 2 + 3");
  claim_search(long_and_short(6, 3), 3, "13 1 0 15 2 5 13 1", "0 4294967295 777");
  about("F above every slack: one try each");
  claim_search(long_and_short(65536, 1), 3, "13 1 0 15 2 1 2 1", "0 4294967295 777");
}

// Times go from the release, in steps of F, and not over multiples of F.
void test_from_release() {
  about("times from the release: 1 + 1 + 2, 1 + 2 + 1 + 2, 1 + 1 + 2 + 2 + 1");
  Call call = long_and_short(4, 2);
  call.flow_numbers.insert(call.flow_numbers.end(), {1, 0, 30, 1, 30});
  claim_search(call, 6, "0 0 0 30 5 3 17 0", "4 19 0 15 0 777");
}

// The list is in order of slack; equal slack goes by packet number.
void test_order() {
  about("least slack first");
  const Call call = call_of({2, 1, 1, 2, 1, 1}, {0, 1, 30, 1, 30, 0, 1, 30, 1, 20, 0, 1, 30, 1, 30, 0, 1, 30, 1, 19});
  claim_search(call, 5, "0 0 0 30 4 1 22 0", "6 3 9 0 777");
  oracle::Model model;
  CLAIM_EQUAL(oracle::make_model(call, model).number, 0);
  CLAIM_TEXT(places(oracle::least_slack_order(model)), "3 1 0 2");
}

// A slack of nothing: one time is tried, and touching packets are both placed.
void test_no_slack() {
  about("no slack: the two change places in 31 passes of two tries");
  claim_search(call_of({2, 1, 1, 2, 7, 16}, {0, 1, 6, 1, 3, 0, 1, 6, 1, 3}), 3, "13 1 0 6 2 31 62 1",
               "0 4294967295 777");
  claim_search(call_of({2, 1, 1, 2, 3, 16}, {0, 1, 6, 1, 6, 0, 1, 6, 1, 6}), 3, "0 0 0 6 2 1 3 0", "0 3 777");
  claim_search(call_of({2, 1, 1, 2, 3, 16}, {0, 1, 6, 1, 5, 0, 1, 6, 1, 6}), 3, "0 0 0 6 2 1 3 0", "0 3 777");
}

// One random small model for the comparison, with few nodes, short times and sizes up to a third of the period.
Call small_model(oracle::Random& random) {
  Call call = call_of({random.between(1, 3), random.between(2, 3), random.between(1, 3), random.between(1, 5),
                       random.between(1, 7), random.between(1, 5)},
                      {});
  const u32 nodes = call.columns * call.rows;
  const u32 common = random.pick({24, 36, 48, 60, 120});
  for (u32 flows = random.between(2, 7); flows > 0; --flows) {
    const u32 source = random.below(nodes);
    const u32 target = (source + 1 + random.below(nodes - 1)) % nodes;
    const u32 period = common / random.pick({1, 1, 2, 3, 4});
    const u32 size = random.between(1, 1 + call.flit_bytes * period / 3);
    const u32 deadline = random.between(1 + period / 2, period);
    call.flow_numbers.insert(call.flow_numbers.end(), {source, target, period, size, deadline});
  }
  return call;
}

// Compares the two searches on one call, and what the table shows; gives the answer.
Answer compare(const Call& call) {
  Call literal = call;
  Call quick = call;
  const Answer answer = oracle::search_literal(literal);
  CLAIM_TEXT(fields(oracle::search_quick(quick)), fields(answer));
  CLAIM(literal.table == quick.table);
  const bool written = answer.number == 0 || answer.number == 13;
  u64 skipped = 0;
  for (std::size_t place = 0; place < call.table.size(); ++place) {
    if (!written || place >= answer.packets) {
      CLAIM_EQUAL(literal.table[place], call.table[place]);
    } else if (literal.table[place] == oracle::kSkipped) {
      if (skipped == 0) CLAIM_EQUAL(answer.place, place);
      skipped += 1;
    }
  }
  CLAIM_EQUAL(answer.skipped, skipped);
  CLAIM_EQUAL(answer.number == 13, skipped > 0);
  return answer;
}

// Compares the two searches on small random models, which must be of every sort.
void test_small() {
  const u64 count = setting().full ? 16000 : 1000;
  u64 complete = 0, again = 0, skipping = 0;
  for (u64 index = 0; index < count; ++index) {
    about("small model " + std::to_string(index));
    oracle::Random random(5, index);
    Call call = small_model(random);
    call.table.resize(random.between(30, 80));
    const Answer answer = compare(call);
    if (answer.number == 0 && answer.passes == 1) complete += 1;
    if (answer.number == 0 && answer.passes > 1) again += 1;
    if (answer.number == 13) skipping += 1;
  }
  about("small models of every sort");
  CLAIM(complete > count / 10);
  CLAIM(again > count / 40);
  CLAIM(skipping > count / 4);
}

// Compares the two searches on the generated calls.
void test_generated() {
  const u64 count = setting().full ? 384 : 64;
  for (u64 index = 0; index < count; ++index) {
    about("generated search " + std::to_string(index));
    if (!setting().full && index % oracle::kSearchSorts == 45) continue;
    compare(oracle::make_search(12, index, oracle::Work::literal));
  }
}

}  // namespace

void test_search() {
  test_worked();
  test_from_release();
  test_order();
  test_no_slack();
  test_small();
  test_generated();
}

}  // namespace oracle_tests
