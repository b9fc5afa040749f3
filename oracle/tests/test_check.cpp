// The check: start ranges, collisions, their places, and that it reads no place past the packets.
#include "check.h"
#include "generate.h"
#include "search.h"
#include "test.h"

namespace oracle_tests {
namespace {

// Four flows of occupancy 3 and period 30, two packets each in a hyper-period of 60: 0 to 1, twice, 1 to 0, 0 to 1.
Call four_flows() {
  return call_of({2, 1, 1, 2, 1, 1}, {0, 1, 30, 1, 30, 0, 1, 30, 1, 20, 1, 0, 30, 1, 30, 0, 1, 60, 1, 60});
}

// The fields of the check of the four flows with a table.
std::string checked(const std::vector<u32>& table) {
  return fields(oracle::check(check_of(four_flows(), table)));
}

// Start ranges, both ends included, and the lowest packet.
void test_ranges() {
  about("start ranges");
  CLAIM_TEXT(checked({0, 30, 3, 33, 0, 30, 6}), "0 0 0 60 7 0 0 0");
  CLAIM_TEXT(checked({27, 57, 17, 47, 27, 57, 6}), "0 0 0 60 7 0 0 0");
  CLAIM_TEXT(checked({28, 57, 17, 47, 27, 57, 6}), "11 0 0 0 0 0 0 0");
  CLAIM_TEXT(checked({27, 29, 17, 47, 27, 57, 6}), "11 1 0 0 0 0 0 0");
  CLAIM_TEXT(checked({27, 58, 18, 47, 27, 57, 6}), "11 1 0 0 0 0 0 0");
  CLAIM_TEXT(checked({27, 57, 18, 47, 27, 57, 6}), "11 2 0 0 0 0 0 0");
  CLAIM_TEXT(checked({27, 57, 17, 47, 27, 57, 57}), "12 1 6 0 0 0 0 0");
  CLAIM_TEXT(checked({27, 57, 17, 47, 27, 57, 58}), "11 6 0 0 0 0 0 0");
  CLAIM_TEXT(checked({0, 30, 3, 33, 0, 30, 4294967295U}), "11 6 0 0 0 0 0 0");
  CLAIM_TEXT(checked({4294967295U, 4294967294U, 3, 33, 0, 30, 6}), "11 0 0 0 0 0 0 0");
  about("11 for all packets before any 12");
  CLAIM_TEXT(checked({0, 30, 0, 33, 0, 30, 58}), "11 6 0 0 0 0 0 0");
}

// Collisions: the lowest pair, in both directions of time, and not between opposite links.
void test_collisions() {
  about("collisions");
  CLAIM_TEXT(checked({0, 30, 2, 33, 0, 30, 6}), "12 0 2 0 0 0 0 0");
  CLAIM_TEXT(checked({2, 30, 0, 33, 0, 30, 6}), "12 0 2 0 0 0 0 0");
  CLAIM_TEXT(checked({0, 30, 3, 30, 0, 30, 30}), "12 1 3 0 0 0 0 0");
  CLAIM_TEXT(checked({0, 30, 3, 33, 0, 30, 0}), "12 0 6 0 0 0 0 0");
  CLAIM_TEXT(checked({0, 30, 3, 33, 0, 30, 35}), "12 3 6 0 0 0 0 0");
  CLAIM_TEXT(checked({0, 30, 3, 33, 0, 30, 36}), "0 0 0 60 7 0 0 0");
  about("a collision on the last link only");
  const Call far = call_of({2, 2, 1, 2, 1, 1}, {0, 3, 30, 1, 30, 2, 3, 30, 1, 30});
  CLAIM_ANSWER(oracle::check(check_of(far, {0, 3})), "12 0 1 0 0 0 0 0");
  CLAIM_ANSWER(oracle::check(check_of(far, {0, 4})), "0 0 0 30 2 0 0 0");
}

// Places past the packets are not read, and the call is not written.
void test_tail() {
  about("places past the packets");
  CLAIM_TEXT(checked({0, 30, 3, 33, 0, 30, 6, 4294967295U, 0, 0}), "0 0 0 60 7 0 0 0");
  CLAIM_TEXT(checked({0, 30, 3, 33, 0, 30}), "10 0 0 0 0 0 0 0");
}

// Every complete table of the search passes; one with skipped packets is refused at the first skipped one.
void test_own_tables() {
  const u64 count = setting().full ? 640 : 64;
  u64 complete = 0;
  u64 skipping = 0;
  for (u64 index = 0; index < count; ++index) {
    about("own table of search " + std::to_string(index));
    Call call = oracle::make_search(11, index, setting().full ? oracle::Work::quick : oracle::Work::literal);
    const Answer found = oracle::search_quick(call);
    const Answer answer = oracle::check(call);
    if (found.number == 0) {
      CLAIM_EQUAL(answer.number, 0);
      CLAIM_EQUAL(answer.hyper_period, found.hyper_period);
      CLAIM_EQUAL(answer.packets, found.packets);
      complete += 1;
    } else if (found.number == 13) {
      CLAIM_EQUAL(answer.number, 11);
      CLAIM_EQUAL(answer.place, found.place);
      skipping += 1;
    } else if (found.number != 3) {
      CLAIM(oracle::same(answer, found));
    }
  }
  about("own tables of both sorts");
  CLAIM(complete > count / 5);
  CLAIM(skipping > count / 10);
}

}  // namespace

void test_check() {
  test_ranges();
  test_collisions();
  test_tail();
  test_own_tables();
}

}  // namespace oracle_tests
