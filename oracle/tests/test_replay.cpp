// The replay: every sort of fault is seen, and the check passes just when the replay is clean.
#include "check.h"
#include "generate.h"
#include "replay.h"
#include "test.h"

namespace oracle_tests {
namespace {

// Two flows of occupancy 3 and period 10 on one path, in a hyper-period of 20 that a third flow makes.
Call three_flows(const std::vector<u32>& table) {
  return check_of(call_of({2, 1, 1, 2, 1, 1}, {0, 1, 10, 1, 8, 0, 1, 10, 1, 10, 1, 0, 20, 1, 20}), table);
}

// The words of a replay over some hyper-periods, which must be the same by cycles and by stretches.
std::string words(const Call& call, u64 hyper_periods) {
  const std::string by_cycles = oracle::faults_words(oracle::replay_cycles(call, hyper_periods));
  CLAIM_TEXT(oracle::faults_words(oracle::replay_stretches(call, hyper_periods)), by_cycles);
  CLAIM_TEXT(oracle::faults_words(oracle::replay(call, hyper_periods)), by_cycles);
  return by_cycles;
}

// Each sort of fault, worked by hand.
void test_faults() {
  about("faults of a replay");
  for (const u64 n : {1U, 2U, 3U}) {
    CLAIM_TEXT(words(three_flows({0, 10, 3, 13, 0}), n), "clean");
    CLAIM_TEXT(words(three_flows({5, 15, 0, 17, 17, 99}), n), "faulty collision");
    CLAIM_TEXT(words(three_flows({5, 15, 2, 12, 17}), n), "clean");
    CLAIM_TEXT(words(three_flows({0, 10, 2, 13, 0}), n), "faulty collision");
    CLAIM_TEXT(words(three_flows({6, 10, 0, 13, 0}), n), "faulty late");
    CLAIM_TEXT(words(three_flows({0, 9, 3, 13, 0}), n), "faulty early");
    CLAIM_TEXT(words(three_flows({0, 6, 3, 13, 0}), n), "faulty early receiver");
  }
  about("a packet that runs into the next hyper-period");
  CLAIM_TEXT(words(three_flows({0, 10, 3, 18, 0}), 1), "faulty late receiver");
  CLAIM_TEXT(words(three_flows({0, 10, 3, 18, 0}), 2), "faulty collision late receiver");
}

// Two packets of a flow that have changed places: each receiver sees the wrong one.
void test_swapped() {
  about("swapped packets");
  CLAIM_TEXT(words(three_flows({10, 0, 3, 13, 0}), 1), "faulty early late receiver");
  CLAIM_TEXT(words(three_flows({10, 0, 3, 13, 0}), 3), "faulty early late receiver");
  about("a time at the top of 32 bits");
  const Call call = three_flows({0, 10, 3, 13, 4294967295U});
  CLAIM_TEXT(oracle::faults_words(oracle::replay_stretches(call, 2)), "faulty late receiver");
  CLAIM_TEXT(oracle::faults_words(oracle::replay(call, 2)), "faulty late receiver");
}

// Claims that a check passes just when the replay is clean; gives the number of the check.
u32 compare(const Call& call) {
  const Answer answer = oracle::check(call);
  if (answer.number != 0 && answer.number != 11 && answer.number != 12) return answer.number;
  for (const u64 n : {1U, 2U, 3U}) {
    const oracle::Faults faults = oracle::replay(call, n);
    CLAIM_EQUAL(oracle::clean(faults), answer.number == 0);
    CLAIM_EQUAL(faults.early || faults.late, answer.number == 11);
    if (answer.number == 12) CLAIM(faults.collision);
    CLAIM(oracle::same(faults, oracle::replay_stretches(call, n)));
  }
  return answer.number;
}

// Compares on the generated checks, which must be of every sort.
void test_generated() {
  const u64 count = setting().full ? 1500 : 100;
  std::vector<u64> numbers(14, 0);
  for (u64 index = 0; index < count; ++index) {
    about("generated check " + std::to_string(index));
    numbers[compare(oracle::make_check(13, index))] += 1;
  }
  about("generated checks of every sort");
  for (const u32 number : {0U, 11U, 12U}) CLAIM(numbers[number] > count / 20);
}

// A random table, most of it in range, for a random small model.
Call random_table(oracle::Random& random) {
  Call call = call_of({random.between(2, 4), random.between(1, 3), 1, random.between(1, 4), 1, 1}, {});
  const u32 nodes = call.columns * call.rows;
  for (u32 flows = random.between(1, 6); flows > 0; --flows) {
    const u32 source = random.below(nodes);
    const u32 target = (source + 1 + random.below(nodes - 1)) % nodes;
    const u32 period = random.pick({30, 40, 60, 120});
    const u32 deadline = random.between(20, period);
    call.flow_numbers.insert(call.flow_numbers.end(), {source, target, period, random.between(1, 12), deadline});
  }
  oracle::Model model;
  CLAIM_EQUAL(oracle::make_model(call, model).number, 0);
  const u32 stray = random.pick({0, 0, 0, 1, 5});
  for (std::size_t number = 0; number < model.packets.size(); ++number) {
    const oracle::Packet& packet = model.packets[number];
    const u32 time = random.between(packet.release, oracle::latest_start(packet) + stray);
    call.table[number] = stray > 1 && random.once_in(9) && time > 0 ? time - 1 : time;
  }
  return check_of(call, call.table);
}

// Compares on random tables, which must be of every sort.
void test_random_tables() {
  const u64 count = setting().full ? 6000 : 500;
  std::vector<u64> numbers(14, 0);
  for (u64 index = 0; index < count; ++index) {
    about("random table " + std::to_string(index));
    oracle::Random random(6, index);
    numbers[compare(random_table(random))] += 1;
  }
  about("random tables of every sort");
  for (const u32 number : {0U, 11U, 12U}) CLAIM(numbers[number] > count / 10);
}

}  // namespace

void test_replay() {
  test_faults();
  test_swapped();
  test_generated();
  test_random_tables();
}

}  // namespace oracle_tests
