// The generator: every refusal and every limit occurs, and a seed gives the same cases on every machine.
#include "calls.h"
#include "check.h"
#include "generate.h"
#include "search.h"
#include "test.h"
#include "text.h"

namespace oracle_tests {
namespace {

// What was seen of generated cases.
struct Seen {
  std::vector<u64> numbers = std::vector<u64>(14, 0);
  u64 hash = 14695981039346656037U;
  bool again = false, most_packets = false, most_time = false, longer = false, one_short = false, junk = false;
};

// Adds bytes to a hash.
void mix(u64& hash, const std::string& bytes) {
  for (const char byte : bytes) hash = (hash ^ static_cast<unsigned char>(byte)) * 1099511628211U;
}

// Notes what one call and its answer show.
void note(Seen& seen, const Call& call, const Answer& answer) {
  seen.numbers.at(answer.number) += 1;
  mix(seen.hash, oracle::write_call(call));
  if (answer.number == 0 && answer.passes > 1) seen.again = true;
  if (answer.packets == 1024 && call.f == 1) seen.most_packets = true;
  if (answer.hyper_period == 16777216) seen.most_time = true;
  if (answer.packets > 0 && call.table.size() > answer.packets) seen.longer = true;
  if (answer.packets > 0 && call.table.size() > answer.packets && call.table.back() > 16777216) seen.junk = true;
  if (answer.number == 10 && call.table.size() + 1 == oracle::packets_of(call)) seen.one_short = true;
}

// Searches: all their numbers, limits and tables.
void test_searches() {
  about("generated searches");
  Seen seen;
  const u64 count = setting().full ? 640 : 128;
  for (u64 index = 0; index < count; ++index) {
    const Call call = oracle::make_search(1, index, oracle::Work::literal);
    Call lent = call;
    note(seen, call, oracle::search_quick(lent));
    Call back;
    CLAIM(oracle::read_call(oracle::write_call(call), back));
    CLAIM_TEXT(oracle::write_call(back), oracle::write_call(call));
    if (index == 127) CLAIM_EQUAL(seen.hash, 13220472729175290207U);
  }
  for (const u32 number : {0U, 2U, 3U, 4U, 5U, 6U, 7U, 8U, 9U, 10U, 13U}) CLAIM(seen.numbers[number] > 1);
  CLAIM(seen.again && seen.most_packets && seen.most_time && seen.longer && seen.junk);
  if (setting().full) CLAIM(seen.one_short);
}

// Checks: all their numbers.
void test_checks() {
  about("generated checks");
  Seen seen;
  const u64 count = setting().full ? 500 : 100;
  for (u64 index = 0; index < count; ++index) {
    const Call call = oracle::make_check(1, index);
    note(seen, call, oracle::check(call));
    if (index == 99) CLAIM_EQUAL(seen.hash, 2558359673412044899U);
  }
  for (const u32 number : {0U, 2U, 4U, 5U, 6U, 7U, 8U, 9U, 10U, 11U, 12U}) CLAIM(seen.numbers[number] > 1);
  CLAIM_EQUAL(seen.numbers[3], 0);
  CLAIM_EQUAL(seen.numbers[13], 0);
  CLAIM(seen.longer && seen.junk);
}

// Texts: all their numbers, the limits of bytes, and that most damage is damage.
void test_texts() {
  u64 hash = 14695981039346656037U;
  std::vector<u64> numbers(14, 0);
  u64 full_texts = 0, over = 0, damaged = 0;
  for (u64 index = 0; index < oracle::kTextSorts * 3; ++index) {
    const std::string text = oracle::make_text(1, index);
    mix(hash, text);
    Call call;
    Answer answer = oracle::read_text(text, call);
    const u32 sort = static_cast<u32>(index % oracle::kTextSorts);
    if (answer.number == 1 && sort >= 54) damaged += 1;
    call.table.assign(1024, 0);
    if (answer.number == 0) answer = oracle::search_quick(call);
    numbers.at(answer.number) += 1;
    if (text.size() == 8192 && answer.number == 4) full_texts += 1;
    if (text.size() == 8193 && answer.number == 1 && answer.place == 0) over += 1;
  }
  about("generated texts");
  for (const u32 number : {0U, 1U, 2U, 3U, 4U, 5U, 6U, 7U, 8U, 9U, 13U}) CLAIM(numbers[number] > 1);
  CLAIM(full_texts > 0);
  CLAIM(over > 1);
  CLAIM(damaged > 42 * 3 * 3 / 4);
  CLAIM_EQUAL(hash, 14865980657239244272U);
}

// The numbers of a case follow from its seed and index alone.
void test_random() {
  about("random numbers");
  oracle::Random random(1, 2);
  oracle::Random again(1, 2);
  oracle::Random other(2, 1);
  const u64 first = random.next();
  CLAIM_EQUAL(again.next(), first);
  CLAIM(other.next() != first);
  u32 low = 9, high = 0;
  for (u32 n = 0; n < 200; ++n) {
    const u32 value = random.between(3, 5);
    low = value < low ? value : low;
    high = value > high ? value : high;
  }
  CLAIM_EQUAL(low, 3);
  CLAIM_EQUAL(high, 5);
}

}  // namespace

void test_generate() {
  test_searches();
  test_checks();
  test_texts();
  test_random();
}

}  // namespace oracle_tests
