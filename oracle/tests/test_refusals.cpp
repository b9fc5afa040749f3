// The refusals 2 to 10 at their limits, their order and places, and that a refusal writes nothing.
#include "check.h"
#include "search.h"
#include "test.h"

namespace oracle_tests {
namespace {

// A model of one good flow on a 3 by 3 mesh: distance 4, occupancy 10 + 3 + 1 = 14, period 100.
Call one_flow() {
  return call_of({3, 3, 2, 4, 1, 1}, {0, 8, 100, 12, 100});
}

// Number and place of both searches, which must agree, for a call that may be refused; a refusal writes nothing.
std::string of_searches(const Call& call) {
  Call literal = call;
  Call quick = call;
  const Answer answer = oracle::search_literal(literal);
  CLAIM(oracle::same(answer, oracle::search_quick(quick)));
  CLAIM(literal.table == quick.table);
  if (answer.number != 0 && answer.number != 13) CLAIM(literal.table == call.table);
  return std::to_string(answer.number) + " " + std::to_string(answer.place);
}

// Number and place of the check of a call.
std::string of_check(const Call& call) {
  const Answer answer = oracle::check(call);
  return std::to_string(answer.number) + " " + std::to_string(answer.place);
}

// Claims an answer of the search for one number put into a field.
void claim_field(u32 Call::*field, u32 value, const std::string& wanted) {
  Call call = one_flow();
  call.*field = value;
  about("field of the frame = " + std::to_string(value));
  CLAIM_TEXT(of_searches(call), wanted);
}

// Claims an answer of the search for one number put into the only flow.
void claim_number(std::size_t at, u32 value, const std::string& wanted) {
  Call call = one_flow();
  call.flow_numbers[at] = value;
  about("number " + std::to_string(at) + " of the flow = " + std::to_string(value));
  CLAIM_TEXT(of_searches(call), wanted);
  if (wanted != "0 0") CLAIM_TEXT(of_check(call), wanted);
}

// Numbers 2 and 3, and that the check has no 3.
void test_frame() {
  for (u32 Call::*field : {&Call::columns, &Call::rows}) {
    claim_field(field, 0, "2 0");
    claim_field(field, 3, "0 0");
    claim_field(field, 16, "0 0");
    claim_field(field, 17, "2 0");
    claim_field(field, 4294967295U, "2 0");
  }
  for (u32 Call::*field : {&Call::r, &Call::flit_bytes}) {
    claim_field(field, 0, "2 0");
    claim_field(field, 1, "0 0");
    claim_field(field, 64, field == &Call::r ? "7 0" : "0 0");
    claim_field(field, 65, "2 0");
    claim_field(field, 4294967295U, "2 0");
  }
  for (const u32 value : {0U, 65537U, 4294967295U}) claim_field(&Call::f, value, "3 0");
  for (const u32 value : {1U, 65536U}) claim_field(&Call::f, value, "0 0");
  for (const u32 value : {0U, 17U, 4294967295U}) claim_field(&Call::g, value, "3 0");
  for (const u32 value : {1U, 16U}) claim_field(&Call::g, value, "0 0");
  about("the check has no 3");
  Call call = check_of(one_flow(), {5});
  call.f = 0;
  call.g = 17;
  CLAIM_TEXT(of_check(call), "0 0");
}

// Number 4: the list of numbers.
void test_list() {
  const std::vector<u32> flow = {0, 8, 2000, 12, 2000};
  for (const std::size_t count : {0U, 1U, 4U, 5U, 6U, 9U, 10U, 319U, 320U, 321U, 325U, 640U, 1000U}) {
    about("a list of " + std::to_string(count));
    Call call = one_flow();
    call.flow_numbers.clear();
    for (std::size_t at = 0; at < count; ++at) call.flow_numbers.push_back(flow[at % 5]);
    const bool good = count == 5 || count == 10 || count == 320;
    CLAIM_TEXT(of_searches(call), good ? "0 0" : "4 0");
    call.table.assign(64, 0);
    if (!good) CLAIM_TEXT(of_check(call), "4 0");
  }
}

// Numbers 5, 6 and 7 of a single flow at their limits.
void test_flow() {
  claim_number(0, 7, "0 0");
  claim_number(0, 8, "5 0");
  claim_number(0, 9, "5 0");
  claim_number(1, 0, "5 0");
  claim_number(1, 9, "5 0");
  claim_number(1, 4294967295U, "5 0");
  claim_number(2, 0, "6 0");
  claim_number(2, 99, "6 0");
  claim_number(2, 16777216, "0 0");
  claim_number(2, 16777217, "6 0");
  claim_number(2, 4294967295U, "6 0");
  claim_number(3, 0, "6 0");
  claim_number(3, 1, "0 0");
  claim_number(3, 359, "0 0");
  claim_number(3, 360, "7 0");
  claim_number(3, 65536, "7 0");
  claim_number(3, 65537, "6 0");
  claim_number(3, 4294967295U, "6 0");
  claim_number(4, 0, "6 0");
  claim_number(4, 13, "7 0");
  claim_number(4, 14, "0 0");
  claim_number(4, 101, "6 0");
  claim_number(4, 4294967295U, "6 0");
}

// The order of the refusals, and the flow as the place.
void test_order() {
  about("order of refusals");
  Call call = call_of({3, 3, 2, 4, 1, 1}, {0, 8, 100, 12, 100, 0, 8, 100, 12, 13, 4, 4, 0, 0, 0});
  CLAIM_TEXT(of_searches(call), "7 1");
  call.flow_numbers[8] = 0;
  CLAIM_TEXT(of_searches(call), "6 1");
  call.flow_numbers[6] = 9;
  CLAIM_TEXT(of_searches(call), "5 1");
  call.flow_numbers = {0, 8, 100, 12, 100, 0, 8, 100, 12, 100, 4, 4, 0, 0, 0};
  CLAIM_TEXT(of_searches(call), "5 2");
  call.flow_numbers = {0, 8, 65536, 12, 65536, 0, 8, 65537, 12, 65537, 0, 8, 65537, 12, 13};
  CLAIM_TEXT(of_searches(call), "7 2");
  call.flow_numbers.push_back(0);
  CLAIM_TEXT(of_searches(call), "4 0");
  call.g = 0;
  CLAIM_TEXT(of_searches(call), "3 0");
  CLAIM_TEXT(of_check(call), "4 0");
  call.flit_bytes = 65;
  CLAIM_TEXT(of_searches(call), "2 0");
  CLAIM_TEXT(of_check(call), "2 0");
}

// Numbers 8, 9 and 10: hyper-periods that would wrap, the order of the three, and short tables.
void test_sums() {
  about("hyper-periods that wrap in 32 or 64 bits");
  CLAIM_EQUAL(oracle::hyper_period_of({65536, 65537}), 0);
  CLAIM_EQUAL(oracle::hyper_period_of({16777216, 16777215, 16777213, 16777199, 3}), 0);
  CLAIM_EQUAL(oracle::hyper_period_of({4096, 4097}), 0);
  CLAIM_EQUAL(oracle::hyper_period_of({16777216, 32768, 1}), 16777216);
  CLAIM_EQUAL(oracle::hyper_period_of({4, 6}), 12);
  about("8 before 9 before 10");
  Call call = call_of({2, 2, 1, 2, 1, 1}, {0, 1, 3, 1, 3, 2, 3, 16777216, 1, 3});
  call.table.clear();
  CLAIM_TEXT(of_searches(call), "8 0");
  call.flow_numbers[7] = 3072;
  CLAIM_TEXT(of_searches(call), "9 0");
  call.flow_numbers[7] = 3069;
  CLAIM_TEXT(of_searches(call), "10 0");
  CLAIM_TEXT(of_check(call), "10 0");
  about("tables one place short, and just long enough");
  call.table.assign(1023, 5);
  CLAIM_TEXT(of_searches(call), "10 0");
  CLAIM_TEXT(of_check(call), "10 0");
  call.table.assign(1024, 5);
  CLAIM_TEXT(of_searches(call), "0 0");
  CLAIM_TEXT(of_check(call), "11 0");
}

}  // namespace

void test_refusals() {
  test_frame();
  test_list();
  test_flow();
  test_order();
  test_sums();
}

}  // namespace oracle_tests
