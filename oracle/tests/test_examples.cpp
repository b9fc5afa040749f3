// The marked examples of document 01, T1 to T12 and those without a T.
#include "check.h"
#include "search.h"
#include "test.h"

namespace oracle_tests {
namespace {

// T1 and T2: paths.
void test_paths() {
  about("T1 T2");
  CLAIM_TEXT(places(oracle::path_links(2, 0, 3)), "0 2 10 19");
  CLAIM_TEXT(places(oracle::path_links(2, 3, 0)), "18 21 17 1");
  about("path lengths and the longest path");
  CLAIM_EQUAL(oracle::path_links(16, 0, 255).size(), 32);
  CLAIM_EQUAL(oracle::path_links(16, 255, 0).size(), 32);
  CLAIM_EQUAL(oracle::path_links(16, 240, 15).size(), 32);
  CLAIM_TEXT(places(oracle::path_links(1, 2, 0)), "12 17 11 1");
  CLAIM_TEXT(places(oracle::path_links(3, 0, 2)), "0 2 8 13");
  CLAIM_TEXT(places(oracle::path_links(3, 2, 6)), "12 15 9 4 22 37");
}

// T3 and T4: occupancy.
void test_occupancy() {
  about("T3 T4");
  CLAIM_EQUAL(oracle::occupancy_of(6, 2, 52, 4), 32);
  CLAIM_EQUAL(oracle::occupancy_of(1, 1, 1, 2), 3);
  CLAIM_EQUAL(oracle::distance(2, 0, 3), 2);
  CLAIM_EQUAL(oracle::distance(16, 15, 240), 30);
  CLAIM_EQUAL(oracle::occupancy_of(64, 30, 65536, 1), 67521);
}

// T5: hyper-period and packets; T6: the latest start.
void test_packets() {
  about("T5");
  oracle::Model model;
  const Call call = call_of({2, 2, 1, 2, 1, 1}, {0, 1, 4, 1, 4, 2, 3, 6, 1, 6});
  CLAIM_EQUAL(oracle::make_model(call, model).number, 0);
  CLAIM_EQUAL(model.hyper_period, 12);
  std::string shown;
  for (const oracle::Packet& packet : model.packets) {
    shown += std::to_string(packet.flow) + ":" + std::to_string(packet.k) + "@" + std::to_string(packet.release) +
             "-" + std::to_string(packet.deadline) + " ";
  }
  CLAIM_TEXT(shown, "0:0@0-4 0:1@4-8 0:2@8-12 1:0@0-6 1:1@6-12 ");
  about("T6");
  oracle::Packet packet;
  packet.deadline = 55;
  packet.occupancy = 23;
  CLAIM_EQUAL(oracle::latest_start(packet), 32);
}

// T7 and T8: touching packets do not collide.
void test_overlap() {
  about("T7 T8");
  CLAIM(!oracle::overlap(0, 416, 416, 192));
  CLAIM(oracle::overlap(0, 416, 415, 192));
  CLAIM(!oracle::overlap(416, 192, 0, 416));
  CLAIM(oracle::overlap(415, 192, 0, 416));
  CLAIM(oracle::overlap(10, 1, 0, 416));
}

// T9 and T10: the searches of Case A, by both searches.
void test_case_a() {
  for (Answer (*search)(Call&) : {oracle::search_literal, oracle::search_quick}) {
    about("T9");
    Call call = case_a();
    CLAIM_ANSWER(search(call), "0 0 0 608 5 1 57 0");
    CLAIM_TEXT(places({call.table.begin(), call.table.begin() + 6}), "416 0 416 0 0 777");
    about("T10");
    call = case_a();
    call.f = 10;
    call.g = 2;
    CLAIM_ANSWER(search(call), "13 2 0 608 5 3 153 1");
    CLAIM_TEXT(places({call.table.begin(), call.table.begin() + 6}), "420 0 4294967295 0 0 777");
    CLAIM_EQUAL(call.table.size(), 1024);
    CLAIM_EQUAL(call.table.back(), 777);
  }
}

// T11 and T12: checks of Case A's table.
void test_case_a_table() {
  about("Case A's own table, T11, T12");
  CLAIM_ANSWER(oracle::check(check_of(case_a(), {416, 0, 416, 0, 0})), "0 0 0 608 5 0 0 0");
  CLAIM_ANSWER(oracle::check(check_of(case_a(), {416, 0, 417, 0, 0})), "11 2 0 0 0 0 0 0");
  CLAIM_ANSWER(oracle::check(check_of(case_a(), {416, 0, 415, 0, 0})), "12 1 2 0 0 0 0 0");
}

// Two flows with the occupancy of T4 on paths that share no link.
Call two_periods(u32 first, u32 second) {
  return call_of({2, 2, 1, 2, 1, 1}, {0, 1, first, 1, first, 2, 3, second, 1, second});
}

// The examples without a T: hyper-periods and packets at their limits.
void test_unnumbered() {
  about("periods at the limits");
  for (Answer (*search)(Call&) : {oracle::search_literal, oracle::search_quick}) {
    Call call = two_periods(4096, 4097);
    CLAIM_ANSWER(search(call), "8 0 0 0 0 0 0 0");
    call = two_periods(3, 3072);
    CLAIM_ANSWER(search(call), "9 0 0 0 0 0 0 0");
    CLAIM_EQUAL(call.table[0], 777);
    call = two_periods(3, 3069);
    CLAIM_ANSWER(search(call), "0 0 0 3069 1024 1 1024 0");
    CLAIM_EQUAL(call.table[1022], 3066);
    CLAIM_EQUAL(call.table[1023], 0);
    CLAIM_ANSWER(oracle::check(call), "0 0 0 3069 1024 0 0 0");
  }
}

}  // namespace

void test_examples() {
  test_paths();
  test_occupancy();
  test_packets();
  test_overlap();
  test_case_a();
  test_case_a_table();
  test_unnumbered();
}

}  // namespace oracle_tests
