// The figures of sources 000 and 004 that document 01 can express.
#include "check.h"
#include "replay.h"
#include "search.h"
#include "test.h"

namespace oracle_tests {
namespace {

// A flow of a source's table: its path as links, its occupancy, and the end of its search space.
struct Figure {
  const char* path;
  u32 occupancy;
  u32 latest;
};

// Claims the paths, occupancies and latest starts of a model with one packet for each flow.
void claim_figures(const Call& call, const std::vector<Figure>& figures) {
  oracle::Model model;
  CLAIM_EQUAL(oracle::make_model(call, model).number, 0);
  CLAIM_EQUAL(model.packets.size(), figures.size());
  for (std::size_t number = 0; number < model.packets.size() && number < figures.size(); ++number) {
    CLAIM_TEXT(places(model.flows[number].path), figures[number].path);
    CLAIM_EQUAL(model.packets[number].occupancy, figures[number].occupancy);
    CLAIM_EQUAL(oracle::latest_start(model.packets[number]), figures[number].latest);
  }
}

// Source 000, tables I and II: Synthetic-Application-D, deadline 55.
void test_synthetic_d() {
  // Only the second packet's 52 bytes are printed; the other sizes are ours and give the printed occupancies.
  // Table II shows 38 as the fifth latest start; document 01 has 32, and so has the product that the source prints.
  about("source 000, tables I and II");
  const Call call = call_of(
      {2, 2, 6, 4, 1, 3}, {0, 1, 55, 20, 55, 0, 3, 55, 52, 55, 2, 3, 55, 24, 55, 2, 1, 55, 32, 55, 3, 0, 55, 16, 55});
  claim_figures(call, {{"0 2 7", 18, 37},
                       {"0 2 10 19", 32, 23},
                       {"12 14 19", 19, 36},
                       {"12 14 23 7", 27, 28},
                       {"18 21 17 1", 23, 32}});
  oracle::Model model;
  oracle::make_model(call, model);
  u64 product = 1;
  for (const oracle::Packet& packet : model.packets) product *= oracle::latest_start(packet);
  CLAIM_EQUAL(product, 27449856);
}

// Source 004, table 5.1 and equation 5.1: Synthetic-flow-B, which is Case A.
void test_synthetic_b() {
  about("source 004, table 5.1 and equation 5.1");
  claim_figures(case_a(), {{"0 2 7", 160, 448},
                           {"0 2 10 19", 416, 192},
                           {"12 14 19", 192, 416},
                           {"12 14 23 7", 256, 352},
                           {"18 21 17 1", 128, 480}});
  about("source 004, table 5.2: the solver's table");
  const Call solved = check_of(case_a(), {416, 0, 416, 0, 256});
  CLAIM_ANSWER(oracle::check(solved), "0 0 0 608 5 0 0 0");
  for (const u64 n : {1U, 2U, 3U}) CLAIM_TEXT(oracle::faults_words(oracle::replay(solved, n)), "clean");
}

// Source 004, below table 5.2 and note C of table 6.4: which flows share which links, six in all.
void test_conflicts() {
  about("source 004, the conflicts of Synthetic-flow-B");
  oracle::Model model;
  CLAIM_EQUAL(oracle::make_model(case_a(), model).number, 0);
  std::string shared;
  for (std::size_t a = 0; a < model.flows.size(); ++a) {
    for (std::size_t b = a + 1; b < model.flows.size(); ++b) {
      for (const u32 link : model.flows[a].path) {
        if (!oracle::share_link({link}, model.flows[b].path)) continue;
        shared += std::to_string(a) + "-" + std::to_string(b) + ":" + std::to_string(link) + " ";
      }
    }
  }
  CLAIM_TEXT(shared, "0-1:0 0-1:2 0-3:7 1-2:19 2-3:12 2-3:14 ");
  about("source 004, equation 6.1 takes touching packets as colliding; document 01 does not");
  CLAIM(!oracle::overlap(0, 416, 416, 160));
}

// Source 004, section 5.3.2: one flow of period 10 in a hyper-period of 30 gives three packets.
void test_unwrapping() {
  about("source 004, flow unwrapping");
  oracle::Model model;
  CLAIM_EQUAL(oracle::make_model(call_of({2, 2, 1, 2, 1, 1}, {0, 1, 10, 1, 10, 2, 3, 30, 1, 30}), model).number, 0);
  CLAIM_EQUAL(model.hyper_period, 30);
  CLAIM_EQUAL(model.packets.size(), 4);
  for (u32 k = 0; k < 3; ++k) {
    CLAIM_EQUAL(model.packets.at(k).release, 10 * k);
    CLAIM_EQUAL(model.packets.at(k).deadline, 10 * k + 10);
  }
}

// Source 004, tables 6.2 and 6.3: CFAR at 500 MHz, in the thousands of cycles that table 6.3 reckons with.
void test_cfar() {
  about("source 004, tables 6.2 and 6.3");
  Call call =
      call_of({2, 2, 6, 4, 1, 1}, {2, 3, 33333, 6348, 33333, 3, 1, 33333, 4044, 33333, 1, 0, 33333, 4044, 33333});
  claim_figures(call, {{"12 14 19", 1600, 31733}, {"18 23 7", 1024, 32309}, {"6 9 1", 1024, 32309}});
  CLAIM_EQUAL(u64{31733} * 32309 * 32309 / 1000000000, 33125);
  CLAIM_ANSWER(oracle::search_quick(call), "0 0 0 33333 3 1 3 0");
}

// Source 004, table 5.3: paths and injection times of DCT-Verify on a mesh of 2 columns and 3 rows.
void test_dct() {
  // The first path is printed with a link 1-2 that no such mesh has; XY goes by 0-2.
  // Sizes and deadlines are not printed: with ours the packets that meet, 1 with 2 and 7 with 4, just touch.
  about("source 004, table 5.3");
  const Call call =
      call_of({2, 3, 6, 4, 1, 1}, {0,     2,     78607, 16332, 78607, 3,     2,     78607, 16332, 78607, 2,     4,
                                   78607, 16332, 78607, 4,     5,     78607, 16332, 78607, 5,     3,     78607, 16332,
                                   78607, 3,     1,     78607, 16332, 78607, 1,     5,     78607, 16308, 78607});
  claim_figures(call, {{"0 4 13", 4096, 74511},
                       {"18 21 13", 4096, 74511},
                       {"12 16 25", 4096, 74511},
                       {"24 26 31", 4096, 74511},
                       {"30 35 19", 4096, 74511},
                       {"18 23 7", 4096, 74511},
                       {"6 10 22 31", 4096, 74511}});
  const std::vector<u32> solved = {29154, 33250, 49425, 69568, 70415, 49425, 65472};
  CLAIM_ANSWER(oracle::check(check_of(call, solved)), "0 0 0 78607 7 0 0 0");
  std::vector<u32> moved = solved;
  moved[6] += 1;
  CLAIM_ANSWER(oracle::check(check_of(call, moved)), "12 3 6 0 0 0 0 0");
}

// Source 004, table 4.2: the hyper-periods of applications A to G, whatever the number of packets.
void test_hyper_periods() {
  about("source 004, table 4.2");
  CLAIM_EQUAL(oracle::hyper_period_of({90, 4, 21}), 1260);
  CLAIM_EQUAL(oracle::hyper_period_of({4, 14, 28, 10, 44}), 1540);
  CLAIM_EQUAL(oracle::hyper_period_of({10, 12, 16, 18, 20, 200}), 3600);
  CLAIM_EQUAL(oracle::hyper_period_of({90, 60, 105, 50, 150}), 6300);
  CLAIM_EQUAL(oracle::hyper_period_of({30, 35, 45, 100, 800}), 50400);
  CLAIM_EQUAL(oracle::hyper_period_of({24, 30, 7}), 840);
  CLAIM_EQUAL(oracle::hyper_period_of({64, 80, 20, 30, 60}), 960);
}

}  // namespace

void test_sources() {
  test_synthetic_d();
  test_synthetic_b();
  test_conflicts();
  test_unwrapping();
  test_cfar();
  test_dct();
  test_hyper_periods();
}

}  // namespace oracle_tests
