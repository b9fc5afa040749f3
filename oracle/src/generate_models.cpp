// Random models that are not refused.
#include <algorithm>

#include "generate.h"
#include "search.h"

namespace oracle {
namespace {

// The most work of a literal search: tries times packets.
constexpr u64 kLiteralWork = 20000000;

// The most work of a quick search: passes times packets.
constexpr u64 kQuickWork = 2000000;

// How often a wanted sort of model is sought.
constexpr u32 kSeek = 80;

// Puts a random mesh of two and more nodes into a call.
void random_mesh(Random& random, Call& call) {
  const bool wide = random.once_in(4);
  do {
    call.columns = wide ? random.between(1, 16) : random.between(1, 4);
    call.rows = wide ? random.between(1, 16) : random.between(1, 4);
  } while (call.columns * call.rows < 2);
  call.r = random.once_in(8) ? random.between(1, 64) : random.between(1, 8);
  call.flit_bytes = random.once_in(8) ? random.between(1, 64) : random.between(1, 8);
}

// Puts random settings into a call.
void random_settings(Random& random, Call& call) {
  call.f = random.pick({1, 1, 1, 2, 3, 5, 7, 10, 16, 40, 100, 1000, 4000});
  if (random.once_in(10)) call.f = random.between(1, kMostPruning);
  call.g = random.once_in(4) ? random.between(1, 16) : random.between(1, 5);
}

// A period that divides a common one and is not below a least one; 0 if there is none.
u32 random_period(Random& random, u32 common, u32 least) {
  for (u32 attempt = 0; attempt < 6; ++attempt) {
    const u32 parts = random.pick({1, 1, 2, 2, 3, 4, 5, 6, 8, 10, 12, 15, 16, 20, 30, 64, 128, 256, 512});
    if (common % parts == 0 && common / parts >= least) return common / parts;
  }
  return common >= least ? common : 0;
}

// Adds a random flow between nodes below a bound; false if the common period is too short for it.
bool random_flow(Random& random, Call& call, u32 common, u32 nodes, u32 share) {
  const u32 source = random.below(nodes);
  const u32 target = (source + 1 + random.below(nodes - 1)) % nodes;
  const u32 m = distance(call.columns, source, target);
  const u32 least = occupancy_of(call.r, m, 1, call.flit_bytes);
  const u32 period = random_period(random, common, least);
  if (period == 0) return false;
  const u32 wanted = std::max(period / share, least) - least;
  const u64 bytes = u64{wanted} * call.flit_bytes + random.below(call.flit_bytes);
  const u32 size = static_cast<u32>(std::max<u64>(1, std::min<u64>(bytes, kMostSize)));
  const u32 occupancy = occupancy_of(call.r, m, size, call.flit_bytes);
  u32 deadline = period;
  if (random.once_in(3)) deadline = random.between(occupancy, period);
  if (random.once_in(16)) deadline = occupancy;
  call.flow_numbers.insert(call.flow_numbers.end(), {source, target, period, size, deadline});
  return true;
}

// One random model, perhaps refused; a tight one has few nodes and long packets.
Call random_model(Random& random, bool tight) {
  Call call;
  random_mesh(random, call);
  random_settings(random, call);
  const u32 common = random.pick(
      {12, 24, 60, 120, 240, 360, 720, 1000, 2520, 5040, 10080, 65536, 100000, 720720, 1000000, 16776960, 16777216});
  const u32 all = call.columns * call.rows;
  const u32 nodes = tight || random.once_in(2) ? std::min(all, random.between(2, 4)) : all;
  u32 flows = tight ? random.between(2, 12) : random.between(1, 8);
  if (random.once_in(6)) flows = random.between(1, kMostFlows);
  const u32 share = tight ? random.between(2, 6) : random.between(2, 40);
  const bool repeat = random.once_in(5);
  for (u32 flow = 0; flow < flows; ++flow) {
    if (repeat && flow > 0) {
      const std::vector<u32> first(call.flow_numbers.begin(), call.flow_numbers.begin() + kFlowNumbers);
      call.flow_numbers.insert(call.flow_numbers.end(), first.begin(), first.end());
    } else if (!random_flow(random, call, common, nodes, share)) {
      call.flow_numbers.clear();
      return call;
    }
  }
  return call;
}

// The answer of the search of a model, with a table that is long enough.
Answer searched(Call call) {
  call.table.assign(kMostPackets, 0);
  return search_quick(call);
}

// True if a search has an end that is worth its work.
bool affordable(const Answer& answer, Work work) {
  if (answer.number != 0 && answer.number != 13) return false;
  if (u64{answer.passes} * answer.packets > kQuickWork) return false;
  return work == Work::quick || answer.tries * answer.packets <= kLiteralWork;
}

// Case A of document 01, for when nothing else is found.
Call case_a() {
  Call call;
  call.columns = 2;
  call.rows = 2;
  call.r = 6;
  call.flit_bytes = 4;
  call.f = 16;
  call.g = 3;
  call.flow_numbers = {0,   1,   608, 588, 608, 0,   3,   608, 1588, 608, 2,   3,  608,
                       716, 608, 2,   1,   608, 948, 608, 3,   0,    608, 436, 608};
  return call;
}

// An affordable model, tight or not, and its answer.
Call affordable_model(Random& random, Work work, bool tight, Answer& answer) {
  for (u32 attempt = 0; attempt < kSeek; ++attempt) {
    Call call = random_model(random, tight);
    const u32 packets = packets_of(call);
    if (packets == 0) continue;
    if (packets > 100 && work == Work::literal && !random.once_in(8)) continue;
    if (packets > 200) call.g = std::min<u32>(call.g, 2);
    answer = searched(call);
    if (affordable(answer, work)) return call;
  }
  const Call call = case_a();
  answer = searched(call);
  return call;
}

}  // namespace

u32 packets_of(const Call& call) {
  Call lent = call;
  lent.table.assign(kMostPackets, 0);
  Model model;
  return make_model(lent, model).number == 0 ? static_cast<u32>(model.packets.size()) : 0;
}

Call good_model(Random& random, Work work) {
  Answer answer;
  return affordable_model(random, work, false, answer);
}

Call contended_model(Random& random, Work work, bool skips) {
  for (u32 attempt = 0; attempt < kSeek; ++attempt) {
    Answer answer;
    const Call call = affordable_model(random, work, true, answer);
    if (skips ? answer.number == 13 : answer.number == 0 && answer.passes > 1) return call;
  }
  return good_model(random, work);
}

}  // namespace oracle
