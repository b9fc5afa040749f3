// Spoils a model so that a refusal holds of it.
#include <algorithm>

#include "generate.h"

namespace oracle {
namespace {

// A value outside 1 to a limit.
u32 outside(Random& random, u32 limit) {
  const u32 sort = random.below(4);
  if (sort == 0) return 0;
  if (sort == 1) return limit + 1;
  if (sort == 2) return 4294967295U;
  return random.between(limit + 1, 4294967295U);
}

// The first number of a random flow of the list; the list has at least one flow.
u32* random_flow_numbers(Random& random, Call& call) {
  const std::size_t flows = call.flow_numbers.size() / kFlowNumbers;
  return call.flow_numbers.data() + random.below(flows) * kFlowNumbers;
}

// Spoils the mesh for number 2.
void spoil_mesh(Random& random, Call& call) {
  const u32 field = random.below(4);
  if (field == 0) call.columns = outside(random, kMostSide);
  if (field == 1) call.rows = outside(random, kMostSide);
  if (field == 2) call.r = outside(random, kMostRouting);
  if (field == 3) call.flit_bytes = outside(random, kMostRouting);
}

// Spoils the list of numbers for number 4: empty, not whole flows, or too many flows.
void spoil_list(Random& random, Call& call) {
  std::vector<u32>& numbers = call.flow_numbers;
  const u32 sort = random.below(4);
  if (sort == 0) numbers.clear();
  if (sort == 1) numbers.resize(numbers.size() - random.between(1, 4));
  if (sort == 2) numbers.resize(numbers.size() + random.between(1, 4), 1);
  if (sort == 3) {
    const std::vector<u32> first(numbers.begin(), numbers.begin() + kFlowNumbers);
    const std::size_t flows = random.once_in(2) ? 65 : random.between(66, 140);
    while (numbers.size() < flows * kFlowNumbers) numbers.insert(numbers.end(), first.begin(), first.end());
    if (random.once_in(4)) numbers.resize(64 * kFlowNumbers + random.between(1, 4));
  }
}

// Spoils source or target of a flow for number 5.
void spoil_nodes(Random& random, Call& call) {
  u32* flow = random_flow_numbers(random, call);
  const u32 nodes = call.columns * call.rows;
  const u32 end = random.below(2);
  const u32 sort = random.below(4);
  if (sort == 0) flow[end] = nodes;
  if (sort == 1) flow[end] = 4294967295U;
  if (sort == 2) flow[end] = nodes + random.below(1000);
  if (sort == 3) flow[end] = flow[1 - end];
}

// Spoils period, size or deadline of a flow for number 6.
void spoil_times(Random& random, Call& call) {
  u32* flow = random_flow_numbers(random, call);
  const u32 sort = random.below(4);
  if (sort == 0) flow[2] = outside(random, kMostTime);
  if (sort == 1) flow[3] = outside(random, kMostSize);
  if (sort == 2) flow[4] = outside(random, flow[2]);
  if (sort == 3) flow[4] = flow[2] + 1;
}

// Shortens the deadline of a flow below its occupancy for number 7.
void spoil_deadline(Random& random, Call& call) {
  u32* flow = random_flow_numbers(random, call);
  const u32 m = distance(std::max<u32>(1, call.columns), flow[0], flow[1]);
  const u32 occupancy = occupancy_of(call.r, m, flow[3], std::max<u32>(1, call.flit_bytes));
  flow[4] = random.once_in(2) || occupancy < 3 ? occupancy - 1 : random.between(1, occupancy - 1);
}

// Gives two flows small packets and two periods, in a random order of the two.
void set_periods(Random& random, Call& call, u32 first, u32 second) {
  std::vector<u32>& numbers = call.flow_numbers;
  if (numbers.size() == kFlowNumbers) {
    const std::vector<u32> only = numbers;
    numbers.insert(numbers.end(), only.begin(), only.end());
  }
  u32* last = numbers.data() + numbers.size() - kFlowNumbers;
  if (random.once_in(2)) std::swap(first, second);
  numbers[2] = numbers[4] = first;
  last[2] = last[4] = second;
  numbers[3] = last[3] = 1;
}

// Gives two flows periods for number 8.
void spoil_hyper_period(Random& random, Call& call) {
  const u32 sort = random.below(4);
  if (sort == 0) set_periods(random, call, 4096, 4097);
  if (sort == 1) set_periods(random, call, 65536, 65537);
  if (sort == 2) set_periods(random, call, 16777216, 16777215);
  if (sort == 3) set_periods(random, call, 16777213, 16777199 - random.below(3));
}

// Leaves two flows whose packets are too many, for number 9.
void spoil_packets(Random& random, Call& call) {
  call.flow_numbers.resize(kFlowNumbers);
  const u32 longest = std::max<u32>(3, occupancy_of(call.r, 30, 1, std::max<u32>(1, call.flit_bytes)));
  set_periods(random, call, longest, longest * (1024 + (random.once_in(2) ? 0 : random.below(1000))));
}

}  // namespace

void spoil(Random& random, Call& call, u32 number) {
  if (number == 2) spoil_mesh(random, call);
  if (number == 3 && random.once_in(2)) {
    call.f = outside(random, kMostPruning);
  } else if (number == 3) {
    call.g = outside(random, kMostThreshold);
  }
  if (call.flow_numbers.size() < kFlowNumbers) return;
  if (number == 4) spoil_list(random, call);
  if (number == 5) spoil_nodes(random, call);
  if (number == 6) spoil_times(random, call);
  if (number == 7) spoil_deadline(random, call);
  if (number == 8) spoil_hyper_period(random, call);
  if (number == 9) spoil_packets(random, call);
}

}  // namespace oracle
