// Models at the limits of document 01 and just past them, and models spoilt for a refusal.
#include <algorithm>

#include "generate.h"

namespace oracle {
namespace {

// A flow as its five numbers.
using Five = std::vector<u32>;

// A call of a mesh and settings without flows.
Call frame(u32 columns, u32 rows, u32 r, u32 flit_bytes, u32 f, u32 g) {
  Call call;
  call.columns = columns;
  call.rows = rows;
  call.r = r;
  call.flit_bytes = flit_bytes;
  call.f = f;
  call.g = g;
  return call;
}

// A call of a mesh with all else random, without flows; one number is drawn in one statement, to keep their order.
Call random_frame(Random& random, u32 columns, u32 rows) {
  Call call = frame(columns, rows, 0, 0, 0, 0);
  call.r = random.between(1, 64);
  call.flit_bytes = random.between(1, 64);
  call.f = random.between(1, 20);
  call.g = random.between(1, 4);
  return call;
}

// The call with a flow added.
Call with(Call call, const Five& flow) {
  call.flow_numbers.insert(call.flow_numbers.end(), flow.begin(), flow.end());
  return call;
}

// Two flows with the occupancy of T4 on paths that share no link, with two periods.
Call two_periods(Random& random, u32 first, u32 second) {
  const u32 f = random.pick({1, 2, 65536});
  const Call call = frame(2, 2, 1, 2, f, random.between(1, 16));
  return with(with(call, {0, 1, first, 1, first}), {2, 3, second, 1, second});
}

// So many small flows with one period on a mesh of any size.
Call many_flows(Random& random, u32 flows) {
  Call call = random_frame(random, random.between(2, 16), 0);
  call.rows = random.between(2, 16);
  call.r = 1;
  call.f = 1;
  const u32 nodes = call.columns * call.rows;
  for (u32 flow = 0; flow < flows; ++flow) {
    const u32 source = random.below(nodes);
    const u32 target = (source + 1 + random.below(nodes - 1)) % nodes;
    call = with(call, {source, target, 4096, random.between(1, 64), random.between(200, 4096)});
  }
  return call;
}

// Flows on one link that fill their windows, or lack one cycle, with 1,024 packets in all, searched with F = 1.
Call full_link(Random& random) {
  const u32 each = random.pick({16, 32, 64});
  const u32 flows = 1024 / each - 2;
  const u32 lack = random.below(2);
  Call call = frame(16, 16, 1, 2, 1, lack == 1 ? 1 : random.between(1, 4));
  for (u32 flow = 0; flow < flows; ++flow) call = with(call, {0, 1, (each + 1) * (each - 1), 1, 3 * flows - lack});
  call = with(call, {32, 47, each * (each - 1), 1, each * (each - 1)});
  return with(call, {64, 79, each * (each + 1), 1, each * (each + 1)});
}

// Periods whose least common multiple is far too great; some would wrap to a small one in 32 bits.
Call great_periods(Random& random) {
  if (random.once_in(3)) return two_periods(random, 65536, 65537);
  if (random.once_in(2)) return two_periods(random, 16777216, 16777215);
  Call many = frame(2, 2, 1, 2, 1, 1);
  const u32 flows = random.between(2, kMostFlows);
  for (u32 flow = 0; flow < flows; ++flow) {
    const u32 period = 16777216 - random.below(2000);
    many = with(many, {0, 1, period, 1, period});
  }
  return many;
}

// The longest path and packet that there are, three times over.
Call longest_path() {
  const Call call = frame(16, 16, 64, 1, 65536, 16);
  const Call two = with(with(call, {0, 255, kMostTime, 65536, kMostTime}), {255, 0, kMostTime, 65536, kMostTime});
  return with(two, {15, 240, kMostTime, 65536, 67521});
}

// A line of nodes, each sending to some other.
Call line_mesh(Random& random, u32 columns, u32 rows) {
  Call call = random_frame(random, columns, rows);
  call.r = random.between(1, 3);
  const u32 nodes = columns * rows;
  for (u32 flow = 0; flow < 6; ++flow) {
    const u32 source = random.below(nodes);
    const u32 target = (source + 1 + random.below(nodes - 1)) % nodes;
    call = with(call, {source, target, 240, random.between(1, 100), 240});
  }
  return call;
}

// One flow whose occupancy is its deadline, or one more.
Call tight_deadline(Random& random, u32 over) {
  const Call call = random_frame(random, 3, 3);
  const u32 size = random.between(1, 500);
  const u32 occupancy = occupancy_of(call.r, 4, size, call.flit_bytes);
  const Call two = with(call, {0, 8, occupancy + 10, size, occupancy - over});
  return with(two, {0, 8, occupancy + 10, size, occupancy});
}

// Sorts 10 to 19 of the models at a limit.
Call further_limit_model(Random& random, u32 sort) {
  const Call one = with(frame(2, 2, 6, 4, 16, 3), {0, 3, 608, 52, 608});
  Call call = one;
  const u32 past = random.below(2);
  if (sort == 10) return great_periods(random);
  if (sort == 11) return full_link(random);
  if (sort == 12) return tight_deadline(random, past);
  if (sort == 13) call.flow_numbers[2] = call.flow_numbers[4] = kMostTime + past;
  if (sort == 14) call.flow_numbers[4] = call.flow_numbers[2] + past;
  if (sort == 15) (random.once_in(2) ? call.columns : call.rows) = 16 + past;
  if (sort == 16) (random.once_in(2) ? call.r : call.flit_bytes) = 64 + past;
  if (sort == 17 && random.once_in(2)) {
    call.f = kMostPruning + past;
  } else if (sort == 17) {
    call.g = kMostThreshold + past;
  }
  if (sort == 18) {
    call.flow_numbers[2] = call.flow_numbers[4] = 20000;
    call.flow_numbers[3] = random.pick({65535, 65536, 65537, 1, 3, 4, 5, 0});
  }
  if (sort == 19) call.flow_numbers[random.below(2)] = 3 + past;
  return call;
}

}  // namespace

Call limit_model(Random& random, u32 sort) {
  if (sort == 0) return longest_path();
  if (sort == 1) return line_mesh(random, 1, 16);
  if (sort == 2) return line_mesh(random, 16, 1);
  if (sort == 3) return many_flows(random, 64);
  if (sort == 4) return many_flows(random, 65);
  if (sort == 5) return two_periods(random, 3, 3069);
  if (sort == 6) return two_periods(random, 3, 3072);
  if (sort == 7) return two_periods(random, 4096, 4097);
  if (sort == 8) return two_periods(random, 16777216, 32768);
  if (sort == 9) return two_periods(random, 16777216, 16384);
  return further_limit_model(random, sort);
}

}  // namespace oracle
