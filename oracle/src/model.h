// The model of document 01: mesh, links, paths, occupancy, packets, hyper-period and the refusals 2 to 10.
#ifndef ORACLE_MODEL_H
#define ORACLE_MODEL_H

#include <cstddef>
#include <cstdint>
#include <vector>

namespace oracle {

// A 32-bit number as it is lent, of any value.
using u32 = std::uint32_t;

// A wide number for sums, products and the count of tries.
using u64 = std::uint64_t;

// The most columns, and the most rows.
constexpr u32 kMostSide = 16;

// The greatest r, and the greatest flit width in bytes.
constexpr u32 kMostRouting = 64;

// The greatest pruning factor F.
constexpr u32 kMostPruning = 65536;

// The greatest threshold G.
constexpr u32 kMostThreshold = 16;

// The most flows.
constexpr u32 kMostFlows = 64;

// How many numbers make one flow.
constexpr u32 kFlowNumbers = 5;

// The greatest period and the greatest hyper-period.
constexpr u32 kMostTime = 16777216;

// The greatest size in bytes.
constexpr u32 kMostSize = 65536;

// The most packets.
constexpr u32 kMostPackets = 1024;

// What the place of a skipped packet holds.
constexpr u32 kSkipped = 4294967295U;

// The two calls of the library.
enum class Kind { search, check };

// Everything that is lent to one call; a check does not read F and G.
struct Call {
  Kind kind = Kind::search;
  u32 columns = 0;
  u32 rows = 0;
  u32 r = 0;
  u32 flit_bytes = 0;
  u32 f = 0;
  u32 g = 0;
  std::vector<u32> flow_numbers;
  std::vector<u32> table;
};

// The eight fields of an answer.
struct Answer {
  u32 number = 0;
  u32 place = 0;
  u32 other = 0;
  u32 hyper_period = 0;
  u32 packets = 0;
  u32 passes = 0;
  u64 tries = 0;
  u32 skipped = 0;
};

// One flow, with its path and occupancy.
struct Flow {
  u32 source = 0;
  u32 target = 0;
  u32 period = 0;
  u32 size = 0;
  u32 deadline = 0;
  u32 occupancy = 0;
  std::vector<u32> path;
};

// One packet of the hyper-period; its deadline is counted from cycle 0.
struct Packet {
  u32 flow = 0;
  u32 k = 0;
  u32 release = 0;
  u32 deadline = 0;
  u32 occupancy = 0;
};

// An admitted model.
struct Model {
  u32 hyper_period = 0;
  std::vector<Flow> flows;
  std::vector<Packet> packets;
};

// The links of the XY path from source to target, in order.
std::vector<u32> path_links(u32 columns, u32 source, u32 target);

// The distance of two nodes: columns apart plus rows apart.
u32 distance(u32 columns, u32 source, u32 target);

// The cycles for which a packet holds its links.
u32 occupancy_of(u32 r, u32 m, u32 size, u32 flit_bytes);

// The least common multiple of all periods, or 0 if it is above the limit.
u32 hyper_period_of(const std::vector<u32>& periods);

// The last time at which a packet may start.
u32 latest_start(const Packet& packet);

// True if two stretches of cycles, each a start and a length, have a common cycle.
bool overlap(u64 start_a, u64 length_a, u64 start_b, u64 length_b);

// True if two paths have a common link.
bool share_link(const std::vector<u32>& path_a, const std::vector<u32>& path_b);

// Makes the model of a call, or gives the first of the refusals 2 to 10; number 0 means admitted.
Answer make_model(const Call& call, Model& model);

// True if two answers agree in all eight fields.
bool same(const Answer& a, const Answer& b);

}  // namespace oracle

#endif
