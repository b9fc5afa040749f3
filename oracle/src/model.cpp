// The mesh, its paths, and the numbers that follow from the flows.
#include "model.h"

namespace oracle {
namespace {

// The link kinds that a path uses, by document 01's table.
enum LinkKind : u32 { kIn = 0, kOut = 1, kNextColumn = 2, kColumnBefore = 3, kNextRow = 4, kRowBefore = 5 };

// The number of a link from its node and kind.
u32 link_number(u32 node, u32 kind) {
  return 6 * node + kind;
}

// The greater of two numbers less the smaller one.
u32 apart(u32 a, u32 b) {
  return a > b ? a - b : b - a;
}

// The greatest common divisor.
u64 common_divisor(u64 a, u64 b) {
  while (b != 0) {
    const u64 rest = a % b;
    a = b;
    b = rest;
  }
  return a;
}

}  // namespace

std::vector<u32> path_links(u32 columns, u32 source, u32 target) {
  std::vector<u32> links;
  u32 node = source;
  links.push_back(link_number(node, kIn));
  while (node % columns < target % columns) {
    links.push_back(link_number(node, kNextColumn));
    node += 1;
  }
  while (node % columns > target % columns) {
    links.push_back(link_number(node, kColumnBefore));
    node -= 1;
  }
  while (node < target) {
    links.push_back(link_number(node, kNextRow));
    node += columns;
  }
  while (node > target) {
    links.push_back(link_number(node, kRowBefore));
    node -= columns;
  }
  links.push_back(link_number(node, kOut));
  return links;
}

u32 distance(u32 columns, u32 source, u32 target) {
  return apart(source % columns, target % columns) + apart(source / columns, target / columns);
}

u32 occupancy_of(u32 r, u32 m, u32 size, u32 flit_bytes) {
  return r * (m + 1) + size / flit_bytes + 1;
}

u32 hyper_period_of(const std::vector<u32>& periods) {
  u64 multiple = 1;
  for (const u32 period : periods) {
    multiple = multiple / common_divisor(multiple, period) * period;
    if (multiple > kMostTime) return 0;
  }
  return static_cast<u32>(multiple);
}

u32 latest_start(const Packet& packet) {
  return packet.deadline - packet.occupancy;
}

bool overlap(u64 start_a, u64 length_a, u64 start_b, u64 length_b) {
  return start_a < start_b + length_b && start_b < start_a + length_a;
}

bool share_link(const std::vector<u32>& path_a, const std::vector<u32>& path_b) {
  for (const u32 link_a : path_a) {
    for (const u32 link_b : path_b) {
      if (link_a == link_b) return true;
    }
  }
  return false;
}

bool same(const Answer& a, const Answer& b) {
  return a.number == b.number && a.place == b.place && a.other == b.other && a.hyper_period == b.hyper_period &&
         a.packets == b.packets && a.passes == b.passes && a.tries == b.tries && a.skipped == b.skipped;
}

}  // namespace oracle
