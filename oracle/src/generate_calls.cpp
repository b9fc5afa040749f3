// Search calls and check calls of all sorts.
#include <algorithm>

#include "generate.h"
#include "search.h"

namespace oracle {
namespace {

// A number as may stand in a lent table before the call.
u32 junk(Random& random) {
  const u32 sort = random.below(4);
  if (sort == 0) return 0;
  if (sort == 1) return kSkipped;
  return sort == 2 ? random.below(10000) : static_cast<u32>(random.next() >> 32);
}

// Makes the lent table too short for the packets.
void shorten_table(Random& random, Call& call) {
  const u32 packets = packets_of(call);
  if (packets == 0) return;
  const u32 sort = random.below(3);
  const u32 places = sort == 0 ? packets - 1 : sort == 1 ? 0 : random.below(packets);
  call.table.resize(places);
}

// Spoils a model twice, so that the order of the refusals decides.
void spoil_twice(Random& random, Call& call) {
  const u32 first = random.between(2, 9);
  spoil(random, call, first);
  spoil(random, call, random.between(2, 9));
}

// The model of a search call by its sort.
Call search_model(Random& random, u32 sort, Work work) {
  if (sort < 16) return good_model(random, work);
  if (sort < 26) return contended_model(random, work, false);
  if (sort < 34) return contended_model(random, work, true);
  if (sort < 54) return limit_model(random, sort - 34);
  Call call = good_model(random, work);
  if (sort < 62) spoil(random, call, sort - 54 + 2);
  if (sort == 63) spoil_twice(random, call);
  return call;
}

// The model of a check call by its sort.
Call check_model(Random& random, u32 sort) {
  if (sort < 6) return good_model(random, Work::literal);
  if (sort < 10) return contended_model(random, Work::literal, false);
  if (sort < 13) return contended_model(random, Work::literal, true);
  if (sort < 33) return contended_model(random, Work::literal, false);
  if (sort < 41) return limit_model(random, random.below(kLimitSorts));
  Call call = good_model(random, Work::literal);
  if (sort < 48) spoil(random, call, sort == 41 ? 2 : sort - 42 + 4);
  if (sort == 49) spoil_twice(random, call);
  return call;
}

// A time just outside a packet's start range, or far outside.
u32 outside_range(Random& random, const Packet& packet) {
  const u32 sort = random.below(5);
  if (sort == 0) return packet.release - 1;
  if (sort == 1) return latest_start(packet) + 1;
  if (sort == 2) return kSkipped;
  if (sort == 3) return packet.release == 0 ? packet.deadline : 0;
  return kSkipped - random.below(70000);
}

// Moves a packet so that it just touches another one on its path, or meets it in one cycle.
void touch(Random& random, const Model& model, std::vector<u32>& table) {
  const u32 packets = static_cast<u32>(model.packets.size());
  for (u32 attempt = 0; attempt < 200; ++attempt) {
    const u32 a = random.below(packets);
    const u32 b = random.below(packets);
    const Packet& moved = model.packets[a];
    const Packet& there = model.packets[b];
    if (a == b || !share_link(model.flows[moved.flow].path, model.flows[there.flow].path)) continue;
    const u32 meet = random.below(2);
    const bool after = random.once_in(2);
    const u32 time = after ? table[b] + there.occupancy - meet : table[b] - moved.occupancy + meet;
    if (time < moved.release || time > latest_start(moved)) continue;
    table[a] = time;
    return;
  }
}

// Gives every packet a random time of its start range, or its release.
void spread(Random& random, const Model& model, std::vector<u32>& table, bool at_release) {
  for (u32 number = 0; number < model.packets.size(); ++number) {
    const Packet& packet = model.packets[number];
    table[number] = at_release ? packet.release : random.between(packet.release, latest_start(packet));
  }
}

// Edits a table by its sort; sorts below 13 and above 32 leave it as the search wrote it.
void edit_table(Random& random, u32 sort, const Model& model, std::vector<u32>& table) {
  const u32 packets = static_cast<u32>(model.packets.size());
  const u32 number = random.below(packets);
  if (sort >= 13 && sort < 19) table[number] += random.once_in(2) ? 1 : 4294967295U;
  if (sort >= 19 && sort < 22) table[number] = outside_range(random, model.packets[number]);
  if (sort >= 22 && sort < 26) touch(random, model, table);
  if (sort >= 26 && sort < 28) std::swap(table[number], table[random.below(packets)]);
  if (sort >= 28 && sort < 31) spread(random, model, table, false);
  if (sort == 31) spread(random, model, table, true);
  if (sort == 32) {
    for (u32 edit = random.between(2, 4); edit > 0; --edit) {
      edit_table(random, random.between(13, 27), model, table);
    }
  }
}

}  // namespace

void lend_table(Random& random, Call& call) {
  const u32 packets = packets_of(call);
  u32 places = packets + random.pick({0, 0, 1, 3, 40});
  if (packets == 0) places = random.pick({0, 1, 5, 40, 1024});
  call.table.clear();
  for (u32 place = 0; place < places; ++place) call.table.push_back(junk(random));
}

Call make_search(u64 seed, u64 index, Work work) {
  Random random(seed, 3 * index);
  const u32 sort = static_cast<u32>(index % kSearchSorts);
  Call call = search_model(random, sort, work);
  lend_table(random, call);
  if (sort == 62 || (sort == 63 && random.once_in(2))) shorten_table(random, call);
  return call;
}

Call make_check(u64 seed, u64 index) {
  Random random(seed, 3 * index + 1);
  const u32 sort = static_cast<u32>(index % kCheckSorts);
  Call call = check_model(random, sort);
  lend_table(random, call);
  search_quick(call);
  call.kind = Kind::check;
  call.f = 0;
  call.g = 0;
  Model model;
  if (make_model(call, model).number == 0) edit_table(random, sort, model, call.table);
  if (sort >= 48) shorten_table(random, call);
  return call;
}

}  // namespace oracle
