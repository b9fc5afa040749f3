// The replay, by cycles and by stretches.
#include "replay.h"

#include <algorithm>
#include <map>
#include <utility>

namespace oracle {
namespace {

// One injected packet: its held cycles, its allowed cycles, and the period of its flow that it belongs to.
struct Injected {
  std::size_t flow = 0;
  u64 period_number = 0;
  u64 first_cycle = 0;
  u64 last_cycle = 0;
  u64 release = 0;
  u64 deadline = 0;
};

// The whole play: the links and period of each flow, and every packet of every hyper-period.
struct Play {
  std::vector<std::vector<u32>> links;
  std::vector<u64> periods;
  u64 end = 0;
  std::vector<Injected> injected;
};

// For every period of every flow the packets whose end its receiver saw there.
using Seen = std::map<std::pair<std::size_t, u64>, std::vector<u64>>;

// The links from node to node, found by looking at each column and row on the way.
std::vector<u32> links_between(u32 columns, u32 from, u32 to) {
  const u32 from_column = from % columns, from_row = from / columns;
  const u32 to_column = to % columns, to_row = to / columns;
  std::vector<u32> links = {from * 6, to * 6 + 1};
  for (u32 column = 0; column < columns; ++column) {
    const u32 node = from_row * columns + column;
    if (from_column <= column && column < to_column) links.push_back(node * 6 + 2);
    if (to_column < column && column <= from_column) links.push_back(node * 6 + 3);
  }
  for (u32 row = 0; row <= std::max(from_row, to_row); ++row) {
    const u32 node = row * columns + to_column;
    if (from_row <= row && row < to_row) links.push_back(node * 6 + 4);
    if (to_row < row && row <= from_row) links.push_back(node * 6 + 5);
  }
  return links;
}

// The first cycle above 0 at which all flows release together.
u64 common_release(const std::vector<u64>& periods) {
  const u64 longest = *std::max_element(periods.begin(), periods.end());
  u64 cycle = longest;
  while (std::any_of(periods.begin(), periods.end(), [cycle](u64 period) { return cycle % period != 0; })) {
    cycle += longest;
  }
  return cycle;
}

// Fills in the links and periods of the flows.
Play empty_play(const Call& call) {
  Play play;
  for (std::size_t at = 0; at < call.flow_numbers.size(); at += 5) {
    play.links.push_back(links_between(call.columns, call.flow_numbers[at], call.flow_numbers[at + 1]));
    play.periods.push_back(call.flow_numbers[at + 2]);
  }
  return play;
}

// Injects every packet in every hyper-period.
Play inject_all(const Call& call, u64 hyper_periods) {
  Play play = empty_play(call);
  const u64 h = common_release(play.periods);
  play.end = h * hyper_periods;
  for (u64 i = 0; i < hyper_periods; ++i) {
    std::size_t place = 0;
    for (std::size_t flow = 0; flow < play.periods.size(); ++flow) {
      const u64 routers = play.links[flow].size() - 1;
      const u64 flits = call.flow_numbers[flow * 5 + 3] / call.flit_bytes;
      for (u64 release = 0; release < h; release += play.periods[flow]) {
        Injected packet;
        packet.flow = flow;
        packet.release = i * h + release;
        packet.period_number = packet.release / play.periods[flow];
        packet.deadline = packet.release + call.flow_numbers[flow * 5 + 4];
        packet.first_cycle = i * h + call.table[place];
        packet.last_cycle = packet.first_cycle + call.r * routers + flits;
        play.injected.push_back(packet);
        place += 1;
      }
    }
  }
  return play;
}

// True if every receiver saw in every period the end of that period's packet and of no other of its flow.
bool receivers_content(const Play& play, const Seen& seen) {
  for (std::size_t flow = 0; flow < play.periods.size(); ++flow) {
    for (u64 k = 0; k < play.end / play.periods[flow]; ++k) {
      const Seen::const_iterator there = seen.find({flow, k});
      if (there == seen.end() || there->second != std::vector<u64>{k}) return false;
    }
  }
  return true;
}

// The first cycle after everything is over.
u64 over(const Play& play) {
  u64 cycle = play.end;
  for (const Injected& packet : play.injected) cycle = std::max(cycle, packet.last_cycle + 1);
  return cycle;
}

// Lets every packet hold its links in one cycle; a link's last cycle of being held shows a second holder.
void play_cycle(const Play& play, u64 cycle, std::vector<u64>& held, Seen& seen, Faults& faults) {
  for (const Injected& packet : play.injected) {
    if (cycle < packet.first_cycle || cycle > packet.last_cycle) continue;
    for (const u32 link : play.links[packet.flow]) {
      if (held[link] == cycle + 1) faults.collision = true;
      held[link] = cycle + 1;
    }
    if (cycle < packet.release) faults.early = true;
    if (cycle >= packet.deadline) faults.late = true;
    if (cycle == packet.last_cycle) {
      seen[{packet.flow, cycle / play.periods[packet.flow]}].push_back(packet.period_number);
    }
  }
}

// Plays cycle by cycle.
Faults play_cycles(const Play& play) {
  Faults faults;
  Seen seen;
  std::vector<u64> held(6 * 256, 0);
  const u64 stop = over(play);
  for (u64 cycle = 0; cycle < stop; ++cycle) play_cycle(play, cycle, held, seen, faults);
  faults.receiver = !receivers_content(play, seen);
  return faults;
}

// True if two of the stretches of one link, given by first and last cycle, have a common cycle.
bool any_meet(std::vector<std::pair<u64, u64>> stretches) {
  std::sort(stretches.begin(), stretches.end());
  for (std::size_t next = 1; next < stretches.size(); ++next) {
    if (stretches[next].first <= stretches[next - 1].second) return true;
  }
  return false;
}

// Plays by stretches.
Faults play_stretches(const Play& play) {
  Faults faults;
  Seen seen;
  std::vector<std::vector<std::pair<u64, u64>>> held(6 * 256);
  for (const Injected& packet : play.injected) {
    for (const u32 link : play.links[packet.flow]) held[link].push_back({packet.first_cycle, packet.last_cycle});
    if (packet.first_cycle < packet.release) faults.early = true;
    if (packet.last_cycle >= packet.deadline) faults.late = true;
    seen[{packet.flow, packet.last_cycle / play.periods[packet.flow]}].push_back(packet.period_number);
  }
  for (const std::vector<std::pair<u64, u64>>& stretches : held) {
    if (any_meet(stretches)) faults.collision = true;
  }
  faults.receiver = !receivers_content(play, seen);
  return faults;
}

}  // namespace

Faults replay_cycles(const Call& call, u64 hyper_periods) {
  return play_cycles(inject_all(call, hyper_periods));
}

Faults replay_stretches(const Call& call, u64 hyper_periods) {
  return play_stretches(inject_all(call, hyper_periods));
}

Faults replay(const Call& call, u64 hyper_periods) {
  const Play play = inject_all(call, hyper_periods);
  const u64 few = 2000000;
  const u64 packets = std::max<u64>(1, play.injected.size());
  return over(play) <= few / packets ? play_cycles(play) : play_stretches(play);
}

bool clean(const Faults& faults) {
  return !faults.collision && !faults.early && !faults.late && !faults.receiver;
}

bool same(const Faults& a, const Faults& b) {
  return a.collision == b.collision && a.early == b.early && a.late == b.late && a.receiver == b.receiver;
}

std::string faults_words(const Faults& faults) {
  if (clean(faults)) return "clean";
  std::string words = "faulty";
  if (faults.collision) words += " collision";
  if (faults.early) words += " early";
  if (faults.late) words += " late";
  if (faults.receiver) words += " receiver";
  return words;
}

}  // namespace oracle
