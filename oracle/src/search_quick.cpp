// The search by jumps: each set of flows that meet on a link keeps its busy stretches, sorted and joined.
#include <algorithm>

#include "search.h"

namespace oracle {
namespace {

// A stretch of busy cycles, from start up to and without end.
struct Stretch {
  u64 start = 0;
  u64 end = 0;
};

// What one set of flows that meet on a link holds in this pass: stretches that neither meet nor touch.
using Busy = std::vector<Stretch>;

// The meeting places of a model, and for each flow those at which it meets others.
struct Meetings {
  std::vector<Busy> busy;
  std::vector<std::vector<u32>> of_flow;
};

// For every link the set of flows on it, one bit for each flow.
std::vector<u64> flows_on_links(const Model& model) {
  std::vector<u64> sets(6 * kMostSide * kMostSide, 0);
  for (std::size_t flow = 0; flow < model.flows.size(); ++flow) {
    for (const u32 link : model.flows[flow].path) sets[link] |= u64{1} << flow;
  }
  return sets;
}

// The sets of two and more flows that lie in no other set: packets of one flow never collide with each other.
std::vector<u64> greatest_sets(std::vector<u64> sets) {
  std::sort(sets.begin(), sets.end());
  sets.erase(std::unique(sets.begin(), sets.end()), sets.end());
  std::vector<u64> kept;
  for (const u64 set : sets) {
    bool needed = (set & (set - 1)) != 0;
    for (const u64 wider : sets) {
      if (wider != set && (set & ~wider) == 0) needed = false;
    }
    if (needed) kept.push_back(set);
  }
  return kept;
}

// The meeting places of a model, all free.
Meetings find_meetings(const Model& model) {
  Meetings meetings;
  meetings.of_flow.resize(model.flows.size());
  for (const u64 set : greatest_sets(flows_on_links(model))) {
    for (std::size_t flow = 0; flow < model.flows.size(); ++flow) {
      if ((set >> flow & 1) != 0) meetings.of_flow[flow].push_back(static_cast<u32>(meetings.busy.size()));
    }
    meetings.busy.emplace_back();
  }
  return meetings;
}

// The first stretch that ends after a time.
Busy::iterator first_ending_after(Busy& busy, u64 time) {
  return std::upper_bound(busy.begin(), busy.end(), time,
                          [](u64 at, const Stretch& there) { return at < there.end; });
}

// Adds a free stretch and joins it with the neighbours that it touches.
void hold(Busy& busy, u64 start, u64 end) {
  const Busy::iterator after = first_ending_after(busy, start);
  const bool joins_after = after != busy.end() && after->start == end;
  const bool joins_before = after != busy.begin() && (after - 1)->end == start;
  if (joins_before && joins_after) {
    (after - 1)->end = after->end;
    busy.erase(after);
  } else if (joins_before) {
    (after - 1)->end = end;
  } else if (joins_after) {
    after->start = start;
  } else {
    busy.insert(after, Stretch{start, end});
  }
}

// The end of a stretch in the way of a packet at a time, or 0 if there is none.
u64 end_of_block(Meetings& meetings, u32 flow, u64 time, u64 occupancy) {
  for (const u32 meeting : meetings.of_flow[flow]) {
    Busy& busy = meetings.busy[meeting];
    const Busy::iterator there = first_ending_after(busy, time);
    if (there != busy.end() && there->start < time + occupancy) return there->end;
  }
  return 0;
}

// Finds the first good time by jumps; every time jumped over counts as tried.
bool place(const Packet& packet, u64 f, u32 number, Meetings& meetings, Progress& progress) {
  const u64 latest = latest_start(packet);
  u64 time = packet.release;
  while (true) {
    const u64 end = end_of_block(meetings, packet.flow, time, packet.occupancy);
    if (end == 0) break;
    time += (end - time + f - 1) / f * f;
    if (time > latest) {
      progress.tries += (latest - packet.release) / f + 1;
      return false;
    }
  }
  progress.tries += (time - packet.release) / f + 1;
  for (const u32 meeting : meetings.of_flow[packet.flow]) {
    hold(meetings.busy[meeting], time, time + packet.occupancy);
  }
  progress.placed[number] = true;
  progress.times[number] = static_cast<u32>(time);
  return true;
}

// One pass; false if a packet moved to the front and a new pass must begin.
bool run_pass(const Model& model, const Call& call, Meetings& meetings, Progress& progress) {
  progress.passes += 1;
  std::fill(progress.placed.begin(), progress.placed.end(), false);
  for (Busy& busy : meetings.busy) busy.clear();
  std::vector<u32>& list = progress.list;
  for (std::size_t next = 0; next < list.size();) {
    const u32 number = list[next];
    if (place(model.packets[number], call.f, number, meetings, progress)) {
      next += 1;
      continue;
    }
    const std::vector<u32>::iterator here = list.begin() + static_cast<std::ptrdiff_t>(next);
    progress.fail_counts[number] += 1;
    if (progress.fail_counts[number] < call.g) {
      std::rotate(list.begin(), here, here + 1);
      return false;
    }
    list.erase(here);
  }
  return true;
}

}  // namespace

Answer search_quick(Call& call) {
  Call lent = call;
  lent.kind = Kind::search;
  Model model;
  const Answer refusal = make_model(lent, model);
  if (refusal.number != 0) return refusal;
  Meetings meetings = find_meetings(model);
  Progress progress = first_progress(model);
  while (!run_pass(model, call, meetings, progress)) {
  }
  return finish_search(model, progress, call.table);
}

}  // namespace oracle
