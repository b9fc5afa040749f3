// The search literally: times, placed packets and links one by one.
#include <algorithm>

#include "search.h"

namespace oracle {
namespace {

// True if a packet at a time collides with any packet placed in this pass.
bool collides_with_placed(const Model& model, const Progress& progress, u32 number, u32 time) {
  const Packet& packet = model.packets[number];
  for (u32 other = 0; other < model.packets.size(); ++other) {
    if (!progress.placed[other]) continue;
    const Packet& there = model.packets[other];
    for (const u32 link : model.flows[packet.flow].path) {
      for (const u32 link_there : model.flows[there.flow].path) {
        if (link != link_there) continue;
        if (overlap(time, packet.occupancy, progress.times[other], there.occupancy)) return true;
      }
    }
  }
  return false;
}

// Tries release, release + F and so on; takes the first time that collides with nothing.
bool place(const Model& model, u32 f, u32 number, Progress& progress) {
  const Packet& packet = model.packets[number];
  for (u64 time = packet.release; time <= latest_start(packet); time += f) {
    progress.tries += 1;
    if (collides_with_placed(model, progress, number, static_cast<u32>(time))) continue;
    progress.placed[number] = true;
    progress.times[number] = static_cast<u32>(time);
    return true;
  }
  return false;
}

// One pass; false if a packet moved to the front and a new pass must begin.
bool run_pass(const Model& model, const Call& call, Progress& progress) {
  progress.passes += 1;
  std::fill(progress.placed.begin(), progress.placed.end(), false);
  std::size_t next = 0;
  while (next < progress.list.size()) {
    const u32 number = progress.list[next];
    if (place(model, call.f, number, progress)) {
      next += 1;
      continue;
    }
    progress.fail_counts[number] += 1;
    progress.list.erase(progress.list.begin() + static_cast<std::ptrdiff_t>(next));
    if (progress.fail_counts[number] < call.g) {
      progress.list.insert(progress.list.begin(), number);
      return false;
    }
  }
  return true;
}

}  // namespace

Answer search_literal(Call& call) {
  Call lent = call;
  lent.kind = Kind::search;
  Model model;
  const Answer refusal = make_model(lent, model);
  if (refusal.number != 0) return refusal;
  Progress progress = first_progress(model);
  while (!run_pass(model, call, progress)) {
  }
  return finish_search(model, progress, call.table);
}

}  // namespace oracle
