// What both searches begin and end with.
#include "search.h"

#include <algorithm>

namespace oracle {

std::vector<u32> least_slack_order(const Model& model) {
  std::vector<u32> order;
  for (u32 number = 0; number < model.packets.size(); ++number) order.push_back(number);
  std::stable_sort(order.begin(), order.end(), [&model](u32 a, u32 b) {
    const Flow& flow_a = model.flows[model.packets[a].flow];
    const Flow& flow_b = model.flows[model.packets[b].flow];
    return flow_a.deadline - flow_a.occupancy < flow_b.deadline - flow_b.occupancy;
  });
  return order;
}

Progress first_progress(const Model& model) {
  Progress progress;
  progress.list = least_slack_order(model);
  progress.fail_counts.assign(model.packets.size(), 0);
  progress.placed.assign(model.packets.size(), false);
  progress.times.assign(model.packets.size(), 0);
  return progress;
}

Answer finish_search(const Model& model, const Progress& progress, std::vector<u32>& table) {
  Answer answer;
  answer.hyper_period = model.hyper_period;
  answer.packets = static_cast<u32>(model.packets.size());
  answer.passes = progress.passes;
  answer.tries = progress.tries;
  for (u32 number = 0; number < answer.packets; ++number) {
    table[number] = progress.placed[number] ? progress.times[number] : kSkipped;
    if (progress.placed[number]) continue;
    if (answer.skipped == 0) answer.place = number;
    answer.skipped += 1;
    answer.number = 13;
  }
  return answer;
}

}  // namespace oracle
