// The refusals 2 to 10 in document 01's order, and the model of what is admitted.
#include "model.h"

namespace oracle {
namespace {

// An answer with a number and a place, all else 0.
Answer refuse(u32 number, u32 place) {
  Answer answer;
  answer.number = number;
  answer.place = place;
  return answer;
}

// True if a number lies from 1 to a limit, both included.
bool within(u32 value, u32 limit) {
  return value >= 1 && value <= limit;
}

// Refusals 2, 3 and 4, which look at no flow; 0 if none holds.
u32 refuse_frame(const Call& call) {
  if (!within(call.columns, kMostSide) || !within(call.rows, kMostSide)) return 2;
  if (!within(call.r, kMostRouting) || !within(call.flit_bytes, kMostRouting)) return 2;
  if (call.kind == Kind::search) {
    if (!within(call.f, kMostPruning) || !within(call.g, kMostThreshold)) return 3;
  }
  const std::size_t count = call.flow_numbers.size();
  if (count % kFlowNumbers != 0) return 4;
  if (count == 0 || count / kFlowNumbers > kMostFlows) return 4;
  return 0;
}

// The flow that begins at a place of the list of numbers, without path and occupancy.
Flow flow_at(const std::vector<u32>& numbers, std::size_t first) {
  Flow flow;
  flow.source = numbers[first];
  flow.target = numbers[first + 1];
  flow.period = numbers[first + 2];
  flow.size = numbers[first + 3];
  flow.deadline = numbers[first + 4];
  return flow;
}

// Refusals 5, 6 and 7 for one flow; fills its path and occupancy; 0 if none holds.
u32 refuse_flow(const Call& call, Flow& flow) {
  const u32 nodes = call.columns * call.rows;
  if (flow.source >= nodes || flow.target >= nodes || flow.source == flow.target) return 5;
  if (!within(flow.period, kMostTime) || !within(flow.size, kMostSize)) return 6;
  if (!within(flow.deadline, flow.period)) return 6;
  const u32 m = distance(call.columns, flow.source, flow.target);
  flow.occupancy = occupancy_of(call.r, m, flow.size, call.flit_bytes);
  if (flow.occupancy > flow.deadline) return 7;
  flow.path = path_links(call.columns, flow.source, flow.target);
  return 0;
}

// The number of packets of all flows in one hyper-period.
u64 count_packets(const Model& model) {
  u64 count = 0;
  for (const Flow& flow : model.flows) count += model.hyper_period / flow.period;
  return count;
}

// Makes the packets, flow after flow.
void make_packets(Model& model) {
  for (u32 number = 0; number < model.flows.size(); ++number) {
    const Flow& flow = model.flows[number];
    for (u32 k = 0; k < model.hyper_period / flow.period; ++k) {
      Packet packet;
      packet.flow = number;
      packet.k = k;
      packet.release = k * flow.period;
      packet.deadline = packet.release + flow.deadline;
      packet.occupancy = flow.occupancy;
      model.packets.push_back(packet);
    }
  }
}

}  // namespace

Answer make_model(const Call& call, Model& model) {
  model = Model();
  const u32 frame = refuse_frame(call);
  if (frame != 0) return refuse(frame, 0);
  std::vector<u32> periods;
  for (std::size_t first = 0; first < call.flow_numbers.size(); first += kFlowNumbers) {
    Flow flow = flow_at(call.flow_numbers, first);
    const u32 number = refuse_flow(call, flow);
    if (number != 0) return refuse(number, static_cast<u32>(first / kFlowNumbers));
    periods.push_back(flow.period);
    model.flows.push_back(flow);
  }
  model.hyper_period = hyper_period_of(periods);
  if (model.hyper_period == 0) return refuse(8, 0);
  const u64 packets = count_packets(model);
  if (packets > kMostPackets) return refuse(9, 0);
  if (call.table.size() < packets) return refuse(10, 0);
  make_packets(model);
  return Answer();
}

}  // namespace oracle
