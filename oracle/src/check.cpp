// The check: the refusals, then 11 for all packets, then 12.
#include "check.h"

namespace oracle {
namespace {

// Finds the lowest packet whose time is outside its start range.
bool find_out_of_range(const Model& model, const std::vector<u32>& table, Answer& answer) {
  for (u32 number = 0; number < model.packets.size(); ++number) {
    const Packet& packet = model.packets[number];
    if (table[number] < packet.release || table[number] > latest_start(packet)) {
      answer.number = 11;
      answer.place = number;
      return true;
    }
  }
  return false;
}

// True if two packets of a table collide.
bool collide(const Model& model, const std::vector<u32>& table, u32 a, u32 b) {
  const Packet& packet_a = model.packets[a];
  const Packet& packet_b = model.packets[b];
  return overlap(table[a], packet_a.occupancy, table[b], packet_b.occupancy) &&
         share_link(model.flows[packet_a.flow].path, model.flows[packet_b.flow].path);
}

// Finds the lowest packet that collides with a higher one, and the lowest such other.
bool find_collision(const Model& model, const std::vector<u32>& table, Answer& answer) {
  const u32 packets = static_cast<u32>(model.packets.size());
  for (u32 a = 0; a < packets; ++a) {
    for (u32 b = a + 1; b < packets; ++b) {
      if (collide(model, table, a, b)) {
        answer.number = 12;
        answer.place = a;
        answer.other = b;
        return true;
      }
    }
  }
  return false;
}

}  // namespace

Answer check(const Call& call) {
  Call lent = call;
  lent.kind = Kind::check;
  Model model;
  Answer answer = make_model(lent, model);
  if (answer.number != 0) return answer;
  if (find_out_of_range(model, call.table, answer)) return answer;
  if (find_collision(model, call.table, answer)) return answer;
  answer.hyper_period = model.hyper_period;
  answer.packets = static_cast<u32>(model.packets.size());
  return answer;
}

}  // namespace oracle
