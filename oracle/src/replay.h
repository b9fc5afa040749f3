// The replay of a table over hyper-periods; it derives all from the raw numbers and shares nothing with the check.
#ifndef ORACLE_REPLAY_H
#define ORACLE_REPLAY_H

#include <string>

#include "model.h"

namespace oracle {

// What went wrong in a replay.
struct Faults {
  // Two packets held one link in one cycle.
  bool collision = false;
  // A packet held a link before its release.
  bool early = false;
  // A packet held a link at or after its deadline.
  bool late = false;
  // A receiver did not see, in some period, the end of just that period's packet.
  bool receiver = false;
};

// Replays an admitted call over some hyper-periods, cycle by cycle.
Faults replay_cycles(const Call& call, u64 hyper_periods);

// Replays an admitted call over some hyper-periods by stretches of cycles.
Faults replay_stretches(const Call& call, u64 hyper_periods);

// Replays by cycles where these are few, and else by stretches.
Faults replay(const Call& call, u64 hyper_periods);

// True if nothing went wrong.
bool clean(const Faults& faults);

// True if two replays agree in all four faults.
bool same(const Faults& a, const Faults& b);

// The word clean, or the word faulty and the words of the faults.
std::string faults_words(const Faults& faults);

}  // namespace oracle

#endif
