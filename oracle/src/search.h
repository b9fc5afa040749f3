// The two searches: one literally as defined, one quick.
#ifndef ORACLE_SEARCH_H
#define ORACLE_SEARCH_H

#include "model.h"

namespace oracle {

// The search as document 01 words it; writes the lent table of the call on 0 and 13.
Answer search_literal(Call& call);

// The same search by jumps over busy cycles; writes the lent table of the call on 0 and 13.
Answer search_quick(Call& call);

// The packet numbers in order of least slack, equal slack by number.
std::vector<u32> least_slack_order(const Model& model);

// The state that both searches carry over their passes.
struct Progress {
  std::vector<u32> list;
  std::vector<u32> fail_counts;
  std::vector<bool> placed;
  std::vector<u32> times;
  u32 passes = 0;
  u64 tries = 0;
};

// The state before the first pass.
Progress first_progress(const Model& model);

// Writes the table and gives the answer when a pass ran to the end of its list.
Answer finish_search(const Model& model, const Progress& progress, std::vector<u32>& table);

}  // namespace oracle

#endif
