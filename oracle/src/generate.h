// Random calls and texts, the same for a seed on every machine.
#ifndef ORACLE_GENERATE_H
#define ORACLE_GENERATE_H

#include <string>

#include "model.h"
#include "random.h"

namespace oracle {

// How much work the searches of the made models may be: for a literal search, or for a quick one only.
enum class Work { literal, quick };

// A search call of a random model that is not refused, without a table.
Call good_model(Random& random, Work work);

// A good model whose search needs more than one pass, or skips packets; a good model of any sort if none is found.
Call contended_model(Random& random, Work work, bool skips);

// How many sorts of models at a limit, or just past one, there are.
constexpr u32 kLimitSorts = 20;

// A search call of a model at a limit, or just past one, without a table.
Call limit_model(Random& random, u32 sort);

// Spoils a model so that a refusal from 2 to 9 holds of it.
void spoil(Random& random, Call& call, u32 number);

// How many packets an admitted model has; 0 if it is refused.
u32 packets_of(const Call& call);

// Lends a table with junk: just long enough, or some places longer.
void lend_table(Random& random, Call& call);

// After so many cases the sorts of search calls begin anew.
constexpr u32 kSearchSorts = 64;

// A search call of a sort that follows from the index.
Call make_search(u64 seed, u64 index, Work work);

// After so many cases the sorts of check calls begin anew.
constexpr u32 kCheckSorts = 50;

// A check call of a sort that follows from the index.
Call make_check(u64 seed, u64 index);

// After so many cases the sorts of texts begin anew.
constexpr u32 kTextSorts = 96;

// A text of a sort that follows from the index.
std::string make_text(u64 seed, u64 index);

}  // namespace oracle

#endif
