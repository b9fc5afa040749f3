// Damage to well formed texts.
#ifndef ORACLE_DAMAGE_H
#define ORACLE_DAMAGE_H

#include <string>

#include "random.h"

namespace oracle {

// How many sorts of damage there are.
constexpr u32 kDamages = 38;

// A text with one sort of damage.
std::string damage(Random& random, const std::string& text, u32 sort);

// A text with one byte changed, left out or put in.
std::string change_byte(Random& random, const std::string& text);

}  // namespace oracle

#endif
