// A small source of numbers that is the same on every machine.
#ifndef ORACLE_RANDOM_H
#define ORACLE_RANDOM_H

#include <initializer_list>

#include "model.h"

namespace oracle {

// Numbers that follow from a seed and the index of a case.
class Random {
 public:
  // A source for one case of one seed.
  Random(u64 seed, u64 index) : state_(seed * 0x9E3779B97F4A7C15U + index * 0xD1B54A32D192ED03U) {}

  // The next 64 bits.
  u64 next() {
    state_ += 0x9E3779B97F4A7C15U;
    u64 mixed = state_;
    mixed = (mixed ^ (mixed >> 30)) * 0xBF58476D1CE4E5B9U;
    mixed = (mixed ^ (mixed >> 27)) * 0x94D049BB133111EBU;
    return mixed ^ (mixed >> 31);
  }

  // A number below a bound, which is not 0.
  u32 below(u64 bound) { return static_cast<u32>(next() % bound); }

  // A number from low to high, both included.
  u32 between(u32 low, u32 high) { return low + below(u64{high} - low + 1); }

  // True once in so many times.
  bool once_in(u32 times) { return below(times) == 0; }

  // One of some numbers.
  u32 pick(std::initializer_list<u32> numbers) { return numbers.begin()[below(numbers.size())]; }

 private:
  u64 state_;
};

}  // namespace oracle

#endif
