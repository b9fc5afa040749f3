// Texts of all sorts, most of them damaged.
#include "damage.h"
#include "generate.h"
#include "text.h"

namespace oracle {
namespace {

// Puts flow lines into a model until it has so many.
void fill_flows(Call& call, std::size_t flows) {
  const std::vector<u32> first(call.flow_numbers.begin(), call.flow_numbers.begin() + kFlowNumbers);
  while (call.flow_numbers.size() < flows * kFlowNumbers) {
    call.flow_numbers.insert(call.flow_numbers.end(), first.begin(), first.end());
  }
}

// A well formed text of just so many bytes; its many flow lines make it number 4 at the latest.
std::string text_of_bytes(Random& random, std::size_t bytes) {
  Call call = good_model(random, Work::literal);
  call.flow_numbers.resize(kFlowNumbers);
  std::string text = print_model(call);
  while (text.size() + 60 < bytes) text += "flow\t0\t1\t608\t588\t608\n";
  std::size_t digits = bytes - text.size() - 10;
  std::string line = "flow";
  for (std::size_t field = 5; field > 0; --field) {
    const std::size_t most = digits - (field - 1);
    const std::size_t taken = most < 10 ? most : 10;
    line += "\t" + std::string(taken, '1');
    digits -= taken;
  }
  return text + line + "\n";
}

// Texts at the limit of bytes and past it.
std::string sized_text(Random& random, u32 sort) {
  if (sort == 0) return text_of_bytes(random, kMostBytes);
  if (sort == 1) return text_of_bytes(random, kMostBytes + 1);
  if (sort == 2) return text_of_bytes(random, kMostBytes) + "\n";
  const std::size_t bytes = kMostBytes + random.below(2);
  return std::string(bytes, static_cast<char>(random.below(256)));
}

// Texts with no flow line, with more than 64, and with 65 and then a bad line.
std::string counted_text(Random& random, u32 sort) {
  Call call = good_model(random, Work::literal);
  if (random.once_in(4)) spoil(random, call, random.between(2, 3));
  if (sort == 0) call.flow_numbers.clear();
  if (sort > 0) fill_flows(call, random.once_in(2) ? 65 : random.between(65, 100));
  const std::string text = print_model(call);
  return sort < 2 ? text : text + "flow\t0\t1\t608\t588\n";
}

// A text of a good model, one in four times spoilt for a refusal as well.
std::string text_to_damage(Random& random) {
  Call call = random.once_in(3) ? contended_model(random, Work::literal, false) : good_model(random, Work::literal);
  if (random.once_in(4)) spoil(random, call, random.pick({2, 3, 5, 6, 7, 8, 9}));
  return print_model(call);
}

// The text of a model spoilt for a refusal; number 4 is no matter of whole flows in a text.
std::string spoilt_text(Random& random, u32 number) {
  Call call = good_model(random, Work::literal);
  spoil(random, call, number);
  if (random.once_in(4)) spoil(random, call, random.pick({2, 3, 5, 6, 7, 8, 9}));
  return print_model(call);
}

}  // namespace

std::string make_text(u64 seed, u64 index) {
  Random random(seed, 3 * index + 2);
  const u32 sort = static_cast<u32>(index % kTextSorts);
  if (sort < 10) return print_model(good_model(random, Work::literal));
  if (sort < 16) return print_model(contended_model(random, Work::literal, false));
  if (sort < 20) return print_model(contended_model(random, Work::literal, true));
  if (sort < 40) return print_model(limit_model(random, sort - 20));
  if (sort < 42) return spoilt_text(random, sort - 40 + 2);
  if (sort < 47) return spoilt_text(random, sort - 42 + 5);
  if (sort < 50) return counted_text(random, sort - 47);
  if (sort < 54) return sized_text(random, sort - 50);
  std::string text = text_to_damage(random);
  if (sort < 54 + kDamages) return damage(random, text, sort - 54);
  for (u32 edit = random.between(1, 3); edit > 0; --edit) text = change_byte(random, text);
  return text;
}

}  // namespace oracle
