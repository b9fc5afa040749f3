// Reading and writing the lines of calls and the frames of texts.
#include "calls.h"

#include <algorithm>

namespace oracle {
namespace {

// Reads words and numbers from a line, parted by single blanks.
class Line {
 public:
  // A reader at the first byte of a line.
  explicit Line(const std::string& line) : text_(line) {}

  // The next word; empty if there is none.
  std::string word() {
    const std::size_t end = std::min(text_.find(' ', at_), text_.size());
    const std::string word = text_.substr(at_, end - at_);
    at_ = std::min(end + 1, text_.size());
    return word;
  }

  // The next number; notes a fault if it is no 32-bit number.
  u32 number() {
    const std::string digits = word();
    u64 value = 0;
    if (digits.empty() || digits.size() > 10) good_ = false;
    for (const char digit : digits.substr(0, 10)) {
      if (digit < '0' || digit > '9') good_ = false;
      value = 10 * value + (static_cast<unsigned char>(digit) & 15U);
    }
    if (value > 4294967295U) good_ = false;
    return static_cast<u32>(value);
  }

  // A count and then so many numbers.
  std::vector<u32> numbers() {
    std::vector<u32> values;
    const u32 count = number();
    for (u32 n = 0; n < count && good_; ++n) values.push_back(number());
    return values;
  }

  // True if all was well and nothing is left.
  bool done() const { return good_ && at_ == text_.size() && text_.back() != ' '; }

 private:
  const std::string text_;
  std::size_t at_ = 0;
  bool good_ = true;
};

// Adds a blank and a number to a line.
void add(std::string& line, u64 number) {
  line += ' ';
  line += std::to_string(number);
}

// Adds a count and so many numbers to a line.
void add(std::string& line, const std::vector<u32>& numbers) {
  add(line, numbers.size());
  for (const u32 number : numbers) add(line, number);
}

}  // namespace

std::string write_call(const Call& call) {
  std::string line = call.kind == Kind::search ? "search" : "check";
  for (const u32 number : {call.columns, call.rows, call.r, call.flit_bytes}) add(line, number);
  if (call.kind == Kind::search) {
    add(line, call.f);
    add(line, call.g);
  }
  add(line, call.flow_numbers);
  add(line, call.table);
  return line + "\n";
}

bool read_call(const std::string& text, Call& call) {
  Line line(!text.empty() && text.back() == '\n' ? text.substr(0, text.size() - 1) : text);
  call = Call();
  const std::string word = line.word();
  if (word != "search" && word != "check") return false;
  call.kind = word == "search" ? Kind::search : Kind::check;
  call.columns = line.number();
  call.rows = line.number();
  call.r = line.number();
  call.flit_bytes = line.number();
  if (call.kind == Kind::search) {
    call.f = line.number();
    call.g = line.number();
  }
  call.flow_numbers = line.numbers();
  call.table = line.numbers();
  return line.done();
}

std::string write_result(const Answer& answer, const std::vector<u32>& table) {
  std::string line = std::to_string(answer.number);
  for (const u64 field : {u64{answer.place}, u64{answer.other}, u64{answer.hyper_period}, u64{answer.packets},
                          u64{answer.passes}, answer.tries, u64{answer.skipped}}) {
    add(line, field);
  }
  add(line, table);
  return line + "\n";
}

std::string write_frame(const std::string& text) {
  return std::to_string(text.size()) + "\n" + text;
}

bool read_frame(const std::string& frames, std::size_t& place, std::string& text) {
  const std::size_t feed = frames.find('\n', place);
  if (feed == std::string::npos || feed == place || feed - place > 9) return false;
  std::size_t count = 0;
  for (std::size_t at = place; at < feed; ++at) {
    if (frames[at] < '0' || frames[at] > '9') return false;
    count = 10 * count + static_cast<std::size_t>(frames[at] - '0');
  }
  if (frames.size() - feed - 1 < count) return false;
  text = frames.substr(feed + 1, count);
  place = feed + 1 + count;
  return true;
}

std::string write_text(const std::string& text, const std::string& answer, u64 most) {
  return text.size() + answer.size() > most ? "" : "text " + write_frame(text);
}

}  // namespace oracle
