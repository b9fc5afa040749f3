// The reader and the printer, line by line.
#include "text.h"

#include "search.h"

namespace oracle {
namespace {

// The fields of a line without its line feed, parted at each tab.
std::vector<std::string> fields_of(const std::string& line) {
  std::vector<std::string> fields(1);
  for (const char byte : line) {
    if (byte == '\t') {
      fields.emplace_back();
    } else {
      fields.back() += byte;
    }
  }
  return fields;
}

// Reads one number; false if its form is bad.
bool read_number(const std::string& field, u32& number) {
  if (field.empty() || field.size() > 10) return false;
  if (field.size() > 1 && field[0] == '0') return false;
  u64 value = 0;
  for (const char byte : field) {
    if (byte < '0' || byte > '9') return false;
    value = 10 * value + static_cast<u64>(byte - '0');
  }
  if (value > 4294967295U) return false;
  number = static_cast<u32>(value);
  return true;
}

// Reads a line that must be one word and a count of numbers; false if it is bad.
bool read_line(const std::string& line, const char* word, std::size_t count, std::vector<u32>& numbers) {
  const std::vector<std::string> fields = fields_of(line);
  if (fields[0] != word || fields.size() != count + 1) return false;
  for (std::size_t at = 1; at < fields.size(); ++at) {
    u32 number = 0;
    if (!read_number(fields[at], number)) return false;
    numbers.push_back(number);
  }
  return true;
}

// Reads one line of a text by its number, from 1; false if it is bad.
bool read_numbered(const std::string& line, u32 line_number, Call& call) {
  std::vector<u32> numbers;
  if (line_number == 1) {
    if (!read_line(line, "mesh", 4, numbers)) return false;
    call.columns = numbers[0];
    call.rows = numbers[1];
    call.r = numbers[2];
    call.flit_bytes = numbers[3];
    return true;
  }
  if (line_number == 2) {
    if (!read_line(line, "search", 2, numbers)) return false;
    call.f = numbers[0];
    call.g = numbers[1];
    return true;
  }
  return read_line(line, "flow", kFlowNumbers, call.flow_numbers);
}

// The answer to a malformed text.
Answer malformed(u32 line_number) {
  Answer answer;
  answer.number = 1;
  answer.place = line_number;
  return answer;
}

// Joins a word and numbers by tabs into a line.
std::string line_of(const char* word, const std::vector<u64>& numbers) {
  std::string line = word;
  for (const u64 number : numbers) line += "\t" + std::to_string(number);
  return line + "\n";
}

// The inject line of one packet.
std::string inject_line(const Packet& packet, u32 number, u32 time) {
  if (time != kSkipped) return line_of("inject", {number, packet.flow, packet.k, time});
  std::string line = line_of("inject", {number, packet.flow, packet.k});
  line.pop_back();
  return line + "\tnone\n";
}

}  // namespace

Answer read_text(const std::string& text, Call& call) {
  call = Call();
  if (text.size() > kMostBytes) return malformed(0);
  u32 line_number = 1;
  std::size_t begin = 0;
  while (begin < text.size()) {
    const std::size_t feed = text.find('\n', begin);
    if (feed == std::string::npos) return malformed(line_number);
    if (!read_numbered(text.substr(begin, feed - begin), line_number, call)) return malformed(line_number);
    begin = feed + 1;
    line_number += 1;
  }
  if (line_number <= 2) return malformed(line_number);
  return Answer();
}

std::string print_answer(const Call& call, const Answer& answer) {
  if (answer.number != 0 && answer.number != 13) return line_of("refuse", {answer.number, answer.place});
  Model model;
  make_model(call, model);
  std::string text = line_of("table", {answer.hyper_period, answer.packets});
  for (u32 number = 0; number < answer.packets; ++number) {
    text += inject_line(model.packets[number], number, call.table[number]);
  }
  return text + line_of("end", {answer.passes, answer.tries, answer.skipped});
}

std::string run_text(const std::string& text) {
  Call call;
  Answer answer = read_text(text, call);
  if (answer.number == 0) {
    call.table.assign(kMostPackets, 0);
    answer = search_quick(call);
  }
  return print_answer(call, answer);
}

std::string print_model(const Call& call) {
  std::string text = line_of("mesh", {call.columns, call.rows, call.r, call.flit_bytes});
  text += line_of("search", {call.f, call.g});
  const std::vector<u32>& numbers = call.flow_numbers;
  for (std::size_t at = 0; at + kFlowNumbers <= numbers.size(); at += kFlowNumbers) {
    text += line_of("flow", {numbers[at], numbers[at + 1], numbers[at + 2], numbers[at + 3], numbers[at + 4]});
  }
  return text;
}

}  // namespace oracle
