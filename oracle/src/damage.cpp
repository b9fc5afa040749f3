// Damage to a field, to a line, and to the lines as a whole.
#include "damage.h"

namespace oracle {
namespace {

// Lines without their line feeds.
using Lines = std::vector<std::string>;

// The lines of a well formed text.
Lines lines_of(const std::string& text) {
  Lines lines;
  std::size_t begin = 0;
  while (begin < text.size()) {
    const std::size_t feed = text.find('\n', begin);
    lines.push_back(text.substr(begin, feed - begin));
    begin = feed + 1;
  }
  return lines;
}

// The text of lines, each with its line feed.
std::string text_of(const Lines& lines) {
  std::string text;
  for (const std::string& line : lines) text += line + "\n";
  return text;
}

// One of some words.
std::string pick_word(Random& random, const Lines& words) {
  return words[random.below(words.size())];
}

// Where a random number of a line begins; every line has one.
std::size_t number_place(Random& random, const std::string& line) {
  u32 skip = random.below(2);
  std::size_t place = line.find('\t');
  while (skip-- > 0) {
    const std::size_t next = line.find('\t', place + 1);
    if (next != std::string::npos) place = next;
  }
  return place + 1;
}

// A line with one number replaced by a word.
std::string replace_number(Random& random, const std::string& line, const std::string& word) {
  const std::size_t begin = number_place(random, line);
  const std::size_t end = line.find('\t', begin);
  return line.substr(0, begin) + word + (end == std::string::npos ? "" : line.substr(end));
}

// A line with its first word replaced.
std::string replace_word(const std::string& line, const std::string& word) {
  return word + line.substr(line.find('\t'));
}

// A line with a byte put in at a random place.
std::string put_in(Random& random, std::string line, char byte) {
  line.insert(random.below(line.size() + 1), 1, byte);
  return line;
}

// Sorts 0 to 9: damage to the words, fields and tabs of a line.
std::string damage_fields(Random& random, const std::string& line, u32 sort) {
  const std::size_t begin = number_place(random, line);
  if (sort == 0) return replace_word(line, pick_word(random, {"mash", "flows", "", "table", "find", "mesh ", "sea"}));
  if (sort == 1) return replace_word(line, pick_word(random, {"Mesh", "SEARCH", "Flow", "FLOW", "floW"}));
  if (sort == 2) return line.substr(0, line.rfind('\t'));
  if (sort == 3) return line + "\t" + std::to_string(random.below(100));
  if (sort == 4) return line.substr(0, begin) + "\t" + line.substr(begin);
  if (sort == 5) return line + "\t";
  if (sort == 6) return "\t" + line;
  if (sort == 7) return line.substr(0, begin - 1) + " " + line.substr(begin);
  if (sort == 8) return random.once_in(2) ? line + " " : put_in(random, line, ' ');
  return line + "\r";
}

// Sorts 10 to 21: damage to the bytes and numbers of a line.
std::string damage_number(Random& random, const std::string& line, u32 sort) {
  const std::size_t begin = number_place(random, line);
  if (sort == 10) return put_in(random, line, '\0');
  if (sort == 11) return line.substr(0, begin) + "0" + line.substr(begin);
  if (sort == 12) return replace_number(random, line, pick_word(random, {"00", "000", "0000000000", "0000000001"}));
  if (sort == 13)
    return replace_number(random, line, pick_word(random, {"10000000000", "00000000001", "99999999999"}));
  if (sort == 14) return replace_number(random, line, pick_word(random, {"4294967296", "9999999999", "4294967300"}));
  if (sort == 15) return replace_number(random, line, pick_word(random, {"-1", "+1", "-0", "+"}));
  if (sort == 16)
    return replace_number(random, line, pick_word(random, {"1x", "0x10", "a", "1e3", "1.5", "1,000", "none"}));
  if (sort == 17) return put_in(random, line, static_cast<char>(random.between(128, 255)));
  if (sort == 18)
    return line.substr(0, begin - 1) + pick_word(random, {"\v", "\f", "\t ", " \t", ","}) + line.substr(begin);
  if (sort == 19) return replace_number(random, line, "18446744073709551616");
  if (sort == 20) return line + pick_word(random, {"\t0\t0", "\t608\t0", "\tx", " # note"});
  return line.substr(0, random.below(line.size()));
}

// Sorts 22 to 31: lines put in, left out, swapped or doubled.
void damage_lines(Random& random, Lines& lines, u32 sort) {
  const std::size_t at = random.below(lines.size() + 1);
  const auto here = lines.begin() + static_cast<std::ptrdiff_t>(at);
  if (sort == 22) lines.insert(here, "");
  if (sort == 23) lines.push_back("");
  if (sort == 24) std::swap(lines[0], lines[1]);
  if (sort == 25) lines.erase(lines.begin() + 1);
  if (sort == 26) lines.erase(lines.begin());
  if (sort == 27) lines.insert(here, lines[random.below(2)]);
  if (sort == 28)
    lines.insert(here, pick_word(random, {"clocks\t1\t2", "clocks", "slot\t1", "slot\t16", "busy", "starts"}));
  if (sort == 29)
    lines.insert(here, pick_word(random, {"table\t608\t5", "start\t0\t0\t0", "inject\t0\t0\t0\t0", "end\t1\t1\t0"}));
  if (sort == 30)
    lines.insert(here, pick_word(random, {"# note", "refuse\t1\t1", "flow", "mesh", "search", "\t", " ", "\r"}));
  if (sort == 31) lines.back() += "\t0";
}

// Sorts 32 to 37: damage to the text as a whole.
std::string damage_whole(Random& random, const std::string& text, u32 sort) {
  const Lines lines = lines_of(text);
  if (sort == 32) return text.substr(0, text.size() - 1);
  if (sort == 33) return random.once_in(2) ? "" : "\n";
  if (sort == 34) return lines[0] + "\n";
  if (sort == 35) return random.once_in(2) ? lines[0] : lines[0] + "\n" + lines[1];
  if (sort == 36) return text.substr(0, random.below(text.size()));
  return text + pick_word(random, {"\n", "\n\n", " ", "\t", "x", "\xEF\xBB\xBF", "flow", "\r\n"});
}

}  // namespace

std::string damage(Random& random, const std::string& text, u32 sort) {
  if (sort >= 32) return damage_whole(random, text, sort);
  Lines lines = lines_of(text);
  if (sort >= 22) {
    damage_lines(random, lines, sort);
    return text_of(lines);
  }
  for (u32 count = random.once_in(4) ? 2 : 1; count > 0; --count) {
    std::string& line = lines[random.below(lines.size())];
    if (line.find('\t') == std::string::npos) continue;
    line = sort < 10 ? damage_fields(random, line, sort) : damage_number(random, line, sort);
  }
  return text_of(lines);
}

std::string change_byte(Random& random, const std::string& text) {
  if (text.empty()) return text;
  std::string changed = text;
  const std::size_t at = random.below(changed.size());
  const char byte = "\t\n 0123456789aflowmesh\r"[random.below(23)];
  const u32 sort = random.below(4);
  if (sort == 0) changed.erase(at, 1);
  if (sort == 1) changed.insert(at, 1, byte);
  if (sort == 2) changed[at] = byte;
  if (sort == 3) changed.insert(at, 1, changed[at]);
  return changed;
}

}  // namespace oracle
