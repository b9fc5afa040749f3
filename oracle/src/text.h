// Text in and text out.
#ifndef ORACLE_TEXT_H
#define ORACLE_TEXT_H

#include <string>

#include "model.h"

namespace oracle {

// The most bytes of a text.
constexpr std::size_t kMostBytes = 8192;

// Reads a text into a search call without a table; the answer is 0, or 1 with the first bad line.
Answer read_text(const std::string& text, Call& call);

// Prints what the program prints for an answer of a search and its table.
std::string print_answer(const Call& call, const Answer& answer);

// The program: reads a text, searches, prints.
std::string run_text(const std::string& text);

// The text of a search call; its list must be whole flows.
std::string print_model(const Call& call);

}  // namespace oracle

#endif
