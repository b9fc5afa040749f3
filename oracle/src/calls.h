// The lines of calls, and the frames of texts, that the subcommands read and write.
#ifndef ORACLE_CALLS_H
#define ORACLE_CALLS_H

#include <string>

#include "model.h"

namespace oracle {

// The line of a call, with its line feed.
std::string write_call(const Call& call);

// Reads the line of a call, with or without its line feed; false if it has not the form.
bool read_call(const std::string& line, Call& call);

// The line of an answer and the table afterwards, with its line feed.
std::string write_result(const Answer& answer, const std::vector<u32>& table);

// A text in its frame: the count of its bytes on a line, then the bytes.
std::string write_frame(const std::string& text);

// Takes the frame at a place out of a row of frames and moves the place on; false if there is none of that form.
bool read_frame(const std::string& frames, std::size_t& place, std::string& text);

// The call of a text: the word text, a blank, then its frame; nothing if text and answer have more than so many bytes.
std::string write_text(const std::string& text, const std::string& answer, u64 most);

}  // namespace oracle

#endif
