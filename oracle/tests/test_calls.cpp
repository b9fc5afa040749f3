// The lines of calls and the frames of texts.
#include "calls.h"
#include "generate.h"
#include "test.h"

namespace oracle_tests {
namespace {

// Lines that are read and written back, and lines that are refused.
void test_lines() {
  about("lines of calls");
  for (const char* line : {"search 2 2 6 4 16 3 5 0 1 608 588 608 2 7 4294967295\n", "check 2 2 6 4 0 0\n",
                           "check 0 17 4294967295 0 3 1 2 3 1 0\n", "search 0 0 0 0 0 0 0 0\n"}) {
    Call call;
    CLAIM(oracle::read_call(line, call));
    CLAIM_TEXT(oracle::write_call(call), line);
  }
  for (const char* line : {"", "search", "find 2 2 6 4 16 3 0 0", "check 2 2 6 4 0", "check 2 2 6 4 1 0",
                           "check 2 2 6 4 0 0 ", "check 2 2 6 4 0 0 0", "check 2  2 6 4 0 0",
                           "check 2 2 6 4294967296 0 0", "check 2 2 6 x 0 0", "check 2 2 6 10000000000 0 0"}) {
    Call call;
    about(std::string("bad line: ") + line);
    CLAIM(!oracle::read_call(line, call));
  }
  about("line of an answer");
  Answer answer;
  answer.number = 13;
  answer.tries = 753443347056;
  CLAIM_TEXT(oracle::write_result(answer, {4, 4294967295U}), "13 0 0 0 0 0 753443347056 0 2 4 4294967295\n");
}

// Frames one after the other, and bad frames.
void test_frames() {
  about("frames");
  const std::string frames = oracle::write_frame("a\n3\n") + oracle::write_frame("") + oracle::write_frame("1");
  CLAIM_TEXT(frames, "4\na\n3\n0\n1\n1");
  std::size_t place = 0;
  std::string text;
  CLAIM(oracle::read_frame(frames, place, text));
  CLAIM_TEXT(text, "a\n3\n");
  CLAIM(oracle::read_frame(frames, place, text));
  CLAIM_TEXT(text, "");
  CLAIM(oracle::read_frame(frames, place, text));
  CLAIM_TEXT(text, "1");
  CLAIM_EQUAL(place, frames.size());
  for (const char* bad : {"", "\n", "x\n", "2\na", "5", "1234567890\n"}) {
    about(std::string("bad frame: ") + bad);
    place = 0;
    CLAIM(!oracle::read_frame(bad, place, text));
  }
}

// The call of a text, and a limit that text and answer just keep or just pass.
void test_texts() {
  about("texts");
  CLAIM_TEXT(oracle::write_text("a\n3", "none\n", 8), "text 3\na\n3");
  CLAIM_TEXT(oracle::write_text("", "none\n", 5), "text 0\n");
  CLAIM_TEXT(oracle::write_text("a\n3", "none\n", 7), "");
}

}  // namespace

void test_calls() {
  test_lines();
  test_frames();
  test_texts();
}

}  // namespace oracle_tests
