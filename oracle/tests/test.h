// The small means of the tests: claims that count and tell what failed, and helpers to make calls.
#ifndef ORACLE_TEST_H
#define ORACLE_TEST_H

#include <string>

#include "model.h"

namespace oracle_tests {

using oracle::Answer;
using oracle::Call;
using oracle::u32;
using oracle::u64;

// How much the random tests do, and where the models lie.
struct Setting {
  bool full = true;
  std::string models;
};

// The setting of this run.
Setting& setting();

// What the claims that follow are about; told when one fails.
void about(const std::string& what);

// Counts a claim and tells it if it does not hold.
void claim(bool holds, const char* words, const char* file, int line);

// Counts a claim that two numbers are equal and tells both if they are not.
void claim_equal(u64 found, u64 wanted, const char* words, const char* file, int line);

// Counts a claim that two texts are equal and tells both if they are not.
void claim_text(const std::string& found, const std::string& wanted, const char* words, const char* file, int line);

// Claims that a condition holds.
#define CLAIM(condition) oracle_tests::claim((condition), #condition, __FILE__, __LINE__)

// Claims that a number is the wanted one.
#define CLAIM_EQUAL(found, wanted) oracle_tests::claim_equal((found), (wanted), #found, __FILE__, __LINE__)

// Claims that a text is the wanted one.
#define CLAIM_TEXT(found, wanted) oracle_tests::claim_text((found), (wanted), #found, __FILE__, __LINE__)

// Claims all eight fields of an answer, in document 01's order.
#define CLAIM_ANSWER(found, ...) \
  oracle_tests::claim_text(oracle_tests::fields(found), __VA_ARGS__, #found, __FILE__, __LINE__)

// The eight fields of an answer with blanks between them.
std::string fields(const Answer& answer);

// The places of a table with blanks between them.
std::string places(const std::vector<u32>& table);

// A search call of a mesh and settings, with a table of 1,024 places of junk.
Call call_of(const std::vector<u32>& mesh_and_settings, const std::vector<u32>& flow_numbers);

// Case A of document 01.
Call case_a();

// The same call as a check of a table.
Call check_of(const Call& call, const std::vector<u32>& table);

// Document 01's marked examples.
void test_examples();

// The refusals 2 to 10.
void test_refusals();

// The check of a table.
void test_check();

// Both searches.
void test_search();

// The replay, and the check against it.
void test_replay();

// Text in and text out.
void test_text();

// The lines of calls and the frames of texts.
void test_calls();

// The figures of the sources.
void test_sources();

// The hard models.
void test_bench();

// The generator.
void test_generate();

}  // namespace oracle_tests

#endif
