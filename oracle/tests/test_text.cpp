// The reader and the printer: Case A, every sort of bad line, and the limits of bytes and lines.
#include "generate.h"
#include "test.h"
#include "text.h"

namespace oracle_tests {
namespace {

// The first two lines of Case A.
const char* const kHead = "mesh\t2\t2\t6\t4\nsearch\t16\t3\n";

// The flow lines of Case A.
const char* const kFlows =
    "flow\t0\t1\t608\t588\t608\nflow\t0\t3\t608\t1588\t608\nflow\t2\t3\t608\t716\t608\n"
    "flow\t2\t1\t608\t948\t608\nflow\t3\t0\t608\t436\t608\n";

// One good flow line.
const char* const kFlow = "flow\t0\t1\t608\t588\t608\n";

// A text of Case A's head and some copies of one flow line.
std::string flows(std::size_t count) {
  std::string text = kHead;
  while (count-- > 0) text += kFlow;
  return text;
}

// Case A in and out, and with a skipped packet.
void test_case_a() {
  about("Case A");
  const std::string head = kHead;
  CLAIM_TEXT(oracle::run_text(head + kFlows),
             "table\t608\t5\ninject\t0\t0\t0\t416\ninject\t1\t1\t0\t0\ninject\t2\t2\t0\t416\n"
             "inject\t3\t3\t0\t0\ninject\t4\t4\t0\t0\nend\t1\t57\t0\n");
  about("T10 as a text");
  CLAIM_TEXT(oracle::run_text(std::string("mesh\t2\t2\t6\t4\nsearch\t10\t2\n") + kFlows),
             "table\t608\t5\ninject\t0\t0\t0\t420\ninject\t1\t1\t0\t0\ninject\t2\t2\t0\tnone\n"
             "inject\t3\t3\t0\t0\ninject\t4\t4\t0\t0\nend\t3\t153\t1\n");
  about("k in the inject lines");
  CLAIM_TEXT(oracle::run_text("mesh\t2\t2\t1\t2\nsearch\t1\t1\nflow\t0\t1\t4\t1\t4\nflow\t2\t3\t6\t1\t6\n"),
             "table\t12\t5\ninject\t0\t0\t0\t0\ninject\t1\t0\t1\t4\ninject\t2\t0\t2\t8\n"
             "inject\t3\t1\t0\t0\ninject\t4\t1\t1\t6\nend\t1\t5\t0\n");
}

// Texts whose first line is bad.
const char* const kBadFirst[] = {"",
                                 "\n",
                                 "mesh",
                                 "mesh\t2\t2\t6\t4",
                                 "mesh\n",
                                 "mesh\t2\t2\t6\n",
                                 "mesh\t2\t2\t6\t4\t5\n",
                                 "search\t16\t3\n",
                                 "flow\t0\t1\t608\t588\t608\n",
                                 "table\t608\t5\n",
                                 "clocks\t1\n",
                                 "mesh 2\t2\t6\t4\n",
                                 "Mesh\t2\t2\t6\t4\n",
                                 "MESH\t2\t2\t6\t4\n",
                                 " mesh\t2\t2\t6\t4\n",
                                 "mesh\t2\t2\t6\t4\r\n",
                                 "mesh\t2\t2\t6\t4\t\n",
                                 "mesh\t\t2\t6\t4\n",
                                 "mesh\t2\t2\t\t4\n",
                                 "mesh\t2\t2\t6\t\n",
                                 "\tmesh\t2\t2\t6\t4\n",
                                 "mesh\t02\t2\t6\t4\n",
                                 "mesh\t2\t2\t6\t00\n",
                                 "mesh\t2\t2\t6\t-4\n",
                                 "mesh\t2\t2\t+6\t4\n",
                                 "mesh\t2\t2\t6\t4x\n",
                                 "mesh\t2\t2\t6\t4 \n",
                                 "mesh\t4294967296\t2\t6\t4\n",
                                 "mesh\t10000000000\t2\t6\t4\n",
                                 "mesh\t9999999999\t2\t6\t4\n",
                                 "meshes\t2\t2\t6\t4\n",
                                 "mes\t2\t2\t6\t4\n",
                                 "\xEF\xBB\xBFmesh\t2\t2\t6\t4\n"};

// Bad lines that are the first line of a text, or good ones with no line after them.
void test_first_line() {
  for (const char* const bad : kBadFirst) {
    about(std::string("text: ") + bad);
    CLAIM_TEXT(oracle::run_text(bad), "refuse\t1\t1\n");
  }
  about("only a good first line");
  CLAIM_TEXT(oracle::run_text("mesh\t2\t2\t6\t4\n"), "refuse\t1\t2\n");
  CLAIM_TEXT(oracle::run_text("mesh\t2\t2\t6\t4\n\n"), "refuse\t1\t2\n");
}

// Bad second lines.
void test_second_line() {
  for (const char* bad :
       {"search\t16\n", "search\t16\t3\t1\n", "search\n", "search\t16\t3", "flow\t0\t1\t608\t588\t608\n",
        "mesh\t2\t2\t6\t4\n", "\n", "Search\t16\t3\n", "search\t016\t3\n", "search\t16\t\n", "search\t\t3\n",
        "search\t16 3\n", "search\t16\t3\r\n", "clocks\t1\n", "slot\t1\n", "table\n"}) {
    about(std::string("second line: ") + bad);
    CLAIM_TEXT(oracle::run_text(std::string("mesh\t0\t2\t6\t4\n") + bad + kFlows), "refuse\t1\t2\n");
  }
  about("no second line");
  CLAIM_TEXT(oracle::run_text("mesh\t0\t2\t6\t4\n"), "refuse\t1\t2\n");
  CLAIM_TEXT(oracle::run_text("mesh\t0\t2\t6\t4\nsearch\t1\t1"), "refuse\t1\t2\n");
}

// Lines that are bad among the flow lines.
const char* const kBadFlows[] = {"flow\n",
                                 "flow\t0\t1\t608\t588\n",
                                 "flow\t0\t1\t608\t588\t608\t0\n",
                                 "flow\t0\t1\t608\t588\t608\t\n",
                                 "\n",
                                 "flow\t0\t\t608\t588\t608\n",
                                 "flow\t0\t\t1\t608\t588\t608\n",
                                 "flow 0\t1\t608\t588\t608\n",
                                 "Flow\t0\t1\t608\t588\t608\n",
                                 "FLOW\t0\t1\t608\t588\t608\n",
                                 "flow\t0\t1\t608\t588\t608 \n",
                                 "flow\t0\t1\t608\t588\t608\r\n",
                                 " \n",
                                 "\t\n",
                                 "flow\t00\t1\t608\t588\t608\n",
                                 "flow\t0\t1\t0608\t588\t608\n",
                                 "flow\t0\t1\t608\t588\t4294967296\n",
                                 "flow\t0\t1\t608\t588\t10000000000\n",
                                 "flow\t0\t1\t608\t588\t00000000608\n",
                                 "mesh\t2\t2\t6\t4\n",
                                 "search\t16\t3\n",
                                 "slot\t1\n",
                                 "busy\n",
                                 "starts\n",
                                 "table\t608\t5\n",
                                 "start\t0\t0\t0\n",
                                 "end\t1\t57\t0\n",
                                 "inject\t0\t0\t0\t0\n",
                                 "flow\t0\t1\t608\t588\tnone\n",
                                 "flow\t0\t1\t608\t588\t6e2\n",
                                 "flow\t0\t1\t608\t588\t0x9\n",
                                 "# note\n",
                                 "flow\t0\t1\t608\t588\t608\v\n",
                                 "flow\t0\t1\t608\t588\t\xFF\n",
                                 "flow\t0\t1\t608\t588\t18446744073709552224\n"};

// Bad lines among the flow lines, NUL bytes, and a last line without its line feed.
void test_flow_lines() {
  for (const char* const bad : kBadFlows) {
    about(std::string("line among the flows: ") + bad);
    CLAIM_TEXT(oracle::run_text(std::string(kHead) + bad + kFlows), "refuse\t1\t3\n");
    CLAIM_TEXT(oracle::run_text(std::string(kHead) + kFlow + kFlow + bad), "refuse\t1\t5\n");
    CLAIM_TEXT(oracle::run_text(std::string(kHead) + kFlow + bad + bad), "refuse\t1\t4\n");
  }
  about("NUL bytes");
  std::string text = flows(2);
  text[text.size() - 2] = '\0';
  CLAIM_TEXT(oracle::run_text(text), "refuse\t1\t4\n");
  CLAIM_TEXT(oracle::run_text(flows(2) + std::string(1, '\0')), "refuse\t1\t5\n");
  CLAIM_TEXT(oracle::run_text(std::string(1, '\0') + flows(2)), "refuse\t1\t1\n");
  about("the last line feed");
  text = flows(2);
  text.pop_back();
  CLAIM_TEXT(oracle::run_text(text), "refuse\t1\t4\n");
}

// Form is judged before all else; then 2, 3, 4 and the flows.
void test_order() {
  about("no flow line, 65 flow lines, and a bad line after them");
  CLAIM_TEXT(oracle::run_text(kHead), "refuse\t4\t0\n");
  CLAIM_TEXT(oracle::run_text(flows(65)), "refuse\t4\t0\n");
  CLAIM_TEXT(oracle::run_text(flows(65) + "flow\n"), "refuse\t1\t68\n");
  CLAIM_TEXT(oracle::run_text("mesh\t2\t2\t6\t4\nsearch\t0\t3\n"), "refuse\t3\t0\n");
  CLAIM_TEXT(oracle::run_text("mesh\t2\t2\t6\t65\nsearch\t0\t3\n"), "refuse\t2\t0\n");
  CLAIM_TEXT(oracle::run_text("mesh\t2\t2\t6\t65\nsearch\t0\t3\nflow\n"), "refuse\t1\t3\n");
  about("numbers that fit 32 bits are no fault of form");
  CLAIM_TEXT(oracle::run_text("mesh\t4294967295\t0\t0\t0\nsearch\t0\t0\n"), "refuse\t2\t0\n");
  CLAIM_TEXT(oracle::run_text(std::string(kHead) + kFlow + "flow\t4294967295\t1\t0\t0\t0\n"), "refuse\t5\t1\n");
  CLAIM_TEXT(oracle::run_text(std::string(kHead) + kFlow + "flow\t0\t1\t4294967295\t1\t1\n"), "refuse\t6\t1\n");
  CLAIM_TEXT(oracle::run_text(std::string(kHead) + "flow\t0\t1\t608\t588\t159\n"), "refuse\t7\t0\n");
  CLAIM_TEXT(oracle::run_text("mesh\t2\t2\t1\t2\nsearch\t1\t1\nflow\t0\t1\t4096\t1\t3\nflow\t2\t3\t4097\t1\t3\n"),
             "refuse\t8\t0\n");
  CLAIM_TEXT(oracle::run_text("mesh\t2\t2\t1\t2\nsearch\t1\t1\nflow\t0\t1\t3\t1\t3\nflow\t2\t3\t3072\t1\t3\n"),
             "refuse\t9\t0\n");
}

// Texts of 8,192 bytes are read, one byte more is not.
void test_bytes() {
  about("8,192 bytes");
  std::string text = flows(0);
  while (text.size() + 22 <= 8192) text += kFlow;
  for (std::size_t end = text.size() - 1; text.size() < 8192; end = text.rfind('\n', end - 1)) text.insert(end, "1");
  CLAIM_EQUAL(text.size(), 8192);
  CLAIM_TEXT(oracle::run_text(text), "refuse\t4\t0\n");
  CLAIM_TEXT(oracle::run_text(text + "\n"), "refuse\t1\t0\n");
  CLAIM_TEXT(oracle::run_text(std::string(8192, 'x')), "refuse\t1\t1\n");
  CLAIM_TEXT(oracle::run_text(std::string(8193, 'x')), "refuse\t1\t0\n");
  CLAIM_TEXT(oracle::run_text(std::string(8193, '\n')), "refuse\t1\t0\n");
  text[0] = 'M';
  CLAIM_TEXT(oracle::run_text(text), "refuse\t1\t1\n");
}

// What the printer of models writes, the reader reads back.
void test_round() {
  for (u64 index = 0; index < 300; ++index) {
    about("model there and back " + std::to_string(index));
    oracle::Random random(7, index);
    const Call call = oracle::limit_model(random, static_cast<u32>(index % oracle::kLimitSorts));
    Call back;
    CLAIM_EQUAL(oracle::read_text(oracle::print_model(call), back).number, 0);
    CLAIM(back.flow_numbers == call.flow_numbers);
    CLAIM_EQUAL(back.f, call.f);
    CLAIM_EQUAL(back.g, call.g);
    CLAIM_TEXT(places({back.columns, back.rows, back.r, back.flit_bytes}),
               places({call.columns, call.rows, call.r, call.flit_bytes}));
  }
}

}  // namespace

void test_text() {
  test_case_a();
  test_first_line();
  test_second_line();
  test_flow_lines();
  test_order();
  test_bytes();
  test_round();
}

}  // namespace oracle_tests
