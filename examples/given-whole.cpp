// The same run from C++: a table built from methods, the lines by their kinds, and the same protocol from its LanQ text.
//
//     c++ -I include examples/given-whole.cpp target/staticlib/liblanq.a -o given-whole
#include <cstdint>
#include <cstdio>
#include <stdexcept>
#include <string>
#include <utility>
#include <vector>

#include "lanq.h"

namespace {

struct Method {
  std::uint16_t returns;
  std::uint16_t parameters;
  std::vector<std::uint16_t> slots;
  std::vector<std::pair<std::uint16_t, std::uint16_t>> code;
};

// Sizes, pairs, rows, instructions.
std::vector<std::uint16_t> table(const std::vector<Method> &methods) {
  std::size_t instructions = 0;
  for (const Method &method : methods) instructions += method.code.size();
  std::vector<std::uint16_t> words{static_cast<std::uint16_t>(methods.size()),
                                   static_cast<std::uint16_t>(instructions)};
  std::uint16_t offset = 0;
  for (const Method &method : methods) {
    words.push_back(offset);
    words.push_back(static_cast<std::uint16_t>(method.code.size()));
    offset = static_cast<std::uint16_t>(offset + method.code.size());
  }
  for (const Method &method : methods) {
    words.push_back(method.returns);
    words.push_back(method.parameters);
    words.insert(words.end(), method.slots.begin(), method.slots.end());
    words.insert(words.end(), LANQ_SLOTS - method.slots.size(), LANQ_TYPE_NONE);
  }
  for (const Method &method : methods) {
    for (const auto &instruction : method.code) {
      words.push_back(instruction.first);
      words.push_back(instruction.second);
    }
  }
  return words;
}

struct Run {
  LanqAnswer answer;
  std::vector<LanqLine> lines;
};

Run run(const std::vector<std::uint16_t> &program, const std::vector<std::uint8_t> &schedule,
        const std::vector<std::uint8_t> &outcomes) {
  std::vector<std::uint16_t> trace(LANQ_LINE_WORDS * 4096);
  std::vector<std::uint32_t> work(LANQ_WORK_WORDS);
  Run run{};
  run.answer = lanq_run(program.data(), program.size(), schedule.data(), schedule.size(), outcomes.data(),
                        outcomes.size(), trace.data(), trace.size(), work.data(), work.size());
  if (run.answer.refused != LANQ_ACCEPTED) throw std::invalid_argument("the program is refused");
  for (std::size_t i = 0; i < run.answer.lines; i++) run.lines.push_back(lanq_line(trace.data(), i));
  return run;
}

// The table of a text: first its number of words, then the words.
std::vector<std::uint16_t> translated(const std::string &text) {
  const auto *bytes = reinterpret_cast<const std::uint8_t *>(text.data());
  const LanqTable asked = lanq_translate(bytes, text.size(), nullptr, 0);
  if (asked.refused != LANQ_ACCEPTED) throw std::invalid_argument("the text is refused");
  std::vector<std::uint16_t> words(asked.words);
  lanq_translate(bytes, text.size(), words.data(), words.size());
  return words;
}

const char *const text =
    "void main() {"
    "  qbit q; channel[qbit] c withends [mine, theirs];"
    "  q = new qbit(); c = new channel[qbit]();"
    "  fork child(theirs); send(mine, q); measure(StdBasis, q);"
    "}"
    "void child(channelEnd[qbit] e) { H(recv(e)); }";

}  // namespace

int main() {
  const std::uint16_t qubits = LANQ_CARRIES_QBIT;
  const Method main_method{LANQ_TYPE_NONE,
                           0,
                           {LANQ_TYPE_QBIT, LANQ_TYPE_CHANNEL(qubits), LANQ_TYPE_END(qubits)},
                           {{LANQ_OP_NEWQ, 0}, {LANQ_OP_PUT, 0},  {LANQ_OP_DROP, 0}, {LANQ_OP_NEWC, qubits},
                            {LANQ_OP_PUT, 1},  {LANQ_OP_END, 0},  {LANQ_OP_PUT, 2},  {LANQ_OP_DROP, 0},
                            {LANQ_OP_GET, 1},  {LANQ_OP_END, 1},  {LANQ_OP_FORK, 1}, {LANQ_OP_GET, 2},
                            {LANQ_OP_GET, 0},  {LANQ_OP_SEND, 0}, {LANQ_OP_GET, 0},  {LANQ_OP_MEAS, 0},
                            {LANQ_OP_DROP, 0}, {LANQ_OP_RET, 0}}};
  const Method child{LANQ_TYPE_NONE,
                     1,
                     {LANQ_TYPE_END(qubits)},
                     {{LANQ_OP_GET, 0}, {LANQ_OP_RECV, 0}, {LANQ_OP_GATE, LANQ_GATE_H}, {LANQ_OP_RET, 0}}};
  const Run done = run(table({main_method, child}), {0, 0, 0, 0, 0, 0, 0, 0, 0, 0, 0, 1, 0, 0, 0, 1, 1, 0}, {});
  for (const LanqLine &line : done.lines) {
    switch (line.kind) {
      case LANQ_LINE_GAVE:
        if (line.b == LANQ_THING_QUBIT) {
          std::printf("entry %u: process %u gives qubit %u to process %u\n", line.entry, line.process, line.c, line.a);
        }
        break;
      case LANQ_LINE_GATE:
        std::printf("entry %u: process %u applies gate %u to qubit %u\n", line.entry, line.process, line.a, line.b);
        break;
      case LANQ_LINE_STOPPED:
        std::printf("entry %u: process %u is stopped by fault %u\n", line.entry, line.process, line.a);
        break;
      default:
        break;
    }
  }
  std::printf("lanq %s: end %u, %u lines\n", LANQ_VERSION, static_cast<unsigned>(done.answer.end),
              static_cast<unsigned>(done.answer.lines));
  const Run of_text = run(translated(text), {0, 0, 0, 0, 0, 0, 0, 0, 0, 0, 0, 0, 0, 0, 1, 0, 0, 0, 1, 1, 0}, {});
  std::printf("from its text: end %u, %u lines\n", static_cast<unsigned>(of_text.answer.end),
              static_cast<unsigned>(of_text.answer.lines));
  return 0;
}
