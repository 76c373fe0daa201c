/* A LanQ text from C: its table, its run, and a refusal shown at its place.
 *
 * Main sends a qubit to a station, which measures it (docs/TEXT.md has the same text with its table word by word). A second
 * text has a name that is not declared.
 *
 *     cc -I include examples/text.c target/staticlib/liblanq.a -o text
 */
#include <stdio.h>
#include <string.h>

#include "lanq.h"

enum { LINES = 100 };

static const char *const text =
    "int bob(channelEnd[qbit] e) { qbit q; q = recv(e); return measure(StdBasis, q); }\n"
    "void main() { channel[qbit] c withends [a, b]; c = new channel[qbit](); fork bob(b); send(a, new qbit()); }\n";
static const char *const wrong = "void main() {\n  qbit q;\n  q = new qbit();\n  H(p);\n}\n";

static const uint8_t schedule[] = {0, 0, 0, 0, 0, 0, 0, 0, 0, 0, 0, 1, 0, 0, 0, 0, 1, 1, 1, 1, 1};
static const uint8_t outcomes[] = {1};

static uint16_t table[LANQ_MOST_TABLE_WORDS];
static uint16_t trace[LANQ_LINE_WORDS * LINES];
static uint32_t work[LANQ_WORK_WORDS];

/* The bytes of a text, as the functions take them. */
static const uint8_t *bytes(const char *of) { return (const uint8_t *)of; }

/* Line and column of a byte, both from 1. */
static void print_place(const char *of, size_t place) {
  size_t line = 1;
  size_t start = 0;
  for (size_t i = 0; i < place; i++) {
    if (of[i] == '\n') {
      line++;
      start = i + 1;
    }
  }
  printf("byte %u, line %u, column %u", (unsigned)place, (unsigned)line, (unsigned)(place - start + 1));
}

/* A column, or - where the line does not use it. */
static void print_column(uint16_t number) {
  if (number == LANQ_UNUSED) {
    printf(" -");
  } else {
    printf(" %u", number);
  }
}

int main(void) {
  /* How many words the table has, without a buffer; then the table. */
  LanqTable asked = lanq_translate(bytes(text), strlen(text), NULL, 0);
  LanqTable made = lanq_translate(bytes(text), strlen(text), table, LANQ_MOST_TABLE_WORDS);
  if (made.refused != LANQ_ACCEPTED || made.words != asked.words) {
    return 1;
  }
  printf("words %u, methods %u, instructions %u\n", (unsigned)made.words, table[0], table[1]);

  LanqAnswer run = lanq_run_text(bytes(text), strlen(text), schedule, sizeof schedule, outcomes, sizeof outcomes, trace,
                                 LANQ_LINE_WORDS * LINES, work, LANQ_WORK_WORDS);
  if (run.refused != LANQ_ACCEPTED) {
    return 1;
  }
  for (size_t i = 0; i < run.lines; i++) {
    LanqLine line = lanq_line(trace, i);
    printf("%u %u %u", line.entry, line.process, line.kind);
    print_column(line.a);
    print_column(line.b);
    print_column(line.c);
    printf("\n");
  }
  printf("end %u %u %u %u\n", (unsigned)run.end, (unsigned)run.entries, (unsigned)run.lines, (unsigned)run.outcomes);

  LanqTable refused = lanq_translate(bytes(wrong), strlen(wrong), table, LANQ_MOST_TABLE_WORDS);
  printf("refused %u at ", (unsigned)refused.refused);
  print_place(wrong, (size_t)refused.place);
  printf("\n");
  return refused.refused == LANQ_REFUSED_NAMES ? 0 : 1;
}
