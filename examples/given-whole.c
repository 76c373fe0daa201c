/* A run from C: the check, the run, the look-up of a holder and the same-lines answer.
 *
 * Main makes a qubit and a channel, forks a child with one end, sends the qubit to it and then tries to measure it; the
 * qubit is no longer main's, so main stops by fault 20. given-whole.lqa is the same program as text.
 *
 *     cc -I include examples/given-whole.c target/staticlib/liblanq.a -o given-whole
 */
#include <stdio.h>

#include "lanq.h"

enum { METHODS = 2, MAIN = 18, CHILD = 4, LINES = 100 };

static const uint16_t program[] = {
    METHODS, MAIN + CHILD,
    0, MAIN, MAIN, CHILD,
    /* main: void, no parameter; a qubit, a channel, an end */
    LANQ_TYPE_NONE, 0,
    LANQ_TYPE_QBIT, LANQ_TYPE_CHANNEL(LANQ_CARRIES_QBIT), LANQ_TYPE_END(LANQ_CARRIES_QBIT), 0, 0, 0, 0, 0,
    0, 0, 0, 0, 0, 0, 0, 0,
    /* child: void, one parameter, an end */
    LANQ_TYPE_NONE, 1,
    LANQ_TYPE_END(LANQ_CARRIES_QBIT), 0, 0, 0, 0, 0, 0, 0,
    0, 0, 0, 0, 0, 0, 0, 0,
    /* main */
    LANQ_OP_NEWQ, 0, LANQ_OP_PUT, 0, LANQ_OP_DROP, 0,
    LANQ_OP_NEWC, LANQ_CARRIES_QBIT, LANQ_OP_PUT, 1, LANQ_OP_END, 0, LANQ_OP_PUT, 2, LANQ_OP_DROP, 0,
    LANQ_OP_GET, 1, LANQ_OP_END, 1, LANQ_OP_FORK, 1,
    LANQ_OP_GET, 2, LANQ_OP_GET, 0, LANQ_OP_SEND, 0,
    LANQ_OP_GET, 0, LANQ_OP_MEAS, 0, LANQ_OP_DROP, 0, LANQ_OP_RET, 0,
    /* child */
    LANQ_OP_GET, 0, LANQ_OP_RECV, 0, LANQ_OP_GATE, LANQ_GATE_H, LANQ_OP_RET, 0,
};
static const uint8_t schedule[] = {0, 0, 0, 0, 0, 0, 0, 0, 0, 0, 0, 1, 0, 0, 0, 1, 1, 0};

static uint16_t trace[LANQ_LINE_WORDS * LINES];
static uint32_t work[LANQ_WORK_WORDS];

/* A column, or - where the line does not use it. */
static void print_column(uint16_t number) {
  if (number == LANQ_UNUSED) {
    printf(" -");
  } else {
    printf(" %u", number);
  }
}

int main(void) {
  const size_t words = sizeof program / sizeof program[0];
  LanqAnswer check = lanq_check(program, words, schedule, sizeof schedule, NULL, 0, LANQ_WORK_WORDS);
  if (check.refused != LANQ_ACCEPTED) {
    printf("refused %llu %llu\n", (unsigned long long)check.refused, (unsigned long long)check.place);
    return 1;
  }
  LanqAnswer run = lanq_run(program, words, schedule, sizeof schedule, NULL, 0, trace, LANQ_LINE_WORDS * LINES, work,
                            LANQ_WORK_WORDS);
  for (size_t i = 0; i < run.lines; i++) {
    LanqLine line = lanq_line(trace, i);
    printf("%u %u %u", line.entry, line.process, line.kind);
    print_column(line.a);
    print_column(line.b);
    print_column(line.c);
    printf("\n");
    if (line.kind == LANQ_LINE_STOPPED && line.a == LANQ_FAULT_EMPTY) {
      fprintf(stderr, "process %u took something that is empty\n", line.process);
    }
  }
  printf("end %llu %llu %llu %llu\n", (unsigned long long)run.end, (unsigned long long)run.entries,
         (unsigned long long)run.lines, (unsigned long long)run.outcomes);
  const size_t length = LANQ_LINE_WORDS * run.lines;
  printf("processes %u, qubits %u, channels %u\n", work[0], work[1], work[2]);
  LanqHolder last = lanq_holder(trace, length, run.lines, 0);
  LanqHolder first = lanq_holder(trace, length, 1, 0);
  printf("qubit 0 is held by %llu, as the last %llu lines say, at first by %llu\n", (unsigned long long)last.holder,
         (unsigned long long)last.read, (unsigned long long)first.holder);
  printf("same as itself: %d, as its first lines: %d\n", lanq_same_lines(trace, length, trace, length),
         lanq_same_lines(trace, length, trace, length - LANQ_LINE_WORDS));
  return run.end == LANQ_END_ALL_OVER ? 0 : 1;
}
