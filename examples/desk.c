/* Who holds what after every entry, as a desk shows it while a run goes on.
 *
 * The run on the first k entries stands where the whole run stands after k of them, so the desk runs one entry more each
 * time and reads the stored holders from the work store; it does not go through the trace. The program and the schedule are
 * those of given-whole.c.
 *
 *     cc -I include examples/desk.c target/staticlib/liblanq.a -o desk
 */
#include <stdio.h>

#include "lanq.h"

enum { METHODS = 2, MAIN = 18, CHILD = 4, LINES = 100 };

static const uint16_t program[] = {
    METHODS, MAIN + CHILD,
    0, MAIN, MAIN, CHILD,
    /* main: a qubit, a channel, an end */
    LANQ_TYPE_NONE, 0,
    LANQ_TYPE_QBIT, LANQ_TYPE_CHANNEL(LANQ_CARRIES_QBIT), LANQ_TYPE_END(LANQ_CARRIES_QBIT), 0, 0, 0, 0, 0,
    0, 0, 0, 0, 0, 0, 0, 0,
    /* child: one parameter, an end */
    LANQ_TYPE_NONE, 1,
    LANQ_TYPE_END(LANQ_CARRIES_QBIT), 0, 0, 0, 0, 0, 0, 0,
    0, 0, 0, 0, 0, 0, 0, 0,
    /* main */
    LANQ_OP_NEWQ, 0, LANQ_OP_PUT, 0, LANQ_OP_DROP, 0,
    LANQ_OP_NEWC, LANQ_CARRIES_QBIT, LANQ_OP_PUT, 1, LANQ_OP_END, 0, LANQ_OP_PUT, 2, LANQ_OP_DROP, 0,
    LANQ_OP_GET, 1, LANQ_OP_END, 1, LANQ_OP_FORK, 1,
    LANQ_OP_GET, 2, LANQ_OP_GET, 0, LANQ_OP_SEND, 0,
    LANQ_OP_GET, 0, LANQ_OP_MEAS, 0, LANQ_OP_DROP, 0, LANQ_OP_RET, 0,
    /* child */
    LANQ_OP_GET, 0, LANQ_OP_RECV, 0, LANQ_OP_GATE, LANQ_GATE_H, LANQ_OP_RET, 0,
};
static const uint8_t schedule[] = {0, 0, 0, 0, 0, 0, 0, 0, 0, 0, 0, 1, 0, 0, 0, 1, 1, 0};

static uint16_t trace[LANQ_LINE_WORDS * LINES];
static uint32_t work[LANQ_WORK_WORDS];

/* What the desk showed last, by kind and number. */
static uint16_t shown[LANQ_THING_END_1 + 1][LANQ_MOST_QUBITS];

/* Shows a thing where its holder is another one than before. */
static void show(size_t k, uint16_t kind, uint16_t number) {
  uint16_t holder = lanq_stored_holder(work, LANQ_WORK_WORDS, kind, number);
  if (holder == shown[kind][number]) {
    return;
  }
  shown[kind][number] = holder;
  printf("after entry %u: ", (unsigned)(k - 1));
  if (kind == LANQ_THING_QUBIT) {
    printf("qubit %u is held by %u\n", number, holder);
  } else {
    printf("end %u of channel %u is held by %u\n", kind - LANQ_THING_END_0, number, holder);
  }
}

int main(void) {
  const size_t words = sizeof program / sizeof program[0];
  for (uint16_t number = 0; number < LANQ_MOST_QUBITS; number++) {
    shown[LANQ_THING_QUBIT][number] = LANQ_NOT_MADE;
    shown[LANQ_THING_END_0][number] = LANQ_NOT_MADE;
    shown[LANQ_THING_END_1][number] = LANQ_NOT_MADE;
  }
  for (size_t k = 0; k <= sizeof schedule; k++) {
    LanqAnswer run = lanq_run(program, words, schedule, k, NULL, 0, trace, LANQ_LINE_WORDS * LINES, work, LANQ_WORK_WORDS);
    if (run.refused != LANQ_ACCEPTED) {
      return 1;
    }
    for (uint16_t qubit = 0; qubit < LANQ_MOST_QUBITS; qubit++) {
      show(k, LANQ_THING_QUBIT, qubit);
    }
    for (uint16_t channel = 0; channel < LANQ_MOST_CHANNELS; channel++) {
      show(k, LANQ_THING_END_0, channel);
      show(k, LANQ_THING_END_1, channel);
    }
  }
  return 0;
}
