/* The LanQ process machine: its C interface. Link liblanq.a; `pkg-config --cflags --libs lanq` has the flags once
 * `make install` has put it in place.
 *
 * The machine runs a program on a schedule, which names the process that moves next, with a list of measurement outcomes.
 * It writes a trace and leaves the final configuration in a work store. docs/MACHINE.md says what it does. A program is a
 * LanQ text (docs/TEXT.md) or the program table that a text is translated into.
 *
 * A slice is a pointer and a length in elements, not in bytes: bytes of a text, 16-bit words of a program table and of a
 * trace, bytes of the schedule and of the outcome list, 32-bit words of the work store. A pointer may be anything where its
 * length is 0. Buffers must not overlap. No function keeps a pointer, allocates, or has state of its own, so that any may be
 * called from several threads at once.
 */
#ifndef LANQ_H
#define LANQ_H

#include <stdbool.h>
#include <stddef.h>
#include <stdint.h>

#ifdef __cplusplus
extern "C" {
#endif

/* The version of this interface. The first number rises where a program has to be changed for it. */
#define LANQ_VERSION_MAJOR 0
#define LANQ_VERSION_MINOR 3
#define LANQ_VERSION "0.3"

/* ---- Sizes ---- */

/* The least length of a work store, in words of 32 bits. */
#define LANQ_WORK_WORDS 8256
/* Words of 16 bits in a line of the trace. */
#define LANQ_LINE_WORDS 6
/* Words of a program table of so many methods and instructions. */
#define LANQ_TABLE_WORDS(methods, instructions) (2 + 20 * (methods) + 2 * (instructions))
/* Words of the longest program table, that of 32 methods and 4096 instructions: a buffer of so many holds every one. */
#define LANQ_MOST_TABLE_WORDS 8834

enum LanqLimit {
  LANQ_MOST_METHODS = 32,
  LANQ_MOST_INSTRUCTIONS = 4096,
  LANQ_MOST_PARAMETERS = 8,
  LANQ_SLOTS = 16,
  LANQ_MOST_PENDING = 8,
  LANQ_MOST_FRAMES = 8,
  LANQ_MOST_PROCESSES = 8,
  LANQ_MOST_QUBITS = 32,
  LANQ_MOST_CHANNELS = 16,
  LANQ_MOST_ENTRIES = 65535
};

/* ---- The program table ----
 *
 * Word 0: methods M, 1 to 32. Word 1: instructions N, 1 to 4096. Then M pairs (offset, length) in instructions, each method
 * starting where the one before ends. Then M rows of 18 words: return type, parameter count, 16 slot types, parameters
 * first. Then N instructions of two words, op and argument. Method 0 is main: no parameters, return type 0. */

/* What a channel carries, the argument of LANQ_OP_NEWC. */
enum LanqCarried { LANQ_CARRIES_INT = 1, LANQ_CARRIES_BOOL = 2, LANQ_CARRIES_QBIT = 3 };

/* Types of slots and of what a method returns. */
enum LanqType {
  LANQ_TYPE_NONE = 0, /* an unused slot; void as a return type */
  LANQ_TYPE_INT = 1,  /* signed, 32 bits */
  LANQ_TYPE_BOOL = 2,
  LANQ_TYPE_QBIT = 3
};
/* A channel, and a channel end, that carries one of LANQ_CARRIES_.. */
#define LANQ_TYPE_CHANNEL(carried) (16 + (carried))
#define LANQ_TYPE_END(carried) (32 + (carried))

/* Ops, each with its argument. Values are pending on a stack of at most 8. */
enum LanqOp {
  LANQ_OP_INT = 1,     /* value in two's complement, 16 bits: push it */
  LANQ_OP_BOOL = 2,    /* 0 or 1: push it */
  LANQ_OP_GET = 3,     /* slot: push its value */
  LANQ_OP_PUT = 4,     /* slot: store the top, leave it on top */
  LANQ_OP_DROP = 5,    /* 0: take the top away */
  LANQ_OP_CLEAR = 6,   /* slot: empty it */
  LANQ_OP_NEWQ = 7,    /* 0: push a new qubit */
  LANQ_OP_NEWC = 8,    /* LANQ_CARRIES_..: push a new channel */
  LANQ_OP_END = 9,     /* side 0 or 1: channel off, that end on */
  LANQ_OP_GATE = 10,   /* LANQ_GATE_..: one or two qubits off */
  LANQ_OP_MEAS = 11,   /* 0: qubit off, next outcome on as an int */
  LANQ_OP_CALL = 12,   /* method: its arguments off, last on top; a frame starts */
  LANQ_OP_RET = 13,    /* 0: return value off unless void; the frame goes */
  LANQ_OP_FORK = 14,   /* method: as CALL, in a new process */
  LANQ_OP_SEND = 15,   /* 0: off are an end and the value above it */
  LANQ_OP_RECV = 16,   /* 0: end off, received value on */
  LANQ_OP_JUMP = 17,   /* instruction, from the method's start */
  LANQ_OP_JFALSE = 18, /* instruction: boolean off, jumps on false */
  LANQ_OP_ADD = 19,    /* 0: two ints; SUB and LESS put the deeper first */
  LANQ_OP_SUB = 20,
  LANQ_OP_EQ = 21,
  LANQ_OP_LESS = 22,
  LANQ_OP_NOT = 23 /* 0: boolean */
};

/* Gates. CX, CZ and SWAP take two qubits, the others one. */
enum LanqGate {
  LANQ_GATE_X = 1,
  LANQ_GATE_Y = 2,
  LANQ_GATE_Z = 3,
  LANQ_GATE_H = 4,
  LANQ_GATE_S = 5,
  LANQ_GATE_CX = 6,
  LANQ_GATE_CZ = 7,
  LANQ_GATE_SWAP = 8
};

/* Outcomes: what a byte of the outcome list may be. LANQ_OP_MEAS pushes it as an int. */
enum LanqOutcome {
  LANQ_OUTCOME_0 = 0,
  LANQ_OUTCOME_1 = 1,
  LANQ_NO_CLICK = 2 /* the detector missed */
};

/* ---- The answer ---- */

/* Why an input is refused, and what the place counts. The questions are put in this order, those of texts before all. */
enum LanqRefusal {
  LANQ_ACCEPTED = 0,
  LANQ_REFUSED_SIZES = 1,        /* M, N or the table's length is wrong; the place is 0 */
  LANQ_REFUSED_PAIRS = 2,        /* a method does not start where the one before ends, or is empty; the method */
  LANQ_REFUSED_ROWS = 3,         /* a type or a parameter count is wrong, or main has parameters; the method */
  LANQ_REFUSED_INSTRUCTIONS = 4, /* an op or its argument is wrong; the instruction, counted over the table */
  LANQ_REFUSED_TYPES = 5,        /* an operand is missing or of another type, or values are left; the instruction */
  LANQ_REFUSED_OUTCOMES = 6,     /* an outcome is above LANQ_NO_CLICK; its index */
  LANQ_REFUSED_SCHEDULE = 7,     /* the schedule has more than 65,535 bytes; the place is 0 */
  LANQ_REFUSED_WORK_STORE = 8,   /* the work store has fewer than LANQ_WORK_WORDS words; the place is 0 */
  /* Of a LanQ text, before question 1. The place is the index of a token's first byte; the text's length where the text
   * stops too early or has no main. */
  LANQ_REFUSED_GRAMMAR = 30, /* the text leaves the grammar or the nesting; the first token with which it does */
  LANQ_REFUSED_NAMES = 31,   /* a name is undeclared, declared twice, or called with a wrong number of arguments; the name */
  LANQ_REFUSED_LIMITS = 32   /* the table fails one of questions 1 to 5; the name of the first method with which it does */
};

/* Why a run ended. */
enum LanqEnd {
  LANQ_END_SCHEDULE_USED = 0, /* the schedule is used up */
  LANQ_END_ALL_OVER = 1,      /* every process made has finished or stopped */
  LANQ_END_STUCK = 2,         /* no process is able to move: each that runs waits for another that runs */
  LANQ_END_TRACE_FULL = 3     /* the lines of the next entry exceed what the trace still holds */
};

/* `refused` is LANQ_ACCEPTED, or which question refused the input, with its place. After a run `end` says why it ended,
 * `entries` how many schedule bytes were used, those that moved nothing too, `lines` how many trace lines were written and
 * `outcomes` how many outcomes were used. Unused fields are 0. */
typedef struct {
  uint64_t refused, place, end, entries, lines, outcomes;
} LanqAnswer;

/* ---- The trace ---- */

/* In a column that a line does not use. */
#define LANQ_UNUSED 65535
/* What lanq_holder answers where no process holds the qubit, and lanq_stored_holder where there is no such thing. */
#define LANQ_NOBODY 65535
/* What lanq_stored_holder answers of a thing that was not made. */
#define LANQ_NOT_MADE 255

/* A line of the trace: six words. `entry` counts the schedule's bytes from 0. */
typedef struct {
  uint16_t entry, process, kind, a, b, c;
} LanqLine;

/* What a line says, by its kind, with a, b and c; those not named are LANQ_UNUSED. */
enum LanqKind {
  LANQ_LINE_QUBIT_MADE = 1,   /* a qubit */
  LANQ_LINE_CHANNEL_MADE = 2, /* a channel */
  LANQ_LINE_GATE = 3,         /* a gate, b qubit; of two qubits b is the deeper one, CX's control, and c the other */
  LANQ_LINE_MEASURED = 4,     /* a qubit, b outcome, LANQ_NO_CLICK among them */
  LANQ_LINE_FORK = 5,         /* a new process, b method, c number of arguments */
  LANQ_LINE_GAVE = 6,         /* a new holder, b LANQ_THING_.., c number of the qubit or channel */
  LANQ_LINE_MET = 7,          /* the process is the sender: a receiver, b channel, c the sender's side */
  LANQ_LINE_PASSED = 8,       /* a low and b high 16 bits of an int in two's complement; of a boolean 0 or 1, and 0 */
  LANQ_LINE_FINISHED = 9,
  LANQ_LINE_STOPPED = 10 /* a LANQ_FAULT_.. */
};

/* What is given, in b of LANQ_LINE_GAVE; the kinds that lanq_stored_holder takes, LANQ_THING_CHANNEL left out. */
enum LanqThing { LANQ_THING_QUBIT = 3, LANQ_THING_CHANNEL = 4, LANQ_THING_END_0 = 5, LANQ_THING_END_1 = 6 };

/* Why a process was stopped. It keeps what it had; the others go on. */
enum LanqFault {
  LANQ_FAULT_EMPTY = 20,     /* the slot read, or a value taken, stored, dropped or returned, is empty */
  LANQ_FAULT_CHANNELS = 21,  /* a channel beyond 16 would be made */
  LANQ_FAULT_QUBITS = 22,    /* a qubit beyond 32 would be made */
  LANQ_FAULT_PROCESSES = 23, /* a process beyond 8 would be made */
  LANQ_FAULT_OUTCOMES = 24,  /* no outcome is left */
  LANQ_FAULT_FRAMES = 25,    /* a frame beyond 8 would be started */
  LANQ_FAULT_INT_RANGE = 26, /* an int is out of range */
  LANQ_FAULT_ONE_QUBIT = 27, /* a two-qubit gate falls on one qubit */
  LANQ_FAULT_GONE = 33       /* at LANQ_OP_SEND or LANQ_OP_RECV: the opposite end is held by the process itself, or by one
                              * that has finished or stopped */
};

/* Line i of a trace, counted from 0. */
static inline LanqLine lanq_line(const uint16_t *trace, size_t i) {
  const uint16_t *words = trace + LANQ_LINE_WORDS * i;
  LanqLine line;
  line.entry = words[0];
  line.process = words[1];
  line.kind = words[2];
  line.a = words[3];
  line.b = words[4];
  line.c = words[5];
  return line;
}

/* ---- The functions ---- */

/* Puts the questions about a program table, a schedule, an outcome list and a work store of `work_len` words of 32 bits. It
 * reads its inputs and writes nothing. Inputs of any content and length are answered. */
LanqAnswer lanq_check(const uint16_t *program, size_t program_len, const uint8_t *schedule, size_t schedule_len,
                      const uint8_t *outcomes, size_t outcomes_len, size_t work_len);

/* Puts the same questions and, where none says no, runs the program on the schedule. Whatever trace and work store held
 * before, a run starts anew. Inputs of any content and length are answered, and every run ends.
 *
 * After a run (`refused` is LANQ_ACCEPTED):
 * - the answer has the end, the entries, the lines and the outcomes used;
 * - the first LANQ_LINE_WORDS * `lines` words of the trace are the lines, and its other words are as they were. The trace
 *   has room for `trace_len` / LANQ_LINE_WORDS lines, rounded down;
 * - the first LANQ_WORK_WORDS words of the work store are the final configuration, with 0 in every unused place, and its
 *   other words are as they were. Word 0 is the number of processes made, word 1 of qubits, word 2 of channels; process n
 *   has the 512 words from word 512 * (n + 1) on, and the last 64 words say who holds each qubit and each channel end
 *   (docs/LAYOUT.md has them all).
 * After a refusal every word of trace and work store is as it was.
 *
 * Lengths count elements: `trace_len` words of 16 bits, `work_len` words of 32. Neither trace nor work store may overlap
 * the other or an input. */
LanqAnswer lanq_run(const uint16_t *program, size_t program_len, const uint8_t *schedule, size_t schedule_len,
                    const uint8_t *outcomes, size_t outcomes_len, uint16_t *trace, size_t trace_len, uint32_t *work,
                    size_t work_len);

/* `refused` is LANQ_ACCEPTED, or why a text is refused, with its place; `words` is 0 then. Else `words` is the number of
 * words of the text's table, and `place` is 0. */
typedef struct {
  uint64_t refused, place, words;
} LanqTable;

/* The program table of a LanQ text. It is the table that docs/TEXT.md sets down, and passes questions 1 to 5. Texts of any
 * bytes and any length are answered.
 *
 * Where the text is not refused and `words` <= `table_len`, the first `words` words of the buffer are the table, and its
 * other words are as they were. Where `words` > `table_len`, the buffer is too short and every word of it is as it was; a
 * `table_len` of 0 asks for the number of words alone. After a refusal every word is as it was, too.
 *
 * Lengths count elements: `text_len` bytes, `table_len` words of 16 bits. The buffer must not overlap the text. This
 * function and lanq_run_text use less than a megabyte of the stack, whatever the text. */
LanqTable lanq_translate(const uint8_t *text, size_t text_len, uint16_t *table, size_t table_len);

/* Runs a LanQ text. It puts 30, 31 and 32 to the text and then questions 1 to 8; where none says no, it leaves what
 * lanq_run leaves of the text's table, in the answer, the trace and the work store. After a refusal every word of trace and
 * work store is as it was. No buffer for the table is needed.
 *
 * Neither trace nor work store may overlap the other or an input. */
LanqAnswer lanq_run_text(const uint8_t *text, size_t text_len, const uint8_t *schedule, size_t schedule_len,
                         const uint8_t *outcomes, size_t outcomes_len, uint16_t *trace, size_t trace_len, uint32_t *work,
                         size_t work_len);

/* `holder` is the process that holds a qubit, LANQ_NOBODY for nobody; `read` is how many lines were read to say so. */
typedef struct {
  uint64_t holder, read;
} LanqHolder;

/* Who holds a qubit by the first k lines of a trace, all its lines if there are fewer. They are read from the last one
 * backwards, up to the line that decides, which is counted; if none decides, every one is read. A part of a line at the end is
 * ignored. Any words, any k and any qubit number are answered. */
LanqHolder lanq_holder(const uint16_t *trace, size_t trace_len, size_t k, uint16_t qubit);

/* Who holds a qubit or a channel end after a run, by the work store that the run has left: `kind` is LANQ_THING_QUBIT,
 * LANQ_THING_END_0 or LANQ_THING_END_1, `number` that of the qubit or of the channel. The answer is the process,
 * LANQ_NOT_MADE where the thing was not made, and LANQ_NOBODY where there is no such thing or the store has fewer words than
 * LANQ_WORK_WORDS. It equals what the lines of the run say, and takes the same time for every thing, however long the run
 * was. A thing whose holder has finished or stopped is still its holder's. */
uint16_t lanq_stored_holder(const uint32_t *work, size_t work_len, uint64_t kind, uint64_t number);

/* Whether two traces have the same lines and the same timing. Columns 1 to 5 of each line are equal; of the entry's number
 * (column 0) it is the change from each line to the next that is equal, with its sign and never wrapped, so that a trace
 * shifted as a whole is the same. No where they have different numbers of lines. Any words are answered. */
bool lanq_same_lines(const uint16_t *a, size_t a_len, const uint16_t *b, size_t b_len);

#ifdef __cplusplus
}
#endif

#endif
