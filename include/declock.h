/* The clock pass as a library: rewrites a sheet to run on one base tick, and tells clocks and faults.
 *
 * A sheet is a list of nodes as bytes. Its format, the limits and the rules stand in the repository, docs/RULES.md. Every function
 * takes any bytes: a sheet that is not well formed is turned down under a number, and no byte of `out` is written then.
 *
 * Each function answers 0 where it is done. *place is then the number of bytes written to the front of `out`; the bytes behind them
 * keep their values. Else it answers a number from 1 to 12 (DECLOCK_SHORT to DECLOCK_LENT) and *place is where.
 *
 * Memory     No function allocates or keeps anything between calls, and the library has no variable of its own: calls in several
 *            threads do not disturb each other. What a call works with is on the caller's stack, see DECLOCK_STACK_BYTES.
 * Time       Every call ends.
 * Pointers   None may be null, also where its length is 0. Each must be aligned as its type is. What is written (`out`, the
 *            lists, *place, *faulty, *counts) must not overlap anything else that is handed over.
 * Linking    libdeclock_library.a, for x86-64 Linux, made by `rt lib` in crates/declock_library. It calls memcpy and
 *            memset of the C library and nothing else.
 *
 * A function's contract is proved against document 01 for all inputs; what a C program hands over is not checked by that proof. */
#ifndef DECLOCK_H
#define DECLOCK_H

#include <stddef.h>
#include <stdint.h>

#ifdef __cplusplus
extern "C" {
#endif

/* The longest sheet that can be accepted: 12 + 1,024 + 16,384 + 5 * 4,096 bytes. A longer one is refused, under 2 or 3. */
#define DECLOCK_SHEET_BYTES 37900

/* Enough for any rewritten sheet: 12 + 1,024 + 16,384 + 5 * 8,192 bytes. With so many lent, declock_rewrite never answers 12. */
#define DECLOCK_OUT_BYTES 58380

/* Enough for the text of any fault, which is shorter: two clocks of eight conditions and three names. */
#define DECLOCK_TEXT_BYTES 1024

/* Enough for the faults that declock_rewrite lists of any sheet: a sheet has at most 16 nodes, and each has at most one first fault. */
#define DECLOCK_FAULTS 16

/* Stack for any call: more than twice the most that we measured; it is measured (bench/stack) and not proved. A usual sheet takes less.
 * What calls itself: walks and reading, down the levels of an expression, of which there are at most 32; writing a default, down the
 * type. The most, on 334 sheets that go deep in these ways: 1.6 MB, of each function. */
#define DECLOCK_STACK_BYTES 4194304

/* Why a sheet is turned down, in checking order: the first that applies is answered. After each, what *place is. */
enum declock_answer {
    DECLOCK_DONE = 0,    /* done; the number of bytes written */
    DECLOCK_SHORT = 1,   /* fewer than 12 bytes; 0 */
    DECLOCK_SIZE = 2,    /* a size is outside its limit; which: 0 names, 1 letters, 2 tokens */
    DECLOCK_LENGTH = 3,  /* the length is not what the three sizes say; 0 */
    DECLOCK_NAME = 4,    /* a name is ill formed or repeats an earlier one; the name. Or the lengths do not sum up; the count of names */
    DECLOCK_TOKEN = 5,   /* a token is not allowed there, or the tokens end early or go on; the token */
    DECLOCK_LIMIT = 6,   /* a count, an array's length or a depth is outside its limit; the token */
    DECLOCK_CYCLE = 7,   /* a type reaches itself; the first such definition */
    DECLOCK_MISSING = 8, /* no such node, or no such fault of it; 0 */
    DECLOCK_DEEP = 9,    /* a clock of more than eight conditions; the first such node */
    DECLOCK_FAULTY = 10, /* some node has a fault; 0 (declock_rewrite alone answers it) */
    DECLOCK_LARGE = 11,  /* the rewritten sheet would pass a limit; 0 (declock_rewrite alone answers it) */
    DECLOCK_LENT = 12    /* `out` is too short; how many bytes are needed */
};

/* What a fault is. declock_text says it in words. */
enum declock_fault_number {
    DECLOCK_FAULT_LEFT_NAME = 1,      /* a left name is on another clock than its equation */
    DECLOCK_FAULT_NAME_USED = 2,      /* a name is used on another clock than its own */
    DECLOCK_FAULT_WHEN = 3,           /* a when stands where another clock is expected */
    DECLOCK_FAULT_CLOCK_NAME = 4,     /* a clock name is on another clock than what it samples */
    DECLOCK_FAULT_UNDECLARED = 5,     /* a left name is not declared */
    DECLOCK_FAULT_NO_DEFAULT = 6,     /* the type of a left name has no default value */
    DECLOCK_FAULT_OUTPUT_DEFAULT = 7, /* the type of a called node's output has no default value */
    DECLOCK_FAULT_NOT_A_CALL = 8,     /* on a clock, several left names stand before what is no single call */
    DECLOCK_FAULT_PRE_TYPE = 9        /* the type of a pre's operand is not known */
};

/* A fault: its node and equation, from 0, and its number. */
struct declock_fault {
    uint32_t node;
    uint32_t fault;
    uint32_t equation;
};

/* Rewrites a sheet to run on one base tick, over the front of `out`. Every run of a rewritten plain node, kept to each name's clock, is
 * a run of the source node.
 *
 * Under 10, and under no other number, the first fault of each faulty node goes over the front of `faults`, as many as it has places
 * for, and *faulty is how many nodes are faulty in all; the later places keep their values. Under any other number *faulty is 0. */
uint32_t declock_rewrite(const uint8_t *sheet, size_t sheet_length, uint8_t *out, size_t out_length, struct declock_fault *faults,
                         size_t faults_length, size_t *place, size_t *faulty);

/* The text of a fault of a node, both counted from 0, over the front of `out`: UTF-8, with no zero at its end. The faults of a node
 * are its clock faults in order; of a node that has none, the first that its rewriting meets. Of a node in the list that
 * declock_rewrite filled, fault 0 is the one listed. */
uint32_t declock_text(const uint8_t *sheet, size_t sheet_length, size_t node, size_t fault, uint8_t *out, size_t out_length, size_t *place);

/* A condition of a clock: a name, by its place in the sheet from 0, that must be true (on is 1) or not (on is 0). */
struct declock_condition {
    uint32_t name;
    uint32_t on;
};

/* A clock, in 17 words. `depth` is NOT the number of conditions but one more: 1 is base, which has none; 2 has one condition, 9 has
 * eight. 0 is in no clock that was written, so that a list filled with zeros shows which places were. The number of conditions is
 * depth - 1; they stand in `conditions` from base outward, and the places behind them are 0. */
#define DECLOCK_CLOCK_WORDS 17
struct declock_clock {
    uint32_t depth; /* the number of conditions and one more */
    struct declock_condition conditions[8];
};

/* A node's name, by its place in the sheet; the passes that were made; how many equations, chains and clock faults it has. */
struct declock_counts {
    size_t name;
    size_t passes;
    size_t equations;
    size_t chains;
    size_t faults;
};

/* The clocks of a node, counted from 0: each equation's clock into `equations`, the chains, which are the clocks of pre and ->, into
 * `chains`, and all its clock faults into `faults`, as many as each list has places for; the later places keep their values. *counts has
 * how many there are in all. The lengths of the first two lists are in words, DECLOCK_CLOCK_WORDS for each place. *place is 0 where it is
 * done. A refusal writes nothing but *place. */
uint32_t declock_clocks(const uint8_t *sheet, size_t sheet_length, size_t node, struct declock_clock *equations, size_t equations_words,
                        struct declock_clock *chains, size_t chains_words, struct declock_fault *faults, size_t faults_length,
                        struct declock_counts *counts, size_t *place);

/* The clocks of a node, counted from 0, as text over the front of `out`: a line with its name, equations, passes and chains; a line
 * for each equation with its clock (+ on, - not); the chains, which are the clocks of pre and ->; a line for each clock fault. Lent no
 * byte, it answers 12 and how many bytes it needs. */
uint32_t declock_listing(const uint8_t *sheet, size_t sheet_length, size_t node, uint8_t *out, size_t out_length, size_t *place);

/* The same for all nodes of a sheet, in order. */
uint32_t declock_listings(const uint8_t *sheet, size_t sheet_length, uint8_t *out, size_t out_length, size_t *place);

#ifdef __cplusplus
}
#endif

#endif
