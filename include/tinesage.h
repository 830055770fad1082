/*
 * Tinesage: check an image, compile it, and run it over cells that the host keeps.
 *
 * An image is 32-bit words; docs/IMAGE.md says what they mean. Every word crosses as four bytes,
 * most significant first. The library keeps nothing between two calls: with each request the host
 * lends the image and the cells, and the image is checked anew. So a host keeps the bytes of the
 * last image that a load accepted, and lends the cells as the request before left them.
 *
 * Rules for every function
 *   - A slice is a pointer and its length in bytes. Where the length is 0 the pointer may be NULL:
 *     nothing is read or written through it. The slices of one call do not overlap.
 *   - Bytes after the last whole word are ignored and stay as they are, except in an image, where
 *     they are refusal 1.
 *   - Only what is named under "Written" is written. All other lent bytes stay as they are.
 *   - Every function returns, for all bytes and numbers: a fault is an answer.
 *   - The stack that each needs is in docs/STACK.md. Of the C library, memcpy and memset are used.
 *
 * The answer is seven words in the first 28 bytes of the slice `answer`; the bytes after them stay.
 * A slice shorter than 28 bytes stays unwritten; the request is carried out all the same.
 * tinesage_read_answer takes the seven words apart.
 *
 *     word       0    1        2       3        4       5, 6
 *     done       0    0        0       result   steps   count
 *     stopped    1    number   place   0        steps   count
 *     refused    2    number   place   0        0       0
 *
 * `count` is two words, the high one first: the trace words recorded by a call or a preview, the
 * words written to `out`, the entries that a comparison found equal, else 0. A place is the number
 * of an image word, from 0. docs/REFUSALS.md has an example for each number.
 */
#ifndef TINESAGE_H
#define TINESAGE_H

#include <stddef.h>
#include <stdint.h>

#ifdef __cplusplus
extern "C" {
#endif

/* The version of this interface. A new major number may break a host, a new minor number adds. */
#define TINESAGE_VERSION_MAJOR 2
#define TINESAGE_VERSION_MINOR 6
#define TINESAGE_VERSION_PATCH 0
#define TINESAGE_VERSION "2.6.0"

/* ---- sizes ---- */

/* the length of an answer, and of a trace entry, in bytes */
#define TINESAGE_ANSWER 28
#define TINESAGE_TRACE_ENTRY 8

/* the most words that an image can have: in compiled form, and in source form */
#define TINESAGE_MOST_WORDS 16384
#define TINESAGE_MOST_SOURCE_WORDS 4096

/* the deepest level that a word can have: in compiled form, and in source form */
#define TINESAGE_MOST_LEVEL 22
#define TINESAGE_MOST_SOURCE_LEVEL 19

/* the most cells of an image together, and the most arguments of a call (8 in source form) */
#define TINESAGE_MOST_CELLS 1024
#define TINESAGE_MOST_ARGUMENTS 9

/* ---- numbers ---- */

/* the first word of an answer */
enum tinesage_status {
    TINESAGE_DONE = 0,
    TINESAGE_STOPPED = 1, /* a call or preview ended early; the cells are as before it */
    TINESAGE_REFUSED = 2  /* nothing was done */
};

/* the second word of an answer that is refused; there is no 19, and none from 21 to 31: 21 to 24
   are stops */
enum tinesage_refusal {
    /* reading the image: the first fault */
    TINESAGE_REFUSAL_LENGTH = 1,         /* empty, too long, or not whole words */
    TINESAGE_REFUSAL_WORD = 2,           /* a word of the wrong kind or payload for its place */
    TINESAGE_REFUSAL_TRUNCATED = 3,      /* a word is missing at the end */
    TINESAGE_REFUSAL_TRAILING_WORDS = 4, /* words follow the last procedure */
    TINESAGE_REFUSAL_TOO_DEEP = 5,       /* nested deeper than the form allows */
    /* names, sorts and loop variables: the lowest place */
    TINESAGE_REFUSAL_UNDECLARED = 6,    /* no such variable or array */
    TINESAGE_REFUSAL_SORT = 7,          /* a word where a boolean is wanted, or the reverse */
    TINESAGE_REFUSAL_LOOP_VARIABLE = 8, /* unfit for a loop, assigned, or read outside it */
    /* labels: the lowest place */
    TINESAGE_REFUSAL_FLOW = 9,               /* a secret would reach something public */
    TINESAGE_REFUSAL_SECRET_OPERAND = 10,    /* a secret where the operand has to be public */
    TINESAGE_REFUSAL_UNBOUNDED_OPERAND = 11, /* not bounded by its form, in a secret context */
    TINESAGE_REFUSAL_OPEN_CALL = 12,         /* an open procedure called in a secret context */
    TINESAGE_REFUSAL_SECRET_BRANCH = 13,     /* a secret condition in compiled form */
    /* the compiler */
    TINESAGE_REFUSAL_ALREADY_COMPILED = 14,
    TINESAGE_REFUSAL_RESULT_TOO_LARGE = 15, /* the result would have more than TINESAGE_MOST_WORDS words */
    TINESAGE_REFUSAL_OUTPUT_TOO_SHORT = 16, /* fewer words are lent than the result has */
    /* the machine */
    TINESAGE_REFUSAL_OUT_OF_RANGE = 17,   /* no such procedure, array or cell; too few cells lent */
    TINESAGE_REFUSAL_ARGUMENT_COUNT = 18, /* another number of arguments than of parameters */
    TINESAGE_REFUSAL_NOT_LOADED = 20,     /* the image is empty: nothing has been loaded */
    /* the bound of a procedure */
    TINESAGE_REFUSAL_UNBOUNDED_LOOP = 32, /* a for whose bounds are not both constants */
    TINESAGE_REFUSAL_BOUND_TOO_LARGE = 33 /* more than 4,294,967,295 steps */
};

/* the second word of an answer that is stopped */
enum tinesage_stop {
    TINESAGE_STOP_BUDGET = 21,      /* the budget of steps is spent */
    TINESAGE_STOP_TRACE_FULL = 22,  /* fewer than two trace words are free for an entry */
    TINESAGE_STOP_INDEX = 23,       /* an index is beyond its array */
    TINESAGE_STOP_ZERO_DIVISOR = 24 /* a divisor is 0 */
};

/* the kind of a trace entry, with its value */
enum tinesage_trace_kind {
    TINESAGE_TRACE_BRANCH = 1,    /* 1: the condition of an if is true, 0: false */
    TINESAGE_TRACE_LOOP_FROM = 2, /* the first value of a loop variable */
    TINESAGE_TRACE_LOOP_TO = 3,   /* the value before which the loop ends */
    TINESAGE_TRACE_INDEX = 4,     /* the index of a cell that is read or written */
    TINESAGE_TRACE_DIVIDEND = 5,
    TINESAGE_TRACE_DIVISOR = 6,
    TINESAGE_TRACE_CALL = 7,       /* the number of the procedure called */
    TINESAGE_TRACE_RETURN = 8,     /* 0 */
    TINESAGE_TRACE_SHIFT_COUNT = 9 /* the count of a shift or rotation, before the modulo */
};

/* the result of a comparison: whether a probe's recording agrees with a trace */
enum tinesage_comparison {
    TINESAGE_PART = 0,
    TINESAGE_AGREE = 1
};

/* ---- words, answers and trace entries in lent bytes ---- */

/* the word at an index, counted in words */
static inline uint32_t tinesage_word(const uint8_t *bytes, size_t index)
{
    const uint8_t *b = bytes + 4 * index;
    return (uint32_t)b[0] << 24 | (uint32_t)b[1] << 16 | (uint32_t)b[2] << 8 | b[3];
}

static inline void tinesage_put_word(uint8_t *bytes, size_t index, uint32_t word)
{
    uint8_t *b = bytes + 4 * index;
    b[0] = (uint8_t)(word >> 24);
    b[1] = (uint8_t)(word >> 16);
    b[2] = (uint8_t)(word >> 8);
    b[3] = (uint8_t)word;
}

struct tinesage_answer {
    uint32_t status; /* enum tinesage_status */
    uint32_t number; /* enum tinesage_refusal, enum tinesage_stop; 0 where done */
    uint32_t place;
    uint32_t result;
    uint32_t steps;
    uint64_t count;
};

static inline struct tinesage_answer tinesage_read_answer(const uint8_t bytes[TINESAGE_ANSWER])
{
    struct tinesage_answer a;
    a.status = tinesage_word(bytes, 0);
    a.number = tinesage_word(bytes, 1);
    a.place = tinesage_word(bytes, 2);
    a.result = tinesage_word(bytes, 3);
    a.steps = tinesage_word(bytes, 4);
    a.count = (uint64_t)tinesage_word(bytes, 5) << 32 | tinesage_word(bytes, 6);
    return a;
}

struct tinesage_trace_entry {
    uint32_t kind; /* enum tinesage_trace_kind */
    uint32_t place;
    uint32_t value;
};

/* the entry at an index, counted in entries: a call that answers `count` has recorded count / 2 */
static inline struct tinesage_trace_entry tinesage_read_entry(const uint8_t *trace, size_t index)
{
    struct tinesage_trace_entry e;
    e.kind = tinesage_word(trace, 2 * index) >> 28;
    e.place = tinesage_word(trace, 2 * index) & 0x0FFFFFFF;
    e.value = tinesage_word(trace, 2 * index + 1);
    return e;
}

/* ---- the functions ---- */

/* the most words of a description: 4, 2 for each of 16 arrays, 12 for each of 32 procedures */
#define TINESAGE_MOST_DESCRIPTION 420

/*
 * Checks an image, in source or compiled form.
 *
 * Done: the rules admit it; result, steps and count are 0.
 * Refused: 1 to 13.
 * Written: the answer.
 */
void tinesage_check(const uint8_t *image, size_t image_len, uint8_t *answer, size_t answer_len);

/*
 * Compiles an image in source form. No branch and no early return of the compiled image depends on
 * a secret.
 *
 * Done: count is the number of words written; result and steps are 0.
 * Refused: 1 to 13 as by tinesage_check; then 14, the image is in compiled form already; 15, the
 *   result would have more than TINESAGE_MOST_WORDS words; 16, `out` has fewer words than the
 *   result.
 * Written: the answer; where done, the first `count` words of `out`: the compiled image. Room for
 *   TINESAGE_MOST_WORDS words is always enough. After a refusal `out` is as before.
 */
void tinesage_compile(const uint8_t *image, size_t image_len, uint8_t *out, size_t out_len,
                      uint8_t *answer, size_t answer_len);

/*
 * Describes an image, in source or compiled form: what a host has to know before it lends cells and
 * arguments. The words of a description, for A arrays and P procedures:
 *
 *     word                    holds
 *     0                       the form: 0 source, 1 compiled
 *     1                       A, the number of arrays
 *     2                       P, the number of procedures
 *     3                       the number of cells of all arrays together
 *     4 + 2 * a               array a, from 0: its label, 0 public, 1 secret
 *     4 + 2 * a + 1           its length in cells
 *     4 + 2 * A + 12 * f      procedure f, from 0: its mode, 0 open, 1 guarded
 *       + 1                   the number of its parameters, at most 9: a call takes as many arguments
 *       + 2                   the type of its result
 *       + 3 + k               the type of parameter k, from 0 to 8; 0 where it has no such parameter
 *
 * A type is sort * 2 + label: 0 public word, 1 secret word, 2 public boolean, 3 secret boolean.
 *
 * Done: count is the number of words written, 4 + 2 * A + 12 * P; result and steps are 0.
 * Refused: 1 to 13 as by tinesage_check; then 16, `out` has fewer words than the description.
 * Written: the answer; where done, the first `count` words of `out`: the description. Room for
 *   TINESAGE_MOST_DESCRIPTION words is always enough. After a refusal `out` is as before.
 */
void tinesage_describe(const uint8_t *image, size_t image_len, uint8_t *out, size_t out_len,
                       uint8_t *answer, size_t answer_len);

/*
 * Loads an image: where done, the host lends this image with the requests below from now on.
 *
 * Done: result, steps and count are 0.
 * Refused: 1 to 13 as by tinesage_check; then 17, `cells` has fewer words than the arrays of the
 *   image together. The image that was in force stays so.
 * Written: the answer; where done, the cells of the image's arrays are 0, and the words after them
 *   stay. After a refusal `cells` is as before.
 */
void tinesage_load(const uint8_t *image, size_t image_len, uint8_t *cells, size_t cells_len,
                   uint8_t *answer, size_t answer_len);

/*
 * Sets the cells of the image's arrays to 0.
 *
 * Done and written: as by tinesage_load.
 * Refused: 20, the image is empty (nothing has been loaded); then as by tinesage_load.
 */
void tinesage_clear(const uint8_t *image, size_t image_len, uint8_t *cells, size_t cells_len,
                    uint8_t *answer, size_t answer_len);

/*
 * Writes one cell.
 *
 * Done: result, steps and count are 0.
 * Refused: as by tinesage_clear; then 17, no such array, or no such cell in it.
 * Written: the answer; where done, the cell `index` of the array `array` holds `value`. After a
 *   refusal `cells` is as before.
 */
void tinesage_poke(const uint8_t *image, size_t image_len, uint8_t *cells, size_t cells_len,
                   uint32_t array, uint32_t index, uint32_t value, uint8_t *answer,
                   size_t answer_len);

/*
 * Reads one cell.
 *
 * Done: result is the cell's word; steps and count are 0.
 * Refused: as by tinesage_poke.
 * Written: the answer.
 */
void tinesage_peek(const uint8_t *image, size_t image_len, const uint8_t *cells, size_t cells_len,
                   uint32_t array, uint32_t index, uint8_t *answer, size_t answer_len);

/*
 * Runs a procedure on `arguments`, one word for each parameter (for a boolean: 0 false, else true),
 * in at most `budget` steps. Each statement begun and each pass of a loop is a step.
 *
 * What an onlooker could learn is recorded in `trace`, in entries of two words, kind * 2^28 +
 * place, then value: enum tinesage_trace_kind. tinesage_read_entry takes an entry apart.
 *
 * Done: result is the value returned, 0 or 1 for a boolean, 0 where the body falls off its end;
 *   steps and count are those of the run.
 * Stopped: 21, the budget is spent; 22, fewer than two trace words are free for an entry; 23, an
 *   index is beyond its array; 24, a divisor is 0. Steps and count are those of the run so far.
 * Refused, before the first step: as by tinesage_clear; then 17, no such procedure; 18, another
 *   number of arguments than of parameters.
 * Written: the answer; the first `count` words of `trace`; where done, the cells that the run
 *   stored to. After a stop or a refusal `cells` is as before the call.
 */
void tinesage_call(const uint8_t *image, size_t image_len, uint8_t *cells, size_t cells_len,
                   uint32_t procedure, const uint8_t *arguments, size_t arguments_len,
                   uint32_t budget, uint8_t *trace, size_t trace_len, uint8_t *answer,
                   size_t answer_len);

/*
 * Previews a call: answers and records what tinesage_call would with the same slices and numbers,
 * and leaves every cell. `cells` is only read, so it may lie in memory that cannot be written.
 *
 * Done, stopped and refused: as by tinesage_call, with the same result, number, place, steps and
 * count.
 * Written: the answer; the first `count` words of `trace`, as by tinesage_call.
 *
 * How long a trace a call needs: unless the preview is stopped with 22, the call with the same
 * cells, arguments and budget records `count` words too, and a trace slice of 4 * count bytes is
 * enough for it. With a slice that is too short the preview is stopped with 22, as the call would
 * be; the host lends a longer one and asks again, since nothing has changed.
 */
void tinesage_preview(const uint8_t *image, size_t image_len, const uint8_t *cells,
                      size_t cells_len, uint32_t procedure, const uint8_t *arguments,
                      size_t arguments_len, uint32_t budget, uint8_t *trace, size_t trace_len,
                      uint8_t *answer, size_t answer_len);

/*
 * Answers how many steps a call of a procedure takes at most, from the image alone, so that a host
 * can reserve them before the call. Every statement counts 1, also one behind a return; a for adds
 * for each of its passes 1 and the statements of its block, an if adds the larger of its two
 * blocks, a call adds the bound of the procedure called.
 *
 * A call or preview with whatever cells, arguments, budget and trace slice takes no more steps, and
 * with a budget of at least the bound it is never stopped with 21. Where neither the procedure nor
 * any that it calls, directly or through others, has an if, or a return other than as the last
 * statement of its body, a call that is done has taken exactly so many.
 *
 * Done: result is the bound; steps and count are 0.
 * Refused: as by tinesage_clear; then 17, no such procedure; 32, the bounds of a for are not both
 *   constants; 33, the bound is above 4,294,967,295. The place of 32 is the first such for of the
 *   procedure, else of the lowest-numbered one with such a for among all that it calls, directly or
 *   through others.
 * Written: the answer. What the cells hold makes no difference to it.
 */
void tinesage_bound(const uint8_t *image, size_t image_len, const uint8_t *cells, size_t cells_len,
                    uint32_t procedure, uint8_t *answer, size_t answer_len);

/*
 * Holds a board probe's recording against a trace. The probe records the same call without this
 * library; it sees branches, indices and calls, with their values and no places.
 *
 *   trace   The words that a call or preview has recorded and no more: of the slice lent to it the
 *           first 4 * count bytes. What stands behind them would count as entries. Compared are the
 *           entries of kinds 1, 4 and 7, their places removed. A lone last word is no entry.
 *   probe   Entries of two words, kind * 2^28, then value, of these three kinds. A pair that begins
 *           otherwise, with a place or another kind in its first word, and a lone last word are
 *           each an entry equal to none.
 *
 * Done, always: result is TINESAGE_AGREE where both have the same entries in the same order, else
 *   TINESAGE_PART; count is the number of entries before they part. Where one is longer, they part
 *   at the end of the shorter. Where they agree, count is the number of all entries, so that an
 *   agreement over none can be told. Steps are 0.
 * Written: the answer.
 */
void tinesage_compare(const uint8_t *trace, size_t trace_len, const uint8_t *probe,
                      size_t probe_len, uint8_t *answer, size_t answer_len);

#ifdef __cplusplus
}
#endif

#endif
