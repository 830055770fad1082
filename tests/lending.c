/*
 * What each lent byte holds after a request: slices with spare words and odd lengths, slices that are too short for the
 * answer, refusals and stops. A preview is held to the call with the same arguments: the same bytes, and no cell. A
 * routine whose index is a loop variable plus a constant is held to sums that are computed here, and one whose secret ifs
 * share their variables to what the same ifs give in C. The bounds on steps of calls in loops are held to products that
 * are computed here, and to the steps that such calls take. A probe's recording is compared with a trace at all their
 * lengths and with each of their bits changed.
 * Prints 'N passed, M failed' as its last line; a function that writes to bytes which it may only read ends the program
 * before that line.
 */
#include <signal.h>
#include <stdio.h>
#include <stdlib.h>
#include <string.h>
#include <sys/mman.h>
#include <unistd.h>

#include "tinesage.h"

static unsigned passed, failed;

static void expect(const char *what, int holds)
{
    if (holds) {
        passed++;
    } else {
        failed++;
        printf("FAILED: %s\n", what);
    }
}

/* Two cells, one parameter x: cell 1 := x; then a return of cell x, which stops with 23 unless x is 0 or 1. */
static const uint32_t writer_words[] = {
    0x10000101, 0x20000002, 0x30000100, 0x40000000, 0x40000000, 0x50000002,
    0x60010000, 0x70000001, 0xA0000000, 0x60040000, 0xB0000000, 0xA0000000,
};
#define WRITER_WORDS (sizeof writer_words / sizeof writer_words[0])

static uint8_t writer[4 * WRITER_WORDS];

/* A slice under test and the bytes that it must hold afterwards; both start with bytes that no request writes. */
#define LONGEST 256
struct watched {
    uint8_t lent[LONGEST];
    uint8_t expected[LONGEST];
};

static void reset(struct watched *w)
{
    for (size_t i = 0; i < LONGEST; i++)
        w->lent[i] = w->expected[i] = (uint8_t)(0xA5 ^ (i * 7));
}

static int as_expected(const struct watched *w)
{
    return memcmp(w->lent, w->expected, LONGEST) == 0;
}

static void expect_answer(struct watched *w, const uint32_t words[7])
{
    for (size_t i = 0; i < 7; i++)
        tinesage_put_word(w->expected, i, words[i]);
}

/* The functions with one set of slices; the cells are lent with three spare words and three spare bytes. */
#define CELLS_LENT (4 * 5 + 3)
static struct watched answer, cells, out, trace;
static size_t answer_length, trace_length, out_length;

static void reset_all(void)
{
    reset(&answer);
    reset(&cells);
    reset(&out);
    reset(&trace);
    answer_length = TINESAGE_ANSWER;
    trace_length = out_length = LONGEST;
}

static void expect_all(const char *what)
{
    expect(what, as_expected(&answer) && as_expected(&cells) && as_expected(&out) && as_expected(&trace));
}

static void check(size_t image_length)
{
    tinesage_check(writer, image_length, answer.lent, answer_length);
}

static void compile(void)
{
    tinesage_compile(writer, sizeof writer, out.lent, out_length, answer.lent, answer_length);
}

static void describe(void)
{
    tinesage_describe(writer, sizeof writer, out.lent, out_length, answer.lent, answer_length);
}

static void load(size_t cells_length)
{
    tinesage_load(writer, sizeof writer, cells.lent, cells_length, answer.lent, answer_length);
}

static void clear(size_t cells_length)
{
    tinesage_clear(writer, sizeof writer, cells.lent, cells_length, answer.lent, answer_length);
}

static void poke(uint32_t index, uint32_t value)
{
    tinesage_poke(writer, sizeof writer, cells.lent, CELLS_LENT, 0, index, value, answer.lent, answer_length);
}

static void peek(uint32_t index)
{
    tinesage_peek(writer, sizeof writer, cells.lent, CELLS_LENT, 0, index, answer.lent, answer_length);
}

static void call(uint32_t argument, size_t arguments_length, uint32_t budget)
{
    uint8_t arguments[12] = {0};
    tinesage_put_word(arguments, 0, argument);
    tinesage_call(writer, sizeof writer, cells.lent, CELLS_LENT, 0, arguments, arguments_length, budget, trace.lent,
                  trace_length, answer.lent, answer_length);
}

static void check_cases(void)
{
    reset_all();
    check(sizeof writer);
    expect_answer(&answer, (const uint32_t[7]){0});
    expect_all("check: accepted");
    reset_all();
    check(sizeof writer - 1);
    expect_answer(&answer, (const uint32_t[7]){2, 1});
    expect_all("check: a byte too few");
}

static void compile_cases(void)
{
    for (size_t spare = 0; spare < 8; spare++) {
        reset_all();
        out_length = sizeof writer + spare;
        compile();
        expect_answer(&answer, (const uint32_t[7]){0, 0, 0, 0, 0, 0, WRITER_WORDS});
        memcpy(out.expected, writer, sizeof writer);
        tinesage_put_word(out.expected, 0, 0x10010101);
        expect_all("compile: only the result is written");
    }
    for (size_t missing = 1; missing <= sizeof writer; missing++) {
        reset_all();
        out_length = sizeof writer - missing;
        compile();
        expect_answer(&answer, (const uint32_t[7]){2, 16});
        expect_all("compile: a short slice stays");
    }
}

/* ---- compiled images that are longer than short arrays, or over the limits: the words are there before the refusal is ---- */

static uint8_t source[4 * TINESAGE_MOST_SOURCE_WORDS], result[4 * TINESAGE_MOST_WORDS + 7];
static size_t source_words;

static void push(uint32_t word)
{
    tinesage_put_word(source, source_words++, word);
}

/* one guarded procedure of so many equal returns; each but the first becomes fourteen words */
static void make_returns(uint32_t count)
{
    source_words = 0;
    push(0x10000001), push(0x30010000), push(0x40000001), push(0x50000000 | count);
    for (uint32_t i = 0; i < count; i++)
        push(0x60040000), push(0x70000001);
}

/* one procedure of so many empty ifs over a secret parameter; each becomes five words, and all share two locals */
static void make_ifs(uint32_t count)
{
    source_words = 0;
    push(0x10000001), push(0x30000100), push(0x40000001), push(0x40000003), push(0x50000000 | count);
    for (uint32_t i = 0; i < count; i++)
        push(0x60020000), push(0xA0000000), push(0x50000000), push(0x50000000);
}

/*
 * a guarded procedure of so many calls of another, which has so many locals; each call becomes seven words, and all share
 * one local
 */
static void make_calls(uint32_t count, uint32_t locals)
{
    source_words = 0;
    push(0x10000002), push(0x30010000 | locals), push(0x40000001);
    for (uint32_t i = 0; i < locals; i++)
        push(0x40000000);
    push(0x50000000), push(0x30010001), push(0x40000001), push(0x40000001), push(0x50000000 | count);
    for (uint32_t i = 0; i < count; i++)
        push(0x60050000);
}

/* `number` 0: the result is written, and can be loaded; else no byte is */
static void expect_compiled(const char *what, size_t length, uint32_t number, size_t words)
{
    uint8_t bytes[TINESAGE_ANSWER];
    memset(result, 0xA5, sizeof result);
    tinesage_compile(source, 4 * source_words, result, length, bytes, sizeof bytes);
    struct tinesage_answer a = tinesage_read_answer(bytes);
    int stays = 1;
    for (size_t i = 4 * words; i < sizeof result; i++)
        stays = stays && result[i] == 0xA5;
    expect(what, a.number == number && a.count == words && stays);
    if (number != 0)
        return;
    tinesage_load(result, 4 * words, NULL, 0, bytes, sizeof bytes);
    expect("compile: a long result can be loaded", tinesage_read_answer(bytes).status == TINESAGE_DONE);
}

static void long_compile_cases(void)
{
    static const uint32_t counts[] = {60, 200, 1000}; /* short, short with a long result, long */
    for (size_t i = 0; i < sizeof counts / sizeof counts[0]; i++) {
        size_t words = 7 + 14 * (size_t)counts[i];
        make_returns(counts[i]);
        expect_compiled("compile: a result is written", sizeof result, 0, words);
        expect_compiled("compile: a result that fills its slice is written", 4 * words, 0, words);
        expect_compiled("compile: 16 where a word is missing", 4 * words - 1, 16, 0);
        expect_compiled("compile: 16 where most are missing", 4, 16, 0);
    }
    make_returns(2000);
    expect_compiled("compile: 15 for too many words", sizeof result, 15, 0);
    expect_compiled("compile: 15 for too many words before 16", 0, 15, 0);
    make_calls(2339, 0);
    expect_compiled("compile: a result of the most words is written", sizeof result, 0, TINESAGE_MOST_WORDS);
    expect_compiled("compile: a result of the most words fills its slice", 4 * TINESAGE_MOST_WORDS, 0, TINESAGE_MOST_WORDS);
    expect_compiled("compile: 16 where a byte of them is missing", 4 * TINESAGE_MOST_WORDS - 1, 16, 0);
    make_calls(2339, 1);
    expect_compiled("compile: 15 for a word more", sizeof result, 15, 0);
    expect_compiled("compile: 15 for a word more before 16", 0, 15, 0);
}

/* 123 ifs, the most that could have two locals each, as they had before document 02, wish 8, and more; calls likewise */
static void shared_locals_cases(void)
{
    static const uint32_t counts[] = {123, 124, 1022};
    for (size_t i = 0; i < sizeof counts / sizeof counts[0]; i++) {
        size_t words = 7 + 5 * (size_t)counts[i];
        make_ifs(counts[i]);
        expect_compiled("compile: many ifs share their locals", sizeof result, 0, words);
        expect("compile: two new locals for many ifs", tinesage_word(result, 1) == 0x30000102 &&
               tinesage_word(result, 4) == 0x40000003 && tinesage_word(result, 5) == 0x40000003);
        expect_compiled("compile: many ifs, 16 where a word is missing", 4 * words - 1, 16, 0);
    }
    make_calls(246, 0);
    expect_compiled("compile: many calls share their local", sizeof result, 0, 11 + 7 * 246);
    expect("compile: one new local for many calls", tinesage_word(result, 5) == 0x30000102 &&
           tinesage_word(result, 9) == 0x40000001);
}

/* Source form, one array, one procedure, two cells; a public array of two; an open procedure with one parameter, its
 * types public words. */
static const uint32_t description[] = {0, 1, 1, 2, 0, 2, 0, 1, 0, 0, 0, 0, 0, 0, 0, 0, 0, 0};

static void describe_cases(void)
{
    for (size_t spare = 0; spare < 8; spare++) {
        reset_all();
        out_length = sizeof description + spare;
        describe();
        expect_answer(&answer, (const uint32_t[7]){0, 0, 0, 0, 0, 0, sizeof description / 4});
        for (size_t i = 0; i < sizeof description / 4; i++)
            tinesage_put_word(out.expected, i, description[i]);
        expect_all("describe: only the description is written");
    }
    for (size_t missing = 1; missing <= sizeof description; missing++) {
        reset_all();
        out_length = sizeof description - missing;
        describe();
        expect_answer(&answer, (const uint32_t[7]){2, 16});
        expect_all("describe: a short slice stays");
    }
}

/* the image's two cells are 0 where so many bytes hold them */
static void expect_zeroed(const char *what, size_t length)
{
    int room = length >= 8;
    expect_answer(&answer, room ? (const uint32_t[7]){0} : (const uint32_t[7]){2, 17});
    memset(cells.expected, 0, room ? 8 : 0);
    expect_all(what);
}

static void load_and_clear_cases(void)
{
    for (size_t length = 0; length <= CELLS_LENT; length++) {
        reset_all();
        load(length);
        expect_zeroed("load: the image's cells are 0, or all stay", length);
        reset_all();
        clear(length);
        expect_zeroed("clear: the image's cells are 0, or all stay", length);
    }
}

static void poke_and_peek_cases(void)
{
    for (uint32_t index = 0; index < 4; index++) {
        int there = index < 2;
        reset_all();
        poke(index, 0x12345678);
        expect_answer(&answer, there ? (const uint32_t[7]){0} : (const uint32_t[7]){2, 17});
        if (there)
            tinesage_put_word(cells.expected, index, 0x12345678);
        expect_all("poke: one cell is written, or none");
        reset_all();
        peek(index);
        expect_answer(&answer, there ? (const uint32_t[7]){0, 0, 0, tinesage_word(cells.lent, index)}
                                     : (const uint32_t[7]){2, 17});
        expect_all("peek: the cell, and all stay");
    }
}

/* the entries of a run: index 1 at the store, the index x at word 10, the return at word 9 */
static const uint32_t entries[] = {0x40000006, 1, 0x4000000A, 1, 0x80000009, 0};

static void expect_trace(uint32_t count, uint32_t index)
{
    for (uint32_t i = 0; i < count; i++)
        tinesage_put_word(trace.expected, i, i == 3 ? index : entries[i]);
}

static void call_cases(void)
{
    for (size_t length = 24; length < 32; length++) {
        reset_all();
        trace_length = length;
        call(1, 4 + length % 4, 2);
        expect_answer(&answer, (const uint32_t[7]){0, 0, 0, 1, 2, 0, 6});
        tinesage_put_word(cells.expected, 1, 1);
        expect_trace(6, 1);
        expect_all("call: done, with spare bytes in the arguments and the trace");
    }
}

static void full_trace_cases(void)
{
    static const uint32_t places[] = {6, 10, 9};
    for (uint32_t length = 0; length < 24; length++) {
        uint32_t room = length / 8;
        reset_all();
        trace_length = length;
        call(1, 4, 2);
        expect_answer(&answer, (const uint32_t[7]){1, 22, places[room], 0, room == 0 ? 1 : 2, 0, 2 * room});
        expect_trace(2 * room, 1);
        expect_all("call: trace full, cells as before");
    }
}

static void stop_and_refusal_cases(void)
{
    reset_all();
    call(2, 4, 2);
    expect_answer(&answer, (const uint32_t[7]){1, 23, 10, 0, 2, 0, 4});
    expect_trace(4, 2);
    expect_all("call: index beyond the array, cells as before");
    reset_all();
    call(1, 4, 1);
    expect_answer(&answer, (const uint32_t[7]){1, 21, 9, 0, 1, 0, 2});
    expect_trace(2, 1);
    expect_all("call: budget spent, cells as before");
    reset_all();
    call(1, 3, 2);
    expect_answer(&answer, (const uint32_t[7]){2, 18});
    expect_all("call: refused, and all stay");
}

/* a slice too short for the answer stays, and the request is carried out; in a longer one the rest stays */
static void answer_cases(void)
{
    for (size_t length = 0; length < 2 * TINESAGE_ANSWER; length++) {
        reset_all();
        answer_length = length;
        poke(1, 0xCAFEF00D);
        if (length >= TINESAGE_ANSWER)
            expect_answer(&answer, (const uint32_t[7]){0});
        tinesage_put_word(cells.expected, 1, 0xCAFEF00D);
        expect_all("poke: the answer's slice");
        reset(&answer);
        reset(&cells);
        call(1, 4, 2);
        if (length >= TINESAGE_ANSWER)
            expect_answer(&answer, (const uint32_t[7]){0, 0, 0, 1, 2, 0, 6});
        tinesage_put_word(cells.expected, 1, 1);
        expect_trace(6, 1);
        expect_all("call: the answer's slice");
    }
}

/* ---- previews ---- */

/*
 * Two cells, one parameter x: cell 1 := x; then a return of cell x divided by x, which stops with 24 where x is 0 and
 * with 23 where it is above 1.
 */
static const uint32_t divider_words[] = {
    0x10000101, 0x20000002, 0x30000100, 0x40000000, 0x40000000, 0x50000002, 0x60010000,
    0x70000001, 0xA0000000, 0x60040000, 0xD0000009, 0xB0000000, 0xA0000000, 0xA0000000,
};
#define DIVIDER_WORDS (sizeof divider_words / sizeof divider_words[0])
#define BLOCK_WORD 5

/* so many statements that are never begun follow the return: for each length the library has arrays of its own */
static const uint32_t unused_statements[] = {0, 100, 600};

static uint8_t divider[4 * (DIVIDER_WORDS + 2 * 600)];
static size_t divider_length;

static void make_divider(uint32_t unused)
{
    size_t count = 0;
    for (; count < DIVIDER_WORDS; count++)
        tinesage_put_word(divider, count, divider_words[count] + (count == BLOCK_WORD ? unused : 0));
    for (uint32_t i = 0; i < unused; i++) {
        tinesage_put_word(divider, count++, 0x60000000);
        tinesage_put_word(divider, count++, 0x70000000);
    }
    divider_length = 4 * count;
}

/* what a call and its preview are lent, in bytes, and the number that both have to answer, 0 for a result */
struct run {
    const char *what;
    uint32_t number;
    size_t image, cells;
    uint32_t procedure, argument;
    size_t arguments;
    uint32_t budget;
    size_t trace;
};

#define ALL SIZE_MAX

static const struct run runs[] = {
    /* number, image, cells, procedure, argument, arguments, budget, trace */
    {"a result", 0, ALL, CELLS_LENT, 0, 1, 4, 2, LONGEST},
    {"a result, the trace just long enough", 0, ALL, CELLS_LENT, 0, 1, 4, 2, 40},
    {"a result, with spare bytes", 0, ALL, 11, 0, 1, 7, 2, 43},
    {"budget spent before the first step", 21, ALL, CELLS_LENT, 0, 1, 4, 0, LONGEST},
    {"budget spent", 21, ALL, CELLS_LENT, 0, 1, 4, 1, LONGEST},
    {"no trace", 22, ALL, CELLS_LENT, 0, 1, 4, 2, 0},
    {"trace full", 22, ALL, CELLS_LENT, 0, 1, 4, 2, 39},
    {"index beyond the array", 23, ALL, CELLS_LENT, 0, 2, 4, 2, LONGEST},
    {"divisor 0", 24, ALL, CELLS_LENT, 0, 0, 4, 2, LONGEST},
    {"no image", 20, 0, CELLS_LENT, 0, 1, 4, 2, LONGEST},
    {"not whole words", 1, 55, CELLS_LENT, 0, 1, 4, 2, LONGEST},
    {"a word is missing", 3, 52, CELLS_LENT, 0, 1, 4, 2, LONGEST},
    {"few cells", 17, ALL, 7, 0, 1, 4, 2, LONGEST},
    {"no such procedure", 17, ALL, CELLS_LENT, 1, 1, 4, 2, LONGEST},
    {"an argument is missing", 18, ALL, CELLS_LENT, 0, 1, 3, 2, LONGEST},
    {"an argument too many", 18, ALL, CELLS_LENT, 0, 1, 8, 2, LONGEST},
};

/* short of an answer, and with spare bytes behind it */
static const size_t answer_lengths[] = {0, TINESAGE_ANSWER - 1, TINESAGE_ANSWER, TINESAGE_ANSWER + 3};

static size_t run_image(const struct run *r)
{
    return r->image == ALL ? divider_length : r->image;
}

static void preview_run(const struct run *r, const uint8_t *lent_cells)
{
    uint8_t arguments[12] = {0};
    tinesage_put_word(arguments, 0, r->argument);
    tinesage_preview(divider, run_image(r), lent_cells, r->cells, r->procedure, arguments, r->arguments, r->budget,
                     trace.lent, r->trace, answer.lent, answer_length);
}

static void call_run(const struct run *r)
{
    uint8_t arguments[12] = {0};
    tinesage_put_word(arguments, 0, r->argument);
    tinesage_call(divider, run_image(r), cells.lent, r->cells, r->procedure, arguments, r->arguments, r->budget,
                  trace.lent, r->trace, answer.lent, answer_length);
}

/* bytes in a page of their own, which is made read-only; as long as a page of the processor */
#define PAGE 4096
static _Alignas(PAGE) uint8_t read_only[PAGE];

static void set_read_only(const uint8_t *bytes, size_t length)
{
    int writable = mprotect(read_only, PAGE, PROT_READ | PROT_WRITE);
    memcpy(read_only, bytes, length);
    expect("the page cannot be written", writable == 0 && mprotect(read_only, PAGE, PROT_READ) == 0);
}

/* what the run under way is; a fault would else end the program without a word */
static const char *under_way;

static void on_fault(int signal)
{
    static const char text[] = "FAILED: bytes are written that may only be read: ";
    (void)signal;
    if (write(STDOUT_FILENO, text, sizeof text - 1) < 0 || write(STDOUT_FILENO, under_way, strlen(under_way)) < 0)
        _exit(2);
    _exit(1);
}

static void expect_named(const char *what, const struct run *r, int holds)
{
    char text[128];
    snprintf(text, sizeof text, "%s: %s", what, r->what);
    expect(text, holds);
}

/* the bytes that the call writes are what the preview has to write */
static void expect_previewed(const struct run *r)
{
    struct watched answered, recorded;
    preview_run(r, cells.lent);
    expect_named("preview: every cell stays", r, as_expected(&cells));
    answered = answer;
    recorded = trace;
    reset(&answer);
    reset(&trace);
    preview_run(r, read_only);
    int again = memcmp(answered.lent, answer.lent, LONGEST) == 0 && memcmp(recorded.lent, trace.lent, LONGEST) == 0;
    expect_named("preview: the same again, with cells that cannot be written", r, again);
    reset(&answer);
    reset(&trace);
    call_run(r);
    expect_named("preview: the call's answer", r, memcmp(answered.lent, answer.lent, LONGEST) == 0);
    expect_named("preview: the call's trace", r, memcmp(recorded.lent, trace.lent, LONGEST) == 0);
}

/* what the call does beside: it ends as the table has it, and stores only where it ends with a result */
static void expect_called(const struct run *r)
{
    if (answer_length >= TINESAGE_ANSWER)
        expect_named("call: its number", r, tinesage_read_answer(answer.lent).number == r->number);
    if (r->number == 0)
        tinesage_put_word(cells.expected, 1, r->argument);
    expect_named("call: its cells", r, as_expected(&cells));
}

static void preview_cases(void)
{
    reset(&cells);
    set_read_only(cells.lent, LONGEST);
    signal(SIGSEGV, on_fault);
    for (size_t i = 0; i < sizeof unused_statements / sizeof unused_statements[0]; i++) {
        make_divider(unused_statements[i]);
        for (size_t k = 0; k < sizeof runs / sizeof runs[0]; k++) {
            for (size_t n = 0; n < sizeof answer_lengths / sizeof answer_lengths[0]; n++) {
                under_way = runs[k].what;
                reset_all();
                answer_length = answer_lengths[n];
                expect_previewed(&runs[k]);
                expect_called(&runs[k]);
            }
        }
    }
}

/* ---- an index that is a loop variable plus a constant, under a secret condition ---- */

/*
 * Array 0 is a number of four cells of 16 bits, the lowest first, with a fifth for the carry; array 1 one of four.
 * Where the secret parameter is true, array 1 is added to array 0, the carry of cell i going to cell i + 1.
 */
static const uint32_t carry_words[] = {
    0x10000201, 0x20010005, 0x20010004, 0x30000101, 0x40000001, 0x40000003, 0x40000000, 0x50000002, 0x60020000,
    0xA0000000, 0x50000001, 0x60030001, 0x70000000, 0x70000004, 0x50000003, 0x60010000, 0xA0000001, 0xD0000000,
    0xB0000000, 0xA0000001, 0xB0000001, 0xA0000001, 0x60010000, 0xD0000000, 0xA0000001, 0x70000001, 0xD0000000,
    0xB0000000, 0xD0000000, 0x70000001, 0xA0000001, 0xD0000007, 0xB0000000, 0xA0000001, 0x70000010, 0x60010000,
    0xA0000001, 0xD0000003, 0xB0000000, 0xA0000001, 0x7000FFFF, 0x50000000, 0x60040000, 0xB0000000, 0x70000004,
};

/* the same compiled, worked out by hand from the paper: docs/IMAGE.md has a line for each word */
static const uint32_t carry_compiled[] = {
    0x10010201, 0x20010005, 0x20010004, 0x30000103, 0x40000001, 0x40000003, 0x40000000, 0x40000003, 0x40000003,
    0x50000004, 0x60000002, 0xA0000000, 0x60000003, 0xC0000000, 0xA0000002, 0x60030001, 0x70000000, 0x70000004,
    0x50000003, 0x60010000, 0xA0000001, 0xE0000000, 0xA0000002, 0xD0000000, 0xB0000000, 0xA0000001, 0xB0000001,
    0xA0000001, 0xB0000000, 0xA0000001, 0x60010000, 0xD0000000, 0xA0000001, 0x70000001, 0xE0000000, 0xA0000002,
    0xD0000000, 0xB0000000, 0xD0000000, 0x70000001, 0xA0000001, 0xD0000007, 0xB0000000, 0xA0000001, 0x70000010,
    0xB0000000, 0xD0000000, 0xA0000001, 0x70000001, 0x60010000, 0xA0000001, 0xE0000000, 0xA0000002, 0xD0000003,
    0xB0000000, 0xA0000001, 0x7000FFFF, 0xB0000000, 0xA0000001, 0x60040000, 0xB0000000, 0x70000004,
};

#define CARRY_SOURCE (sizeof carry_words)
#define CARRY_COMPILED (sizeof carry_compiled)
#define CARRY_CELLS (4 * 9 + 3)
/* a compiled call records 52 entries, so many words, and takes so many steps */
#define CARRY_TRACE 104
#define CARRY_STEPS 20

static uint8_t carry_image[CARRY_COMPILED], carry_trace[2][4 * CARRY_TRACE];

static void put_words(uint8_t *bytes, const uint32_t *words, size_t length)
{
    for (size_t i = 0; i < length / 4; i++)
        tinesage_put_word(bytes, i, words[i]);
}

static void carry_compile_case(void)
{
    uint8_t carry_source[CARRY_SOURCE];
    put_words(carry_source, carry_words, CARRY_SOURCE);
    reset_all();
    tinesage_compile(carry_source, CARRY_SOURCE, out.lent, LONGEST, answer.lent, answer_length);
    expect_answer(&answer, (const uint32_t[7]){0, 0, 0, 0, 0, 0, CARRY_COMPILED / 4});
    put_words(out.expected, carry_compiled, CARRY_COMPILED);
    expect_all("carry chain: compiled to the words that the paper gives");
    put_words(carry_image, carry_compiled, CARRY_COMPILED);
}

/* a number in four cells of a slice */
static void put_number(uint8_t *bytes, size_t first, uint64_t number)
{
    for (size_t i = 0; i < 4; i++)
        tinesage_put_word(bytes, first + i, (uint32_t)(number >> 16 * i & 0xFFFF));
}

static void expect_sum(int added, uint64_t left, uint64_t right)
{
    put_number(cells.expected, 0, added ? left + right : left);
    tinesage_put_word(cells.expected, 4, added && left + right < left ? 1 : 0);
    put_number(cells.expected, 5, right);
}

static void carry_run(uint32_t condition, int preview)
{
    uint8_t arguments[4];
    tinesage_put_word(arguments, 0, condition);
    memset(carry_trace[condition], 0, sizeof carry_trace[condition]);
    if (preview)
        tinesage_preview(carry_image, CARRY_COMPILED, cells.lent, CARRY_CELLS, 0, arguments, 4, CARRY_STEPS,
                         carry_trace[condition], sizeof carry_trace[condition], answer.lent, answer_length);
    else
        tinesage_call(carry_image, CARRY_COMPILED, cells.lent, CARRY_CELLS, 0, arguments, 4, CARRY_STEPS,
                      carry_trace[condition], sizeof carry_trace[condition], answer.lent, answer_length);
}

/* with the condition false and true: only the sum differs, and a preview leaves the cells */
static void carry_sum_cases(uint64_t left, uint64_t right)
{
    for (uint32_t condition = 0; condition < 2; condition++) {
        uint32_t carried = condition == 1 && left + right < left ? 1 : 0;
        reset_all();
        tinesage_load(carry_image, CARRY_COMPILED, cells.lent, CARRY_CELLS, answer.lent, answer_length);
        put_number(cells.lent, 0, left);
        put_number(cells.lent, 5, right);
        carry_run(condition, 1);
        expect_sum(0, left, right);
        expect_answer(&answer, (const uint32_t[7]){0, 0, 0, carried, CARRY_STEPS, 0, CARRY_TRACE});
        expect_all("carry chain: a preview answers and leaves the cells");
        carry_run(condition, 0);
        expect_sum(condition == 1, left, right);
        expect_all("carry chain: a call adds where the condition is true");
    }
    expect("carry chain: one trace for both conditions", memcmp(carry_trace[0], carry_trace[1], 4 * CARRY_TRACE) == 0);
}

/* the indices of the second pass: cell 1 and, three times, the cell after it, as docs/IMAGE.md has them */
static void carry_trace_case(void)
{
    static const uint32_t pass[] = {
        0x40000013, 1, 0x40000018, 1, 0x4000001A, 1, 0x4000001C, 1, 0x4000001E, 2, 0x40000025, 2,
        0x4000002A, 1, 0x90000029, 16, 0x4000002D, 2, 0x40000031, 1, 0x40000036, 1, 0x40000039, 1,
    };
    int same = 1;
    for (size_t i = 0; i < sizeof pass / sizeof pass[0]; i++)
        same = same && tinesage_word(carry_trace[1], 4 + 24 + i) == pass[i];
    expect("carry chain: the entries of a pass", same);
}

static void carry_cases(void)
{
    static const uint64_t numbers[] = {0, 1, 0xFFFF, 0x10000, 0xFFFFFFFFFFFF, 0x123456789ABCDEF0, 0xFEDCBA9876543211,
                                       0xFFFFFFFFFFFFFFFF};
    carry_compile_case();
    for (size_t i = 0; i < sizeof numbers / sizeof numbers[0]; i++)
        for (size_t k = 0; k < sizeof numbers / sizeof numbers[0]; k++)
            carry_sum_cases(numbers[i], numbers[k]);
    carry_trace_case();
}

/* a guarded body stores 0 at i plus a constant in an array of 16 cells, for i within bounds: 11 at word 11, or not */
static void expect_bounded(const char *what, uint32_t from, uint32_t to, uint32_t constant, int bounded)
{
    const uint32_t words[] = {0x10000101, 0x20010010, 0x30010001, 0x40000001, 0x40000000, 0x50000001, 0x60030000,
                              0x70000000 | from, 0x70000000 | to, 0x50000001, 0x60010000, 0xD0000000, 0xA0000000};
    uint8_t bytes[sizeof words + 12];
    size_t count = sizeof words / 4;
    put_words(bytes, words, sizeof words);
    if (constant >= 0x10000000)
        tinesage_put_word(bytes, count++, 0x80000000);
    tinesage_put_word(bytes, count++, constant >= 0x10000000 ? constant : 0x70000000 | constant);
    tinesage_put_word(bytes, count++, 0x70000000);
    reset_all();
    tinesage_check(bytes, 4 * count, answer.lent, answer_length);
    expect_answer(&answer, bounded ? (const uint32_t[7]){0} : (const uint32_t[7]){2, 11, 11});
    expect_all(what);
}

static void bounded_cases(void)
{
    expect_bounded("check: one under the length", 0, 15, 0, 1);
    expect_bounded("check: just at the length", 0, 15, 1, 1);
    expect_bounded("check: one over the length", 0, 15, 2, 0);
    expect_bounded("check: a sum that wraps", 1, 2, 0xFFFFFFFF, 0);
    expect_bounded("check: a sum that wraps to 0", 0, 1, 0xFFFFFFFF, 0);
    expect_bounded("check: no pass", 20, 17, 0, 1);
    expect_bounded("check: no pass, the bounds are equal", 5, 5, 0xFFFFFFFF, 1);
    expect_bounded("check: no pass, up to 0", 0, 0, 0x10000000, 1);
}

/* ---- secret ifs inside each other, in both arms, and beside each other, which share their variables ---- */

/*
 * Two secret conditions: x is 1 or 2 by the second where the first is true, else 3 or 4; then 10 is added where the second
 * is true.
 */
static const uint32_t choice_words[] = {
    0x10000001, 0x30000201, 0x40000001, 0x40000003, 0x40000003, 0x40000001, 0x50000003, 0x60020000, 0xA0000000,
    0x50000001, 0x60020000, 0xA0000001, 0x50000001, 0x60000002, 0x70000001, 0x50000001, 0x60000002, 0x70000002,
    0x50000001, 0x60020000, 0xA0000001, 0x50000001, 0x60000002, 0x70000003, 0x50000001, 0x60000002, 0x70000004,
    0x60020000, 0xA0000001, 0x50000001, 0x60000002, 0xD0000000, 0xA0000002, 0x7000000A, 0x50000000, 0x60040000,
    0xA0000002,
};

/* the same compiled, worked out from the two documents: T and E of two levels are variables 3 to 6 */
static const uint32_t choice_compiled[] = {
    0x10010001, 0x30000205, 0x40000001, 0x40000003, 0x40000003, 0x40000001, 0x40000003, 0x40000003, 0x40000003,
    0x40000003, 0x5000000E, 0x60000003, 0xA0000000, 0x60000004, 0xC0000000, 0xA0000003, 0x60000005, 0xD000000D,
    0xA0000003, 0xA0000001, 0x60000006, 0xD000000D, 0xA0000003, 0xC0000000, 0xA0000005, 0x60000002, 0xE0000000,
    0xA0000005, 0x70000001, 0xA0000002, 0x60000002, 0xE0000000, 0xA0000006, 0x70000002, 0xA0000002, 0x60000005,
    0xD000000D, 0xA0000004, 0xA0000001, 0x60000006, 0xD000000D, 0xA0000004, 0xC0000000, 0xA0000005, 0x60000002,
    0xE0000000, 0xA0000005, 0x70000003, 0xA0000002, 0x60000002, 0xE0000000, 0xA0000006, 0x70000004, 0xA0000002,
    0x60000003, 0xA0000001, 0x60000004, 0xC0000000, 0xA0000003, 0x60000002, 0xE0000000, 0xA0000003, 0xD0000000,
    0xA0000002, 0x7000000A, 0xA0000002, 0x60040000, 0xA0000002,
};

#define CHOICE_STEPS 14

static uint32_t chosen(uint32_t first, uint32_t second)
{
    uint32_t x;
    if (first)
        x = second ? 1 : 2;
    else
        x = second ? 3 : 4;
    if (second)
        x += 10;
    return x;
}

static void choice_cases(void)
{
    uint8_t bytes[sizeof choice_words], image[sizeof choice_compiled], arguments[8];
    put_words(bytes, choice_words, sizeof bytes);
    put_words(image, choice_compiled, sizeof image);
    reset_all();
    tinesage_compile(bytes, sizeof bytes, result, sizeof result, answer.lent, answer_length);
    expect_answer(&answer, (const uint32_t[7]){0, 0, 0, 0, 0, 0, sizeof image / 4});
    expect_all("shared variables: the count of words");
    expect("shared variables: compiled to the words that the two documents give", memcmp(result, image, sizeof image) == 0);
    for (uint32_t i = 0; i < 4; i++) {
        tinesage_put_word(arguments, 0, i / 2);
        tinesage_put_word(arguments, 1, i % 2);
        reset_all();
        tinesage_call(image, sizeof image, cells.lent, CELLS_LENT, 0, arguments, sizeof arguments, CHOICE_STEPS, trace.lent,
                      trace_length, answer.lent, answer_length);
        expect_answer(&answer, (const uint32_t[7]){0, 0, 0, chosen(i / 2, i % 2), CHOICE_STEPS, 0, 2});
        tinesage_put_word(trace.expected, 0, 0x80000000 | (sizeof image / 4 - 2));
        tinesage_put_word(trace.expected, 1, 0);
        expect_all("shared variables: what C gives, with one trace for all conditions");
    }
}

/* ---- the most steps of a call ---- */

/* what a request for a bound of the divider is lent, in bytes, and the refusal that is due, 0 for none */
struct asked {
    const char *what;
    uint32_t number, place;
    size_t image, cells;
    uint32_t procedure;
};

static const struct asked asked[] = {
    /* number, place, image, cells, procedure */
    {"bound: an answer", 0, 0, ALL, CELLS_LENT, 0},
    {"bound: just enough cells", 0, 0, ALL, 8, 0},
    {"bound: no image", 20, 0, 0, 0, 1},
    {"bound: not whole words", 1, 0, 55, 0, 1},
    {"bound: a word is missing", 3, 13, 52, 0, 1},
    {"bound: few cells", 17, 0, ALL, 7, 0},
    {"bound: no such procedure", 17, 0, ALL, CELLS_LENT, 1},
    {"bound: far from any procedure", 17, 0, ALL, CELLS_LENT, UINT32_MAX},
};

/* the store and the return take two steps, and so many statements behind the return count too */
static void expect_asked(const struct asked *a, uint32_t unused, const uint8_t *lent_cells)
{
    size_t image_length = a->image == ALL ? divider_length : a->image;
    tinesage_bound(divider, image_length, lent_cells, a->cells, a->procedure, answer.lent, answer_length);
    if (answer_length >= TINESAGE_ANSWER)
        expect_answer(&answer, a->number == 0 ? (const uint32_t[7]){0, 0, 0, 2 + unused}
                                              : (const uint32_t[7]){2, a->number, a->place});
    expect_all(a->what);
}

/* with cells that can be written, which have to stay, and with cells that cannot */
static void asked_cases(void)
{
    reset(&cells);
    set_read_only(cells.lent, LONGEST);
    for (size_t i = 0; i < sizeof unused_statements / sizeof unused_statements[0]; i++) {
        make_divider(unused_statements[i]);
        for (size_t k = 0; k < sizeof asked / sizeof asked[0]; k++) {
            for (size_t n = 0; n < sizeof answer_lengths / sizeof answer_lengths[0]; n++) {
                under_way = asked[k].what;
                reset_all();
                answer_length = answer_lengths[n];
                expect_asked(&asked[k], unused_statements[i], cells.lent);
                reset_all();
                answer_length = answer_lengths[n];
                expect_asked(&asked[k], unused_statements[i], read_only);
            }
        }
    }
}

/* an image under construction: a for with its bounds */
static uint8_t loops[4 * 64];
static size_t loops_words;

static void push_loops(const uint32_t *words, size_t length)
{
    put_words(loops + 4 * loops_words, words, length);
    loops_words += length / 4;
}

static void push_constant(uint32_t value)
{
    if (value < 0x10000000)
        push_loops((const uint32_t[]){0x70000000 | value}, 4);
    else
        push_loops((const uint32_t[]){0x80000000, value}, 8);
}

static void ask_loops(size_t cells_length, uint32_t procedure)
{
    reset_all();
    tinesage_bound(loops, 4 * loops_words, cells.lent, cells_length, procedure, answer.lent, answer_length);
}

/* two cells and a for from 0 over an empty block, at word 7; the image's end is its upper bound and the block */
static void start_loop(void)
{
    static const uint32_t words[] = {0x10000101, 0x20000002, 0x30000101, 0x40000000, 0x40000000,
                                     0x40000000, 0x50000001, 0x60030001, 0x70000000};
    loops_words = 0;
    push_loops(words, sizeof words);
}

/* the answer is due only where both the cells and the procedure are there: 17 comes before 32 and 33 */
static void expect_loop(const char *what, const uint32_t due[7])
{
    push_loops((const uint32_t[]){0x50000000}, 4);
    ask_loops(8, 0);
    expect_answer(&answer, due);
    expect_all(what);
    ask_loops(7, 0);
    expect_answer(&answer, (const uint32_t[7]){2, 17});
    expect_all("bound: few cells before 32 and 33");
    ask_loops(8, 1);
    expect_answer(&answer, (const uint32_t[7]){2, 17});
    expect_all("bound: no such procedure before 32 and 33");
}

static void loop_cases(void)
{
    start_loop();
    push_constant(UINT32_MAX - 1);
    expect_loop("bound: the largest", (const uint32_t[7]){0, 0, 0, UINT32_MAX});
    start_loop();
    push_constant(UINT32_MAX);
    expect_loop("bound: one more is 33", (const uint32_t[7]){2, 33, 0});
    start_loop();
    push_loops((const uint32_t[]){0xA0000000}, 4);
    expect_loop("bound: a variable is 32", (const uint32_t[7]){2, 32, 7});
    start_loop();
    push_loops((const uint32_t[]){0xD0000000, 0x70000001, 0x70000001}, 12);
    expect_loop("bound: a sum of constants is 32", (const uint32_t[7]){2, 32, 7});
}

/*
 * Procedure 0: for i within bounds, v := 0; return v. Procedure 1: for i within bounds, v := a call of procedure 0;
 * return v.
 */
static void make_loops(const uint32_t inner[2], const uint32_t outer[2])
{
    static const uint32_t procedure[] = {0x30000002, 0x40000000, 0x40000000, 0x40000000, 0x50000002, 0x60030000};
    static const uint32_t assigned[] = {0x50000001, 0x60000001, 0x70000000}, called[] = {0x50000001, 0x60050001};
    static const uint32_t returned[] = {0x60040000, 0xA0000001};
    loops_words = 0;
    push_loops((const uint32_t[]){0x10000002}, 4);
    push_loops(procedure, sizeof procedure);
    push_constant(inner[0]);
    push_constant(inner[1]);
    push_loops(assigned, sizeof assigned);
    push_loops(returned, sizeof returned);
    push_loops(procedure, sizeof procedure);
    push_constant(outer[0]);
    push_constant(outer[1]);
    push_loops(called, sizeof called);
    push_loops(returned, sizeof returned);
}

static uint64_t passes(const uint32_t bounds[2])
{
    return bounds[0] < bounds[1] ? bounds[1] - bounds[0] : 0;
}

/* a product that 64 bits do not hold is far above the limit */
static uint64_t product(uint64_t a, uint64_t b)
{
    return b != 0 && a > UINT64_MAX / b ? UINT64_MAX : a * b;
}

/* a call has no branch and no early return, so that it takes exactly as many steps as the bound says */
static void expect_exact(uint32_t bound)
{
    uint8_t long_trace[4 * 1024];
    reset_all();
    tinesage_call(loops, 4 * loops_words, NULL, 0, 1, NULL, 0, bound, long_trace, sizeof long_trace, answer.lent,
                  answer_length);
    struct tinesage_answer a = tinesage_read_answer(answer.lent);
    expect("bound: a call takes as many steps", a.status == TINESAGE_DONE && a.steps == bound);
    tinesage_call(loops, 4 * loops_words, NULL, 0, 1, NULL, 0, bound - 1, long_trace, sizeof long_trace, answer.lent,
                  answer_length);
    a = tinesage_read_answer(answer.lent);
    expect("bound: a budget of one less stops it", a.status == TINESAGE_STOPPED && a.number == TINESAGE_STOP_BUDGET);
}

static void expect_bound(const uint32_t inner[2], const uint32_t outer[2])
{
    uint64_t callee = 2 + 2 * passes(inner), turns = product(passes(outer), 2 + callee);
    int fits = turns <= UINT32_MAX - 2;
    make_loops(inner, outer);
    ask_loops(0, 1);
    expect_answer(&answer, fits ? (const uint32_t[7]){0, 0, 0, (uint32_t)turns + 2} : (const uint32_t[7]){2, 33, 0});
    expect_all("bound: a call in a loop");
    if (turns < 1000000 && passes(outer) < 100)
        expect_exact((uint32_t)turns + 2);
}

static void product_cases(void)
{
    static const uint32_t ends[] = {0,          1,          2,          3,          0xFFFF,     0x10000,    0x10001,
                                    0x0FFFFFFF, 0x10000000, 0x3FFFFFFE, 0x7FFFFFFF, 0x80000000, 0xFFFFFFFE, 0xFFFFFFFF};
    size_t count = sizeof ends / sizeof ends[0];
    for (size_t i = 0; i < count * count; i++)
        for (size_t k = 0; k < count * count; k++)
            expect_bound((const uint32_t[]){ends[i / count], ends[i % count]},
                         (const uint32_t[]){ends[k / count], ends[k % count]});
}

static void bound_cases(void)
{
    asked_cases();
    loop_cases();
    product_cases();
}

/* ---- a board probe's recording beside a trace ---- */

/* entries of all kinds; the probe sees five of them, no two of which are equal */
static const uint32_t traced_words[] = {
    0x2000000F, 0, 0x10000011, 1, 0x4ABCDEF1, 0x89ABCDEF, 0x50000007, 8,  0x60000007, 3, 0x7000000D, 2,
    0x80000006, 0, 0x3000000F, 9, 0x4000001E, 16,         0x90000014, 33, 0x1FFFFFFF, 0, 0x8000001D, 0,
};
static const uint32_t probe_words[] = {
    0x10000000, 1, 0x40000000, 0x89ABCDEF, 0x70000000, 2, 0x40000000, 16, 0x10000000, 0,
};

#define TRACED (sizeof traced_words)
#define PROBED (sizeof probe_words)

/* words that are lent and have to stay */
static void lend_words(struct watched *w, const uint32_t *words, size_t length)
{
    put_words(w->lent, words, length);
    put_words(w->expected, words, length);
}

/* the slice for results holds the recording */
static void reset_recording(void)
{
    reset_all();
    lend_words(&trace, traced_words, TRACED);
    lend_words(&out, probe_words, PROBED);
}

/* only the answer is written */
static void expect_compared(const char *what, size_t traced, size_t probed, uint32_t result, size_t entries)
{
    tinesage_compare(trace.lent, traced, out.lent, probed, answer.lent, answer_length);
    if (answer_length >= TINESAGE_ANSWER)
        expect_answer(&answer, (const uint32_t[7]){0, 0, 0, result, 0, 0, (uint32_t)entries});
    expect_all(what);
}

static int is_seen(uint32_t word)
{
    return word >> 28 == 1 || word >> 28 == 4 || word >> 28 == 7;
}

/* how many entries that a probe sees stand in so many bytes of the trace; a lone word is none */
static size_t seen_in(size_t traced)
{
    size_t seen = 0;
    for (size_t i = 0; i < traced / TINESAGE_TRACE_ENTRY; i++)
        seen += is_seen(traced_words[2 * i]) ? 1 : 0;
    return seen;
}

/* a lone word of the recording is an entry, so that they part; left-over bytes are nothing */
static void compared_length_cases(void)
{
    for (size_t traced = 0; traced < TRACED + 4; traced++) {
        for (size_t probed = 0; probed < PROBED + 4; probed++) {
            size_t ours = seen_in(traced), theirs = probed / TINESAGE_TRACE_ENTRY;
            int agree = ours == theirs && probed / 4 % 2 == 0;
            reset_recording();
            expect_compared("compare: both at each length", traced, probed, agree ? TINESAGE_AGREE : TINESAGE_PART,
                            ours < theirs ? ours : theirs);
        }
    }
}

static void flip(struct watched *w, size_t word, uint32_t mask)
{
    uint32_t flipped = tinesage_word(w->lent, word) ^ mask;
    tinesage_put_word(w->lent, word, flipped);
    tinesage_put_word(w->expected, word, flipped);
}

/* each bit of the recording counts */
static void compared_probe_bit_cases(void)
{
    for (size_t bit = 0; bit < 8 * PROBED; bit++) {
        reset_recording();
        flip(&out, bit / 32, 1u << bit % 32);
        expect_compared("compare: a bit of the recording", TRACED, PROBED, TINESAGE_PART, bit / 64);
    }
}

/* of the trace the bits count that make an entry one that the probe sees or does not, and the values that it sees */
static void compared_trace_bit_cases(void)
{
    for (size_t bit = 0; bit < 8 * TRACED; bit++) {
        size_t entry = bit / 64;
        uint32_t mask = 1u << bit % 32, first = traced_words[2 * entry];
        int in_first = bit % 64 < 32;
        int part = in_first ? is_seen(first) != is_seen(first ^ mask) : is_seen(first);
        reset_recording();
        flip(&trace, bit / 32, mask);
        expect_compared("compare: a bit of the trace", TRACED, PROBED, part ? TINESAGE_PART : TINESAGE_AGREE,
                        seen_in(part ? TINESAGE_TRACE_ENTRY * entry : TRACED));
    }
}

/* one entry on each side, of each number that four bits hold: three are kinds that the probe sees */
static void compared_kind_cases(void)
{
    for (uint32_t kind = 0; kind < 16; kind++) {
        const uint32_t traced[] = {kind << 28 | 5, 3}, probed[] = {kind << 28, 3};
        reset_all();
        lend_words(&trace, traced, sizeof traced);
        lend_words(&out, probed, sizeof probed);
        expect_compared("compare: one entry of a kind", 8, 8, is_seen(traced[0]) ? TINESAGE_AGREE : TINESAGE_PART,
                        is_seen(traced[0]) ? 1 : 0);
    }
}

static void compared_answer_cases(void)
{
    for (size_t length = 0; length < 2 * TINESAGE_ANSWER; length++) {
        reset_recording();
        answer_length = length;
        expect_compared("compare: the answer's slice, they agree", TRACED, PROBED, TINESAGE_AGREE, 5);
        reset_recording();
        answer_length = length;
        expect_compared("compare: the answer's slice, they part", TRACED, 0, TINESAGE_PART, 0);
    }
}

/* trace and recording in bytes that cannot be written */
static void compared_read_only_case(void)
{
    uint8_t both[TRACED + PROBED];
    put_words(both, traced_words, TRACED);
    put_words(both + TRACED, probe_words, PROBED);
    set_read_only(both, sizeof both);
    under_way = "compare\n";
    reset_all();
    tinesage_compare(read_only, TRACED, read_only + TRACED, PROBED, answer.lent, answer_length);
    expect_answer(&answer, (const uint32_t[7]){0, 0, 0, TINESAGE_AGREE, 0, 0, 5});
    expect_all("compare: bytes that cannot be written");
}

static void compare_cases(void)
{
    compared_length_cases();
    compared_probe_bit_cases();
    compared_trace_bit_cases();
    compared_kind_cases();
    compared_answer_cases();
    compared_read_only_case();
}

int main(void)
{
    setvbuf(stdout, NULL, _IOLBF, 0);
    for (size_t i = 0; i < WRITER_WORDS; i++)
        tinesage_put_word(writer, i, writer_words[i]);
    check_cases();
    compile_cases();
    long_compile_cases();
    shared_locals_cases();
    describe_cases();
    load_and_clear_cases();
    poke_and_peek_cases();
    call_cases();
    full_trace_cases();
    stop_and_refusal_cases();
    answer_cases();
    preview_cases();
    carry_cases();
    bounded_cases();
    choice_cases();
    bound_cases();
    compare_cases();
    printf("%u passed, %u failed\n", passed, failed);
    return failed == 0 ? EXIT_SUCCESS : EXIT_FAILURE;
}
