/*
 * A short host. It compiles the paper's example image, loads source and compiled form in turn, and calls each with two
 * values of its secret parameter: the source's trace tells them apart, the compiled form's does not. The budget of each
 * call is what the library answers as the most steps that the loaded procedure takes: of the source a call takes fewer,
 * of the images without a branch exactly as many. Then it loads an image with an array, pokes its cells and calls the
 * procedure that adds them up, with a trace slice just as long as a preview says that it has to be. Against a trace of
 * each image it holds two recordings of a board probe: one agrees, and one with another branch, or with indices in
 * another order, parts. Last it compiles an image that adds two long numbers under a secret condition, and calls it
 * with both values of the condition: the sum is stored or not, and the traces are equal to the last byte.
 */
#include <stdio.h>
#include <stdlib.h>
#include <string.h>

#include "tinesage.h"

#define TRACE_WORDS 128

/* One secret parameter: returns 1 where it is 7, else 0. */
static const uint32_t example[] = {
    0x10000001, 0x30000100, 0x40000001, 0x40000001, 0x50000002, 0x60020000, 0xD000000B, 0xA0000000,
    0x70000007, 0x50000001, 0x60040000, 0x70000001, 0x50000000, 0x60040000, 0x70000000,
};

/* A secret array of 4 cells: for i from 0 to 4, total := total + cell i; returns total. */
static const uint32_t adder[] = {
    0x10000101, 0x20010004, 0x30000002, 0x40000001, 0x40000000, 0x40000001, 0x50000002, 0x60030000, 0x70000000,
    0x70000004, 0x50000001, 0x60000001, 0xD0000000, 0xA0000001, 0xB0000000, 0xA0000000, 0x60040000, 0xA0000001,
};

/*
 * Two secret arrays: a number of four cells of 16 bits, the lowest first, with a fifth for the carry, and one of four
 * cells. Where the secret parameter is true, the second is added to the first, the carry of cell i going to cell i + 1;
 * returns the fifth cell. It is examples/carry.image.
 */
static const uint32_t carry[] = {
    0x10000201, 0x20010005, 0x20010004, 0x30000101, 0x40000001, 0x40000003, 0x40000000, 0x50000002, 0x60020000,
    0xA0000000, 0x50000001, 0x60030001, 0x70000000, 0x70000004, 0x50000003, 0x60010000, 0xA0000001, 0xD0000000,
    0xB0000000, 0xA0000001, 0xB0000001, 0xA0000001, 0x60010000, 0xD0000000, 0xA0000001, 0x70000001, 0xD0000000,
    0xB0000000, 0xD0000000, 0x70000001, 0xA0000001, 0xD0000007, 0xB0000000, 0xA0000001, 0x70000010, 0x60010000,
    0xA0000001, 0xD0000003, 0xB0000000, 0xA0000001, 0x7000FFFF, 0x50000000, 0x60040000, 0xB0000000, 0x70000004,
};

/* what this host lends */
static uint8_t image[4 * TINESAGE_MOST_WORDS];
static size_t image_length;
static uint8_t cells[4 * TINESAGE_MOST_CELLS];
static uint8_t trace[4 * TRACE_WORDS];
/* the steps reserved for a call of procedure 0 */
static uint32_t budget;
/* the trace words that the last call recorded; what stands behind them is none of its entries */
static uint64_t recorded;

static void put_words(uint8_t *bytes, const uint32_t *words, size_t count)
{
    for (size_t i = 0; i < count; i++)
        tinesage_put_word(bytes, i, words[i]);
}

static void take_image(const uint32_t *words, size_t count)
{
    put_words(image, words, count);
    image_length = 4 * count;
}

static void expect_done(const char *what, struct tinesage_answer a)
{
    if (a.status == TINESAGE_DONE)
        return;
    printf("%s: number %u at word %u\n", what, (unsigned)a.number, (unsigned)a.place);
    exit(EXIT_FAILURE);
}

/* reserves the most steps that a call of procedure 0 can take */
static void reserve(void)
{
    uint8_t answer[TINESAGE_ANSWER];
    tinesage_bound(image, image_length, cells, sizeof cells, 0, answer, sizeof answer);
    expect_done("bound", tinesage_read_answer(answer));
    budget = tinesage_read_answer(answer).result;
    printf("  reserved for a call: %u steps\n", (unsigned)budget);
}

static void load(void)
{
    uint8_t answer[TINESAGE_ANSWER];
    tinesage_load(image, image_length, cells, sizeof cells, answer, sizeof answer);
    expect_done("load", tinesage_read_answer(answer));
    reserve();
}

/* the compiled form is this host's image from then on */
static void compile(void)
{
    static uint8_t out[sizeof image];
    uint8_t answer[TINESAGE_ANSWER];
    tinesage_compile(image, image_length, out, sizeof out, answer, sizeof answer);
    expect_done("compile", tinesage_read_answer(answer));
    image_length = 4 * (size_t)tinesage_read_answer(answer).count;
    memcpy(image, out, image_length);
}

static void print_image(void)
{
    for (size_t i = 0; i < image_length / 4; i++)
        printf("%s%08X", i % 8 == 0 ? "\n    " : " ", (unsigned)tinesage_word(image, i));
    puts("");
}

static void print_trace(void)
{
    static const char *const kinds[] = {
        [TINESAGE_TRACE_BRANCH] = "branch",     [TINESAGE_TRACE_LOOP_FROM] = "loop from",
        [TINESAGE_TRACE_LOOP_TO] = "loop to",   [TINESAGE_TRACE_INDEX] = "index",
        [TINESAGE_TRACE_DIVIDEND] = "dividend", [TINESAGE_TRACE_DIVISOR] = "divisor",
        [TINESAGE_TRACE_CALL] = "call",         [TINESAGE_TRACE_RETURN] = "return",
        [TINESAGE_TRACE_SHIFT_COUNT] = "shift count",
    };
    for (size_t i = 0; i < recorded / 2; i++) {
        struct tinesage_trace_entry e = tinesage_read_entry(trace, i);
        printf("    %08X %08X  %s at word %u\n", (unsigned)tinesage_word(trace, 2 * i), (unsigned)e.value,
               e.kind < sizeof kinds / sizeof *kinds ? kinds[e.kind] : "other", (unsigned)e.place);
    }
}

/* calls procedure 0, with so many trace words */
static void call(const char *title, const uint32_t *values, size_t count, size_t trace_words)
{
    uint8_t arguments[4 * TINESAGE_MOST_ARGUMENTS], answer[TINESAGE_ANSWER];
    put_words(arguments, values, count);
    tinesage_call(image, image_length, cells, sizeof cells, 0, arguments, 4 * count, budget, trace, 4 * trace_words,
                  answer, sizeof answer);
    struct tinesage_answer a = tinesage_read_answer(answer);
    if (a.status == TINESAGE_DONE)
        printf("  %s: %u in %u steps\n", title, (unsigned)a.result, (unsigned)a.steps);
    else
        printf("  %s: number %u at word %u\n", title, (unsigned)a.number, (unsigned)a.place);
    recorded = a.count;
    print_trace();
}

/* holds a probe's recording against the trace of the last call: for each entry kind * 2^28, then value */
static void hold(const char *title, const uint32_t *words, size_t count)
{
    uint8_t probe[4 * TRACE_WORDS], answer[TINESAGE_ANSWER];
    put_words(probe, words, count);
    tinesage_compare(trace, 4 * (size_t)recorded, probe, 4 * count, answer, sizeof answer);
    struct tinesage_answer a = tinesage_read_answer(answer);
    printf("  %s: %s, entries equal: %u\n", title, a.result == TINESAGE_AGREE ? "agrees" : "parts", (unsigned)a.count);
}

static void call_with_7_and_6(void)
{
    call("argument 7", (const uint32_t[]){7}, 1, TRACE_WORDS);
    call("argument 6", (const uint32_t[]){6}, 1, TRACE_WORDS);
}

/*
 * The trace words that a call of procedure 0 without arguments needs. A preview whose trace is full is made again with
 * twice as many: no cell has changed.
 */
static size_t previewed_words(void)
{
    uint8_t answer[TINESAGE_ANSWER];
    struct tinesage_answer a;
    size_t words = 4;
    do {
        words *= 2;
        tinesage_preview(image, image_length, cells, sizeof cells, 0, NULL, 0, budget, trace, 4 * words, answer,
                         sizeof answer);
        a = tinesage_read_answer(answer);
        printf("  preview with %u trace words: %u recorded%s\n", (unsigned)words, (unsigned)a.count,
               a.number == TINESAGE_STOP_TRACE_FULL ? ", trace full" : "");
    } while (a.number == TINESAGE_STOP_TRACE_FULL && 2 * words <= TRACE_WORDS);
    expect_done("preview", a);
    return (size_t)a.count;
}

static void poke(uint32_t array, uint32_t index, uint32_t value)
{
    uint8_t answer[TINESAGE_ANSWER];
    tinesage_poke(image, image_length, cells, sizeof cells, array, index, value, answer, sizeof answer);
    expect_done("poke", tinesage_read_answer(answer));
}

static void add_up(void)
{
    take_image(adder, sizeof adder / sizeof adder[0]);
    load();
    for (uint32_t i = 0; i < 4; i++)
        poke(0, i, 10 * (i + 1));
    call("cells 10, 20, 30, 40", NULL, 0, previewed_words());
    hold("a probe's recording of indices 0, 1, 2, 3",
         (const uint32_t[]){0x40000000, 0, 0x40000000, 1, 0x40000000, 2, 0x40000000, 3}, 8);
    hold("a probe's recording of indices 0, 1, 3, 2",
         (const uint32_t[]){0x40000000, 0, 0x40000000, 1, 0x40000000, 3, 0x40000000, 2}, 8);
}

/* a number of 64 bits in four cells */
static void poke_number(uint32_t array, uint64_t number)
{
    for (uint32_t i = 0; i < 4; i++)
        poke(array, i, (uint32_t)(number >> 16 * i & 0xFFFF));
}

/* calls procedure 0 with a condition and prints the five cells of array 0, the highest first */
static void add_where(uint32_t condition)
{
    uint8_t arguments[4], answer[TINESAGE_ANSWER];
    tinesage_put_word(arguments, 0, condition);
    tinesage_call(image, image_length, cells, sizeof cells, 0, arguments, sizeof arguments, budget, trace, sizeof trace,
                  answer, sizeof answer);
    struct tinesage_answer a = tinesage_read_answer(answer);
    expect_done("call", a);
    printf("  condition %u: %X", (unsigned)condition, (unsigned)tinesage_word(cells, 4));
    for (size_t i = 4; i-- > 0;)
        printf(" %04X", (unsigned)tinesage_word(cells, i));
    printf(" in %u steps, %u trace words\n", (unsigned)a.steps, (unsigned)a.count);
}

static void add_under_condition(void)
{
    uint8_t trace_without[sizeof trace];
    take_image(carry, sizeof carry / sizeof carry[0]);
    compile();
    load();
    poke_number(0, 0x123456789ABCDEF0);
    poke_number(1, 0xFEDCBA9876543211);
    memset(trace, 0, sizeof trace);
    add_where(0);
    memcpy(trace_without, trace, sizeof trace);
    memset(trace, 0, sizeof trace);
    add_where(1);
    puts(memcmp(trace_without, trace, sizeof trace) == 0 ? "  the traces are equal" : "  the traces differ");
}

int main(void)
{
    puts("The paper's example, as source:");
    take_image(example, sizeof example / sizeof example[0]);
    load();
    call_with_7_and_6();
    hold("a probe's recording of branch 0", (const uint32_t[]){0x10000000, 0}, 2);
    hold("a probe's recording of branch 1", (const uint32_t[]){0x10000000, 1}, 2);

    printf("The same, compiled:");
    compile();
    print_image();
    load();
    call_with_7_and_6();

    puts("An array of four cells, added up:");
    add_up();

    puts("A number of 64 bits added to another under a secret condition, compiled:");
    add_under_condition();
    return 0;
}
