/*
 * A slice of length 0 may be NULL: each function, each of its slices and each set of them, over images that take other
 * ways through the library. A request with NULL must answer the number that is due, and answer and leave the other
 * slices as the same request with a pointer to bytes that it must not touch. Prints 'N passed, M failed' as its last
 * line, counted in requests; a read or write through NULL ends the program before that line.
 */
#include <signal.h>
#include <stdbool.h>
#include <stdio.h>
#include <stdlib.h>
#include <string.h>
#include <unistd.h>

#include "tinesage.h"

static unsigned passed, failed;

/* ---- images ---- */

/* one local; a return of 5 */
static const uint32_t five[] = {0x10000001, 0x30000001, 0x40000000, 0x40000000, 0x50000001, 0x60040000, 0x70000005};

/* two cells, one parameter x; a return of cell x */
static const uint32_t cell[] = {0x10000101, 0x20000002, 0x30000100, 0x40000000, 0x40000000,
                                0x50000001, 0x60040000, 0xB0000000, 0xA0000000};

/* a return of variable 0, of none */
static const uint32_t undeclared[] = {0x10000001, 0x30000000, 0x40000000, 0x50000001, 0x60040000, 0xA0000000};

/* an image, and what decides the answers of the requests below */
struct image {
    const char *name;
    const uint32_t *words;
    size_t count;
    size_t padding; /* so many statements `variable 0 := 0` are put before the return */
    uint32_t refusal, cells, parameters;
};

#define WORDS(w) w, sizeof w / sizeof w[0]

/* with more than 512 words the library takes other arrays, and so another way: docs/STACK.md */
static const struct image images[] = {
    {"no array, no parameter", WORDS(five), 0, 0, 0, 0},
    {"an array and a parameter", WORDS(cell), 0, 0, 2, 1},
    {"no array, no parameter, long", WORDS(five), 600, 0, 0, 0},
    {"an array and a parameter, long", WORDS(cell), 600, 0, 2, 1},
    {"no such variable", WORDS(undeclared), 0, TINESAGE_REFUSAL_UNDECLARED, 0, 0},
};

#define MOST_IMAGE 2048
static uint8_t image_bytes[4 * MOST_IMAGE];
static size_t image_length;

/* the number of words from the block word on: the body is the block word and one return, up to the image's end */
static size_t body_words(const struct image *image)
{
    size_t at = image->count;
    while (image->words[at - 1] >> 28 != 5)
        at--;
    return image->count - at + 1;
}

static void take_image(const struct image *image)
{
    size_t count = 0, block = image->count - body_words(image);
    for (size_t i = 0; i < image->count; i++) {
        tinesage_put_word(image_bytes, count++, image->words[i] + (i == block ? (uint32_t)image->padding : 0));
        for (size_t k = 0; i == block && k < image->padding; k++) {
            tinesage_put_word(image_bytes, count++, 0x60000000);
            tinesage_put_word(image_bytes, count++, 0x70000000);
        }
    }
    image_length = 4 * count;
}

/* ---- slices ---- */

enum slice { IMAGE, CELLS, OUT, ARGUMENTS, TRACE, PROBE, ANSWER, SLICES };

#define ROOM (4 * MOST_IMAGE)

/* what is lent: the bytes behind each slice, and which pointer and length are passed for it */
struct lending {
    uint8_t bytes[SLICES][ROOM];
    uint8_t *at[SLICES];
    size_t length[SLICES];
};

/* full lengths, but 0 for the slices of the set `empty`; these are NULL where `null` */
static void lend(struct lending *l, unsigned empty, bool null)
{
    const size_t lengths[SLICES] = {image_length, 8, ROOM, 4, 64, 64, TINESAGE_ANSWER};
    memset(l->bytes, 0x5A, sizeof l->bytes);
    memcpy(l->bytes[IMAGE], image_bytes, image_length);
    memset(l->bytes[ARGUMENTS], 0, 4);
    for (int s = 0; s < SLICES; s++) {
        bool none = (empty >> s & 1) != 0;
        l->at[s] = none && null ? NULL : l->bytes[s];
        l->length[s] = none ? 0 : lengths[s];
    }
}

/* ---- functions ---- */

struct function {
    const char *name;
    unsigned slices;
    void (*run)(struct lending *l);
};

#define LENT(s) l->at[s], l->length[s]

static void check(struct lending *l)
{
    tinesage_check(LENT(IMAGE), LENT(ANSWER));
}

static void compile(struct lending *l)
{
    tinesage_compile(LENT(IMAGE), LENT(OUT), LENT(ANSWER));
}

static void describe(struct lending *l)
{
    tinesage_describe(LENT(IMAGE), LENT(OUT), LENT(ANSWER));
}

static void load(struct lending *l)
{
    tinesage_load(LENT(IMAGE), LENT(CELLS), LENT(ANSWER));
}

static void clear(struct lending *l)
{
    tinesage_clear(LENT(IMAGE), LENT(CELLS), LENT(ANSWER));
}

static void poke(struct lending *l)
{
    tinesage_poke(LENT(IMAGE), LENT(CELLS), 0, 1, 0xCAFEF00D, LENT(ANSWER));
}

static void peek(struct lending *l)
{
    tinesage_peek(LENT(IMAGE), LENT(CELLS), 0, 1, LENT(ANSWER));
}

static void call(struct lending *l)
{
    tinesage_call(LENT(IMAGE), LENT(CELLS), 0, LENT(ARGUMENTS), 1000, LENT(TRACE), LENT(ANSWER));
}

static void preview(struct lending *l)
{
    tinesage_preview(LENT(IMAGE), LENT(CELLS), 0, LENT(ARGUMENTS), 1000, LENT(TRACE), LENT(ANSWER));
}

static void bound(struct lending *l)
{
    tinesage_bound(LENT(IMAGE), LENT(CELLS), 0, LENT(ANSWER));
}

static void compare(struct lending *l)
{
    tinesage_compare(LENT(TRACE), LENT(PROBE), LENT(ANSWER));
}

static const struct function functions[] = {
    {"check", 1 << IMAGE | 1 << ANSWER, check},
    {"compile", 1 << IMAGE | 1 << OUT | 1 << ANSWER, compile},
    {"describe", 1 << IMAGE | 1 << OUT | 1 << ANSWER, describe},
    {"load", 1 << IMAGE | 1 << CELLS | 1 << ANSWER, load},
    {"clear", 1 << IMAGE | 1 << CELLS | 1 << ANSWER, clear},
    {"poke", 1 << IMAGE | 1 << CELLS | 1 << ANSWER, poke},
    {"peek", 1 << IMAGE | 1 << CELLS | 1 << ANSWER, peek},
    {"call", 1 << IMAGE | 1 << CELLS | 1 << ARGUMENTS | 1 << TRACE | 1 << ANSWER, call},
    {"preview", 1 << IMAGE | 1 << CELLS | 1 << ARGUMENTS | 1 << TRACE | 1 << ANSWER, preview},
    {"bound", 1 << IMAGE | 1 << CELLS | 1 << ANSWER, bound},
    {"compare", 1 << TRACE | 1 << PROBE | 1 << ANSWER, compare},
};

/* ---- what is due ---- */

static uint32_t number_of_call(const struct image *image, unsigned empty)
{
    uint32_t arguments = (empty & 1 << ARGUMENTS) != 0 ? 0 : 1;
    if (arguments != image->parameters)
        return TINESAGE_REFUSAL_ARGUMENT_COUNT;
    return (empty & 1 << TRACE) != 0 ? TINESAGE_STOP_TRACE_FULL : 0;
}

/* the number that the request answers, 0 where it is done */
static uint32_t number_due(const struct function *f, const struct image *image, unsigned empty)
{
    bool keeps_cells = (f->slices & 1 << CELLS) != 0;
    if ((f->slices & 1 << IMAGE) == 0)
        return 0;
    if ((empty & 1 << IMAGE) != 0)
        return keeps_cells && f->run != load ? TINESAGE_REFUSAL_NOT_LOADED : TINESAGE_REFUSAL_LENGTH;
    if (image->refusal != 0)
        return image->refusal;
    if (keeps_cells && image->cells > 0 && (empty & 1 << CELLS) != 0)
        return TINESAGE_REFUSAL_OUT_OF_RANGE;
    if ((f->run == poke || f->run == peek) && image->cells == 0)
        return TINESAGE_REFUSAL_OUT_OF_RANGE;
    if (f->run == call || f->run == preview)
        return number_of_call(image, empty);
    return (f->slices & 1 << OUT) != 0 && (empty & 1 << OUT) != 0 ? TINESAGE_REFUSAL_OUTPUT_TOO_SHORT : 0;
}

/* ---- cases ---- */

static char under_way[128];

/* says which request it was: a fault would else end the program without a word */
static void on_fault(int signal)
{
    static const char text[] = "FAILED: a read or write through NULL: ";
    (void)signal;
    if (write(STDOUT_FILENO, text, sizeof text - 1) < 0 || write(STDOUT_FILENO, under_way, strlen(under_way)) < 0)
        _exit(2);
    _exit(1);
}

static bool same(const struct lending *a, const struct lending *b)
{
    return memcmp(a->bytes, b->bytes, sizeof a->bytes) == 0;
}

static void try_set(const struct function *f, const struct image *image, unsigned empty)
{
    static struct lending plain, null;
    snprintf(under_way, sizeof under_way, "%s, %s, empty slices %02X\n", f->name, image->name, empty);
    lend(&plain, empty, false);
    lend(&null, empty, true);
    f->run(&plain);
    f->run(&null);
    bool answered =
        (empty & 1 << ANSWER) != 0 || tinesage_read_answer(null.bytes[ANSWER]).number == number_due(f, image, empty);
    if (same(&plain, &null) && answered) {
        passed++;
        return;
    }
    failed++;
    printf("FAILED: %s", under_way);
}

int main(void)
{
    signal(SIGSEGV, on_fault);
    setvbuf(stdout, NULL, _IOLBF, 0);
    for (size_t i = 0; i < sizeof images / sizeof images[0]; i++) {
        take_image(&images[i]);
        for (size_t k = 0; k < sizeof functions / sizeof functions[0]; k++) {
            for (unsigned empty = 0; empty < 1 << SLICES; empty++) {
                if ((empty & ~functions[k].slices) == 0)
                    try_set(&functions[k], &images[i], empty);
            }
        }
    }
    printf("%u passed, %u failed\n", passed, failed);
    return failed == 0 ? EXIT_SUCCESS : EXIT_FAILURE;
}
