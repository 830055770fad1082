/*
 * The padding check, by the C function and by the routine on a machine of the host's own, over blocks with the answers
 * that are due. Every call on the compiled routine has to take as many steps and trace words as the header names, record
 * the words that the first one did, and leave the block.
 *
 *   target/padding SOURCE <BLOCKS
 *
 * SOURCE is the routine as a source image, BLOCKS are those of `second blocks`. Prints 'N passed, M failed' as its last
 * line, counted in answers; the exit status is 0 where nothing failed.
 */
#include <stdbool.h>
#include <stdio.h>
#include <stdlib.h>
#include <string.h>

#include "blocks.h"
#include "tinesage.h"
#include "tinesage_padding.h"

static unsigned passed, failed;

static void expect(bool good, const char *what)
{
    if (good) {
        passed++;
        return;
    }
    failed++;
    if (failed <= 10)
        printf("FAILED: %s\n", what);
}

/* ---- a machine with one of the two images ---- */

#define MOST_TRACE_WORDS 200

struct machine {
    const uint8_t *image;
    size_t image_len;
    uint8_t cells[TINESAGE_BLOCK];
    uint8_t trace[4 * MOST_TRACE_WORDS];
};

static struct tinesage_answer load(struct machine *m)
{
    uint8_t answer[TINESAGE_ANSWER];
    tinesage_load(m->image, m->image_len, m->cells, sizeof m->cells, answer, sizeof answer);
    return tinesage_read_answer(answer);
}

/* whether each poke is done */
static bool poke_block(struct machine *m, const uint8_t *block)
{
    bool done = true;
    for (uint32_t i = 0; i < TINESAGE_BLOCK_CELLS; i++) {
        uint8_t answer[TINESAGE_ANSWER];
        tinesage_poke(m->image, m->image_len, m->cells, sizeof m->cells, TINESAGE_PADDING_ARRAY, i,
                      tinesage_word(block, i), answer, sizeof answer);
        done = done && tinesage_read_answer(answer).status == TINESAGE_DONE;
    }
    return done;
}

static struct tinesage_answer call(struct machine *m, uint32_t budget, size_t trace_words)
{
    uint8_t answer[TINESAGE_ANSWER];
    tinesage_call(m->image, m->image_len, m->cells, sizeof m->cells, TINESAGE_PADDING_PROCEDURE, NULL, 0, budget,
                  m->trace, 4 * trace_words, answer, sizeof answer);
    return tinesage_read_answer(answer);
}

static bool holds(const struct machine *m, const uint8_t *block)
{
    return memcmp(m->cells, block, TINESAGE_BLOCK) == 0;
}

/* ---- one block ---- */

/* a slice of each length around it, with the bytes before and after it as they were */
static void try_lengths(const uint8_t *block, uint32_t due)
{
    for (size_t length = 0; length <= TINESAGE_BLOCK + 8; length++) {
        uint8_t bytes[TINESAGE_BLOCK + 8] = {0}, before[sizeof bytes];
        memcpy(bytes, block, TINESAGE_BLOCK);
        memcpy(before, bytes, sizeof bytes);
        uint32_t number = tinesage_unpadded_length(length == 0 ? NULL : bytes, length);
        uint32_t expected = length / 4 == TINESAGE_BLOCK_CELLS ? due : TINESAGE_NOT_PADDED;
        expect(number == expected && memcmp(bytes, before, sizeof bytes) == 0, "a slice of another length");
    }
}

static void try_function(const uint8_t *block, uint32_t due)
{
    uint8_t lent[TINESAGE_BLOCK];
    memcpy(lent, block, sizeof lent);
    expect(tinesage_unpadded_length(lent, sizeof lent) == due && memcmp(lent, block, sizeof lent) == 0, "the C function");
}

/* the trace of the first block */
static uint8_t first_trace[4 * TINESAGE_PADDING_TRACE_WORDS];
static bool first_known;

static void try_compiled(struct machine *m, const uint8_t *block, uint32_t due)
{
    bool poked = poke_block(m, block);
    struct tinesage_answer a = call(m, TINESAGE_PADDING_BUDGET, TINESAGE_PADDING_TRACE_WORDS);
    if (!first_known)
        memcpy(first_trace, m->trace, sizeof first_trace);
    first_known = true;
    expect(poked && a.status == TINESAGE_DONE && a.result == due, "the compiled routine's answer");
    expect(a.steps == TINESAGE_PADDING_BUDGET && a.count == TINESAGE_PADDING_TRACE_WORDS &&
               memcmp(first_trace, m->trace, sizeof first_trace) == 0 && holds(m, block),
           "the compiled routine's steps, trace and cells");
}

/* the source answers alike, and its trace follows the block: how many differ from the one before */
static unsigned source_traces;

static void try_source(struct machine *m, const uint8_t *block, uint32_t due)
{
    uint8_t before[sizeof m->trace];
    memcpy(before, m->trace, sizeof before);
    bool poked = poke_block(m, block);
    struct tinesage_answer a = call(m, 1000, MOST_TRACE_WORDS);
    expect(poked && a.status == TINESAGE_DONE && a.result == due && holds(m, block), "the source's answer");
    if (memcmp(before, m->trace, sizeof before) != 0)
        source_traces++;
}

/* ---- what the header names is needed, and no less ---- */

static void try_names(struct machine *m)
{
    uint8_t answer[TINESAGE_ANSWER];
    struct tinesage_answer a = call(m, TINESAGE_PADDING_BUDGET - 1, TINESAGE_PADDING_TRACE_WORDS);
    expect(a.status == TINESAGE_STOPPED && a.number == TINESAGE_STOP_BUDGET, "a step less");
    a = call(m, TINESAGE_PADDING_BUDGET, TINESAGE_PADDING_TRACE_WORDS - 1);
    expect(a.status == TINESAGE_STOPPED && a.number == TINESAGE_STOP_TRACE_FULL, "a trace word less");
    tinesage_bound(m->image, m->image_len, m->cells, sizeof m->cells, TINESAGE_PADDING_PROCEDURE, answer,
                   sizeof answer);
    expect(tinesage_read_answer(answer).result == TINESAGE_PADDING_BUDGET, "the bound is the budget");
}

/* ---- the blocks ---- */

static size_t read_file(const char *name, uint8_t *bytes, size_t most)
{
    FILE *file = fopen(name, "rb");
    if (file == NULL)
        return 0;
    size_t length = fread(bytes, 1, most, file);
    fclose(file);
    return length;
}

int main(int count, char **arguments)
{
    static uint8_t source[4 * TINESAGE_MOST_SOURCE_WORDS], compiled[4 * TINESAGE_PADDING_WORDS];
    uint8_t answer[TINESAGE_ANSWER], block[TINESAGE_BLOCK];
    uint32_t due;
    if (count != 2) {
        fprintf(stderr, "usage: padding SOURCE <BLOCKS\n");
        return 2;
    }
    size_t length = read_file(arguments[1], source, sizeof source);
    tinesage_compile(source, length, compiled, sizeof compiled, answer, sizeof answer);
    struct tinesage_answer a = tinesage_read_answer(answer);
    expect(a.status == TINESAGE_DONE && a.count == TINESAGE_PADDING_WORDS, "the number of compiled words");
    static struct machine as_compiled, as_source;
    as_compiled.image = compiled, as_compiled.image_len = sizeof compiled;
    as_source.image = source, as_source.image_len = length;
    expect(load(&as_compiled).status == TINESAGE_DONE && load(&as_source).status == TINESAGE_DONE, "both load");
    unsigned blocks = 0;
    for (; read_block(block, &due); blocks++) {
        if (blocks % 100 == 0)
            try_lengths(block, due);
        try_function(block, due);
        try_compiled(&as_compiled, block, due);
        try_source(&as_source, block, due);
    }
    try_names(&as_compiled);
    expect(blocks > 10000 && source_traces > 100, "enough blocks, and traces of the source that follow them");
    printf("%u blocks, one trace as compiled, %u changes of trace in source form\n", blocks, source_traces);
    printf("%u passed, %u failed\n", passed, failed);
    return failed == 0 ? EXIT_SUCCESS : EXIT_FAILURE;
}
