/*
 * Stands between tests/secrets.c and the library (linker options --wrap=tinesage_call, --wrap=tinesage_preview and
 * --wrap=tinesage_bound) and lets the first argument of a call show in the way that the environment variable LEAK
 * names, so that tests/secrets can see that it is reported; with LEAK_IN=preview that of a preview, and no call's; with
 * LEAK_IN=bound the first cell that is lent with a request for a bound.
 */
#include <stdbool.h>
#include <stdlib.h>
#include <string.h>

#include "tinesage.h"

/* the linker gives these names */
void __real_tinesage_call(const uint8_t *image, size_t image_len, uint8_t *cells, size_t cells_len, uint32_t procedure,
                          const uint8_t *arguments, size_t arguments_len, uint32_t budget, uint8_t *trace,
                          size_t trace_len, uint8_t *answer, size_t answer_len);
void __wrap_tinesage_call(const uint8_t *image, size_t image_len, uint8_t *cells, size_t cells_len, uint32_t procedure,
                          const uint8_t *arguments, size_t arguments_len, uint32_t budget, uint8_t *trace,
                          size_t trace_len, uint8_t *answer, size_t answer_len);
void __real_tinesage_preview(const uint8_t *image, size_t image_len, const uint8_t *cells, size_t cells_len,
                             uint32_t procedure, const uint8_t *arguments, size_t arguments_len, uint32_t budget,
                             uint8_t *trace, size_t trace_len, uint8_t *answer, size_t answer_len);
void __wrap_tinesage_preview(const uint8_t *image, size_t image_len, const uint8_t *cells, size_t cells_len,
                             uint32_t procedure, const uint8_t *arguments, size_t arguments_len, uint32_t budget,
                             uint8_t *trace, size_t trace_len, uint8_t *answer, size_t answer_len);
void __real_tinesage_bound(const uint8_t *image, size_t image_len, const uint8_t *cells, size_t cells_len,
                           uint32_t procedure, uint8_t *answer, size_t answer_len);
void __wrap_tinesage_bound(const uint8_t *image, size_t image_len, const uint8_t *cells, size_t cells_len,
                           uint32_t procedure, uint8_t *answer, size_t answer_len);

/* the empty statement keeps the compiler from making a select of the branch */
static __attribute__((noinline)) void leak_by_branch(uint32_t secret)
{
    if (secret == 7)
        __asm__ volatile("");
}

static __attribute__((noinline)) void leak_by_index(uint32_t secret)
{
    static volatile uint8_t table[256];
    (void)table[secret & 0xFF];
}

/* The word keeps its value, so that the test goes on as before, but is computed from the secret. */
static void leak_into(uint8_t *bytes, size_t index, uint32_t secret)
{
    uint32_t same = secret;
    __asm__ volatile("" : "+r"(same));
    tinesage_put_word(bytes, index, tinesage_word(bytes, index) + secret - same);
}

static bool leaks(const char *how)
{
    const char *chosen = getenv("LEAK");
    return chosen != NULL && strcmp(chosen, how) == 0;
}

/* whether it is this function that leaks */
static bool leaking(const char *function)
{
    const char *chosen = getenv("LEAK_IN");
    return strcmp(function, chosen == NULL ? "call" : chosen) == 0;
}

/* of the arguments, or of the cells */
static uint32_t first_word(const uint8_t *bytes, size_t length)
{
    return length < 4 ? 0 : tinesage_word(bytes, 0);
}

static void leak_by_way(uint32_t secret)
{
    if (leaks("branch"))
        leak_by_branch(secret);
    if (leaks("index"))
        leak_by_index(secret);
}

/* by name, the words of an answer; the count's low word */
static void leak_into_written(uint8_t *trace, size_t trace_len, uint8_t *answer, uint32_t secret)
{
    static const char *const names[] = {"status", "number", "place", "result", "steps", "", "count"};
    for (size_t i = 0; i < sizeof names / sizeof names[0]; i++)
        if (leaks(names[i]))
            leak_into(answer, i, secret);
    if (leaks("trace") && trace_len >= 8)
        leak_into(trace, 1, secret);
}

void __wrap_tinesage_call(const uint8_t *image, size_t image_len, uint8_t *cells, size_t cells_len, uint32_t procedure,
                          const uint8_t *arguments, size_t arguments_len, uint32_t budget, uint8_t *trace,
                          size_t trace_len, uint8_t *answer, size_t answer_len)
{
    uint32_t secret = first_word(arguments, arguments_len);
    bool leak = leaking("call");
    if (leak)
        leak_by_way(secret);
    __real_tinesage_call(image, image_len, cells, cells_len, procedure, arguments, arguments_len, budget, trace,
                         trace_len, answer, answer_len);
    if (leak)
        leak_into_written(trace, trace_len, answer, secret);
    if (leak && leaks("cells"))
        leak_into(cells, 0, secret);
}

/* it only reads the cells, so nothing can show there */
void __wrap_tinesage_preview(const uint8_t *image, size_t image_len, const uint8_t *cells, size_t cells_len,
                             uint32_t procedure, const uint8_t *arguments, size_t arguments_len, uint32_t budget,
                             uint8_t *trace, size_t trace_len, uint8_t *answer, size_t answer_len)
{
    uint32_t secret = first_word(arguments, arguments_len);
    bool leak = leaking("preview");
    if (leak)
        leak_by_way(secret);
    __real_tinesage_preview(image, image_len, cells, cells_len, procedure, arguments, arguments_len, budget, trace,
                            trace_len, answer, answer_len);
    if (leak)
        leak_into_written(trace, trace_len, answer, secret);
}

/* it records no trace */
void __wrap_tinesage_bound(const uint8_t *image, size_t image_len, const uint8_t *cells, size_t cells_len,
                           uint32_t procedure, uint8_t *answer, size_t answer_len)
{
    uint32_t secret = first_word(cells, cells_len);
    bool leak = leaking("bound");
    if (leak)
        leak_by_way(secret);
    __real_tinesage_bound(image, image_len, cells, cells_len, procedure, answer, answer_len);
    if (leak)
        leak_into_written(NULL, 0, answer, secret);
}
