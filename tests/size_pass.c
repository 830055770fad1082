/*
 * Document 02, wish 6: the time of the pass that finds the compiled length, over 800 and over 1,600 equal assignments, in
 * an open body and in a guarded one. Compiling into an empty output ends in 16, once the length is known; the pass is that
 * time less the time of the check. Each time is the least of many, taken by turns in one run. Prints each ratio, and
 * 'N passed, M failed' as its last line: one fails where the pass over 1,600 takes more than three times as long as over
 * 800. A pass that is done again for every 400 assignments has to be found out by the same measure.
 */
#include <stdbool.h>
#include <stdio.h>
#include <time.h>

#include "tinesage.h"

#define FEW 800u
#define RUNS 400
#define LARGEST_RATIO 3.0

/* ---- images ---- */

struct image {
    uint8_t bytes[4 * TINESAGE_MOST_SOURCE_WORDS];
    size_t count;
};

static void push(struct image *image, uint32_t word) { tinesage_put_word(image->bytes, image->count++, word); }

/* one procedure with one secret local x, of equal assignments x := 1 */
static void make_image(struct image *image, bool guarded, uint32_t assignments)
{
    image->count = 0;
    push(image, 0x10000001);
    push(image, 0x30000001 | (uint32_t)guarded << 16);
    push(image, 0x40000001);
    push(image, 0x40000001);
    push(image, 0x50000000 | assignments);
    for (uint32_t i = 0; i < assignments; i++) {
        push(image, 0x60000000);
        push(image, 0x70000001);
    }
}

/* ---- times ---- */

static bool as_meant = true;

static double now(void)
{
    struct timespec t;
    clock_gettime(CLOCK_MONOTONIC, &t);
    return (double)t.tv_sec + 1e-9 * (double)t.tv_nsec;
}

static void expect(const uint8_t answer[TINESAGE_ANSWER], uint32_t status, uint32_t number)
{
    struct tinesage_answer a = tinesage_read_answer(answer);
    as_meant = as_meant && a.status == status && a.number == number;
}

static double time_check(const struct image *image)
{
    uint8_t answer[TINESAGE_ANSWER];
    double begin = now();
    tinesage_check(image->bytes, 4 * image->count, answer, sizeof answer);
    double taken = now() - begin;
    expect(answer, TINESAGE_DONE, 0);
    return taken;
}

static double time_compile(const struct image *image, uint32_t times)
{
    uint8_t answer[TINESAGE_ANSWER];
    double begin = now();
    for (uint32_t i = 0; i < times; i++)
        tinesage_compile(image->bytes, 4 * image->count, NULL, 0, answer, sizeof answer);
    double taken = now() - begin;
    expect(answer, TINESAGE_REFUSED, TINESAGE_REFUSAL_OUTPUT_TOO_SHORT);
    return taken;
}

/* the least times of an image */
struct least {
    struct image image;
    uint32_t times;
    double check, compile;
};

static void sample(struct least *l)
{
    double check = time_check(&l->image), compile = time_compile(&l->image, l->times);
    if (check < l->check)
        l->check = check;
    if (compile < l->compile)
        l->compile = compile;
}

static void prepare(struct least *l, bool guarded, uint32_t assignments, uint32_t times)
{
    make_image(&l->image, guarded, assignments);
    l->times = times;
    l->check = l->compile = 1e9;
}

static double pass(const struct least *l) { return l->compile - l->check; }

/* ---- ratios ---- */

static unsigned passed, failed;
static struct least few, many;

/* `again`: the pass is done again for every 400 assignments, and has to take too long */
static void judge(const char *name, bool guarded, bool again)
{
    prepare(&few, guarded, FEW, again ? FEW / 400 : 1);
    prepare(&many, guarded, 2 * FEW, again ? 2 * FEW / 400 : 1);
    for (int i = 0; i < RUNS; i++) {
        sample(&few);
        sample(&many);
    }
    double ratio = pass(&many) / pass(&few);
    bool measured = as_meant && pass(&few) > 0 && pass(&many) > 0;
    bool proportional = ratio <= LARGEST_RATIO;
    printf("%s: %.1f and %.1f microseconds, ratio %.2f\n", name, 1e6 * pass(&few), 1e6 * pass(&many), ratio);
    if (measured && proportional != again)
        passed++;
    else
        failed++;
}

int main(void)
{
    judge("open body", false, false);
    judge("guarded body", true, false);
    judge("open body, the pass done again for every 400 assignments", false, true);
    printf("%u passed, %u failed\n", passed, failed);
    return failed == 0 ? 0 : 1;
}
