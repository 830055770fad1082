/*
 * The machine code held to the third property, as far as valgrind's memcheck can see.
 *
 * Reads request lines and takes the images of their check, compile and load requests; those in source form are compiled
 * first. On each image it sends load, poke, peek, clear, call, preview and bound requests. Before each of them, every
 * byte that the third property lets differ between two machines is marked as undefined: secret arguments, words poked
 * into secret cells, the cells of secret arrays, what a trace slice holds before a call or preview and what the cells
 * hold before a load; before a bound, which follows from the image alone, the cells of public arrays too. Memcheck then
 * reports every branch and every address that depends on one of them, and afterwards all that the property calls equal
 * has to be defined.
 *
 *   valgrind target/secrets SEED <REQUESTS
 *   valgrind target/secrets SEED as-they-are <REQUESTS     images in source form are run without compiling
 *
 * The last line has the counts; the exit status is 0 where nothing was reported.
 */
#include <stdbool.h>
#include <stdio.h>
#include <stdlib.h>
#include <string.h>
#include <valgrind/memcheck.h>

#include "images.h"
#include "random.h"
#include "tinesage.h"

#define MOST_ARRAYS 16
#define MOST_PROCEDURES 32
#define MOST_PARAMETERS 9
/* one argument more than any procedure takes, for calls that are refused with 18 */
#define MOST_ARGUMENTS (MOST_PARAMETERS + 1)
#define TRACE_WORDS 1000
#define CALLS 6

/* mostly a small word, so that indices and loop bounds often lie within the arrays */
static uint32_t random_word(void)
{
    switch (below(8)) {
    case 0: return (uint32_t)next_random();
    case 1: return UINT32_MAX - below(3);
    case 2: return below(40);
    default: return below(5);
    }
}

/* ---- what is secret: the labels of an accepted image, from its words ---- */

struct array {
    bool secret;
    uint32_t first, length;
};

struct procedure {
    bool secret_result;
    uint32_t parameters;
    bool secret[MOST_PARAMETERS];
};

struct outline {
    uint32_t arrays, cells, procedures;
    struct array array[MOST_ARRAYS];
    struct procedure procedure[MOST_PROCEDURES];
};

static uint8_t image[4 * TINESAGE_MOST_WORDS];
static size_t image_length;
static struct outline outline;

static bool secret_type(uint32_t place)
{
    return (tinesage_word(image, place) & 1) != 0;
}

static void read_arrays(void)
{
    outline.arrays = tinesage_word(image, 0) >> 8 & 0xFF;
    outline.cells = 0;
    for (uint32_t i = 0; i < outline.arrays; i++) {
        uint32_t word = tinesage_word(image, 1 + i);
        outline.array[i] = (struct array){(word >> 16 & 1) != 0, outline.cells, word & 0xFFFF};
        outline.cells += outline.array[i].length;
    }
}

/* a procedure word is followed by the types of the result and of the parameters */
static void read_procedure(struct procedure *procedure, uint32_t place)
{
    procedure->parameters = tinesage_word(image, place) >> 8 & 0xFF;
    procedure->secret_result = secret_type(place + 1);
    for (uint32_t i = 0; i < procedure->parameters; i++)
        procedure->secret[i] = secret_type(place + 2 + i);
}

/* In an accepted image a word of kind 3 starts a procedure, unless it is the raw constant after a word of kind 8. */
static void read_outline(void)
{
    read_arrays();
    outline.procedures = 0;
    for (uint32_t place = 1 + outline.arrays; place < image_length / 4; place++) {
        uint32_t kind = tinesage_word(image, place) >> 28;
        if (kind == 3)
            read_procedure(&outline.procedure[outline.procedures++], place);
        if (kind == 8)
            place++;
    }
}

/* ---- marks and reports ---- */

static unsigned long long images, requests, calls_done, calls_stopped, calls_refused, previews, bounds, secret_words,
    reported_requests;
static unsigned reports;

/* what a slice holds before a request that writes it: memory left over, which no answer may depend on */
static void hide(void *bytes, size_t length)
{
    (void)VALGRIND_MAKE_MEM_UNDEFINED(bytes, length);
}

static void hide_secret(void *bytes, size_t length)
{
    hide(bytes, length);
    secret_words += length / 4;
}

/* Reports bytes that depend on a secret; from then on they count as defined, so that they are reported once. */
static void expect_public(const void *bytes, size_t length)
{
    (void)VALGRIND_CHECK_MEM_IS_DEFINED(bytes, length);
    (void)VALGRIND_MAKE_MEM_DEFINED(bytes, length);
}

static void print_image(void)
{
    printf("  image:");
    for (size_t i = 0; i < image_length / 4; i++)
        printf(" %08X", (unsigned)tinesage_word(image, i));
    puts("");
}

/* a request has passed if memcheck reported nothing since the one before */
static void judge(const char *request, uint32_t number)
{
    unsigned now = VALGRIND_COUNT_ERRORS;
    requests++;
    if (now == reports)
        return;
    if (reported_requests++ < 3) {
        printf("REPORTED: %u by memcheck, at request %llu, a %s (procedure or array %u)\n", now - reports, requests,
               request, (unsigned)number);
        print_image();
    }
    reports = now;
}

/* ---- requests ---- */

static uint8_t cells[4 * TINESAGE_MOST_CELLS], trace[4 * TRACE_WORDS], answer[TINESAGE_ANSWER];

/* all seven words of the answer have to be public, but for a secret result: the fourth */
static struct tinesage_answer expect_answer(bool secret_result)
{
    expect_public(answer, 4);
    bool done = tinesage_word(answer, 0) == TINESAGE_DONE;
    expect_public(answer + 4, 8);
    expect_public(answer + 16, 12);
    if (done && secret_result)
        (void)VALGRIND_MAKE_MEM_DEFINED(answer + 12, 4);
    expect_public(answer + 12, 4);
    return tinesage_read_answer(answer);
}

static void hide_secret_cells(void)
{
    for (uint32_t i = 0; i < outline.arrays; i++) {
        const struct array *array = &outline.array[i];
        if (array->secret)
            hide_secret(cells + 4 * array->first, 4 * array->length);
    }
}

static void expect_public_cells(void)
{
    for (uint32_t i = 0; i < outline.arrays; i++) {
        const struct array *array = &outline.array[i];
        if (!array->secret)
            expect_public(cells + 4 * array->first, 4 * array->length);
    }
}

static void load(void)
{
    for (size_t i = 0; i < TINESAGE_MOST_CELLS; i++)
        tinesage_put_word(cells, i, random_word());
    hide(cells, sizeof cells);
    hide(answer, sizeof answer);
    tinesage_load(image, image_length, cells, sizeof cells, answer, sizeof answer);
    expect_answer(false);
    expect_public(cells, 4 * outline.cells);
    judge("load", 0);
}

static void clear(void)
{
    hide_secret_cells();
    hide(answer, sizeof answer);
    tinesage_clear(image, image_length, cells, sizeof cells, answer, sizeof answer);
    expect_answer(false);
    expect_public(cells, 4 * outline.cells);
    judge("clear", 0);
}

/* a cell that is there, or the one after its array's last */
static uint32_t random_index(uint32_t array)
{
    return below(outline.array[array].length + (below(8) == 0 ? 1 : 0));
}

static void poke(uint32_t array)
{
    bool secret = outline.array[array].secret;
    uint32_t value = random_word(), index = random_index(array);
    hide_secret_cells();
    hide(answer, sizeof answer);
    if (secret)
        hide_secret(&value, sizeof value);
    tinesage_poke(image, image_length, cells, sizeof cells, array, index, value, answer, sizeof answer);
    expect_answer(false);
    expect_public_cells();
    judge("poke", array);
}

static void peek(uint32_t array)
{
    uint32_t index = random_index(array);
    hide_secret_cells();
    hide(answer, sizeof answer);
    tinesage_peek(image, image_length, cells, sizeof cells, array, index, answer, sizeof answer);
    expect_answer(outline.array[array].secret);
    expect_public_cells();
    judge("peek", array);
}

/* no cell may matter, a public one no more than a secret one */
static void bound(uint32_t procedure)
{
    hide_secret_cells();
    hide(cells, sizeof cells);
    hide(answer, sizeof answer);
    tinesage_bound(image, image_length, cells, sizeof cells, procedure, answer, sizeof answer);
    expect_answer(false);
    (void)VALGRIND_MAKE_MEM_DEFINED(cells, sizeof cells);
    judge("bound", procedure);
    bounds++;
}

/* what a call is given beside the image and the cells; a preview is given the same */
struct call {
    uint32_t number, arguments, budget, trace_words;
    uint8_t argument[4 * MOST_ARGUMENTS];
};

static struct tinesage_answer run(struct call *call, bool preview)
{
    const struct procedure *procedure = &outline.procedure[call->number];
    hide_secret_cells();
    hide(trace, sizeof trace);
    hide(answer, sizeof answer);
    for (uint32_t i = 0; i < procedure->parameters; i++)
        if (procedure->secret[i])
            hide_secret(call->argument + 4 * i, 4);
    if (preview)
        tinesage_preview(image, image_length, cells, sizeof cells, call->number, call->argument,
                         4 * (size_t)call->arguments, call->budget, trace, 4 * (size_t)call->trace_words, answer,
                         sizeof answer);
    else
        tinesage_call(image, image_length, cells, sizeof cells, call->number, call->argument,
                      4 * (size_t)call->arguments, call->budget, trace, 4 * (size_t)call->trace_words, answer,
                      sizeof answer);
    struct tinesage_answer a = expect_answer(procedure->secret_result);
    expect_public(trace, 4 * (size_t)a.count);
    expect_public_cells();
    judge(preview ? "preview" : "call", call->number);
    return a;
}

static void count_call(struct tinesage_answer a)
{
    if (a.status == TINESAGE_DONE)
        calls_done++;
    else if (a.status == TINESAGE_STOPPED)
        calls_stopped++;
    else
        calls_refused++;
}

/* at times previewed first, as by a host that asks how long a trace it needs */
static struct tinesage_answer call_once(struct call *call)
{
    if (below(3) == 0) {
        run(call, true);
        previews++;
    }
    struct tinesage_answer a = run(call, false);
    count_call(a);
    return a;
}

/* the last procedure can reach most of the others */
static uint32_t random_procedure(void)
{
    return below(2) == 0 ? outline.procedures - 1 : below(outline.procedures);
}

/* A call with room for its steps and its trace, and the same with a budget or a trace slice that ends before it does.
 */
static void call_twice(void)
{
    struct call call = {random_procedure(), 0, 2000, TRACE_WORDS, {0}};
    call.arguments = outline.procedure[call.number].parameters;
    if (below(32) == 0)
        call.arguments += 1;
    for (uint32_t i = 0; i < MOST_ARGUMENTS; i++)
        tinesage_put_word(call.argument, i, random_word());
    struct tinesage_answer a = call_once(&call);
    if (below(2) == 0)
        call.budget = below(a.steps + 1);
    else
        call.trace_words = below((uint32_t)a.count + 1);
    call_once(&call);
}

static void session(void)
{
    images++;
    read_outline();
    load();
    for (int i = 0; i < CALLS; i++) {
        for (uint32_t array = 0; array < outline.arrays; array++)
            if (below(2) == 0)
                poke(array);
        call_twice();
    }
    bound(random_procedure());
    bound(below(outline.procedures + 1));
    if (outline.arrays > 0)
        peek(below(outline.arrays));
    clear();
}

/* ---- images from request lines ---- */

/* The hashes of all images seen so far: a session sends the same image more than once. */
#define MOST_IMAGES 100000
static uint64_t seen[MOST_IMAGES];
static size_t seen_count;

static bool seen_before(void)
{
    uint64_t hash = 0xCBF29CE484222325u;
    for (size_t i = 0; i < image_length; i++)
        hash = (hash ^ image[i]) * 0x100000001B3u;
    for (size_t i = 0; i < seen_count; i++)
        if (seen[i] == hash)
            return true;
    if (seen_count < MOST_IMAGES)
        seen[seen_count++] = hash;
    return false;
}

/* puts the compiled form in the place of the image; false where it is refused */
static bool compile(void)
{
    static uint8_t out[sizeof image];
    tinesage_compile(image, image_length, out, sizeof out, answer, sizeof answer);
    struct tinesage_answer a = tinesage_read_answer(answer);
    image_length = 4 * (size_t)a.count;
    memcpy(image, out, image_length);
    return a.status == TINESAGE_DONE;
}

/* whether the image can be run: it is accepted, and in compiled form from here on unless it is to stay as it is */
static bool prepare(bool as_it_is)
{
    tinesage_check(image, image_length, answer, sizeof answer);
    if (tinesage_read_answer(answer).status != TINESAGE_DONE)
        return false;
    bool source = (tinesage_word(image, 0) >> 16 & 0xFFF) == 0;
    return !source || as_it_is || (compile() && !seen_before());
}

static void take_line(const char *text, size_t length, bool as_they_are)
{
    if (image_of_line(text, length, image, sizeof image, &image_length) && !seen_before() && prepare(as_they_are))
        session();
}

int main(int count, char **arguments)
{
    bool as_they_are = count == 3 && strcmp(arguments[2], "as-they-are") == 0;
    if (count != 2 && !as_they_are) {
        fprintf(stderr, "usage: valgrind secrets SEED [as-they-are] <REQUESTS\n");
        return 2;
    }
    if (!RUNNING_ON_VALGRIND) {
        fprintf(stderr, "secrets: not under valgrind, nothing would be reported\n");
        return 2;
    }
    random_state = strtoull(arguments[1], NULL, 10);
    char *text = NULL;
    size_t room = 0;
    ssize_t length;
    while ((length = getline(&text, &room, stdin)) > 0)
        take_line(text, (size_t)length, as_they_are);
    free(text);
    printf("%llu images, %llu requests, %llu calls done, %llu stopped, %llu refused, %llu previews, %llu bounds, "
           "%llu secret words, %llu requests reported\n",
           images, requests, calls_done, calls_stopped, calls_refused, previews, bounds, secret_words,
           reported_requests);
    return reported_requests == 0 ? EXIT_SUCCESS : EXIT_FAILURE;
}
