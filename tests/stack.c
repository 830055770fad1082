/*
 * The native stack that each function of the library needs. Each runs on a thread whose stack was filled with a pattern;
 * what it needed is the distance from the frame that calls it to the deepest byte that no longer holds the pattern.
 * The images nest as deep as the levels allow: ifs and fors around a statement, operators below it, and 32 procedures
 * that each call the one below from there. A comparison takes no image: it is measured with recordings of many lengths.
 * Prints a table of the largest need of each function, and 'N passed, M failed' as its last line, counted in bounds: one
 * fails where the bound that docs/STACK.md states is not at least MORE percent above the need. A run with another answer
 * than its image or recording is made for fails too.
 */
#include <pthread.h>
#include <stdbool.h>
#include <stdio.h>
#include <stdlib.h>
#include <string.h>

#include "tinesage.h"
#include "tinesage_padding.h"

/* ---- images ---- */

/* the most ifs and fors around a statement: each has two levels, and so have the body and the statement together */
#define DEEPEST (TINESAGE_MOST_LEVEL / 2 - 1)
#define PROCEDURES 32

enum nest { IF_TRUE, IF_SECRET_ELSE, IF_SECRET_THEN, FOR, FOR_AND_IF, FOR_THEN_SECRET_IF, NESTS };
static const char *const nest_names[] = {"ifs",  "secret ifs, in else", "secret ifs, in then",
                                         "fors", "fors and ifs by turns", "fors, the last a secret if"};

enum leaf { RETURN, ASSIGN, STORE, CALL, CALL_WITH_ARGUMENTS, LEAVES };
static const char *const leaf_names[] = {"return", "assign", "store", "call", "call with arguments"};

enum operators { COMPLEMENT, ADD_FIRST, ADD_SECOND, SELECT_CONDITION, SELECT_FIRST, SELECT_SECOND, DIVIDE_FIRST,
                 DIVIDE_SECOND, SHIFT_SECOND, INDEX, NEIGHBOUR, OPERATORS };
static const char *const operator_names[] = {"complement",   "add, first",    "add, second", "select, condition",
                                             "select, first", "select, second", "divide, first", "divide, second",
                                             "shift, second", "index",         "loop variable plus 3 as index"};

/* what an image is made of: `depth` ifs or fors, the statement in them, and the operators under it */
struct shape {
    uint32_t form;
    enum nest nest;
    uint32_t depth;
    enum leaf leaf;
    enum operators operators;
    bool longest; /* as many words as the form allows */
};

struct image {
    uint8_t bytes[4 * TINESAGE_MOST_WORDS];
    size_t count;
};

static uint32_t most_level(const struct shape *s)
{
    return s->form == 1 ? TINESAGE_MOST_LEVEL : TINESAGE_MOST_SOURCE_LEVEL;
}

static uint32_t most_words(const struct shape *s)
{
    return s->form == 1 ? TINESAGE_MOST_WORDS : TINESAGE_MOST_SOURCE_WORDS;
}
static bool calls(const struct shape *s) { return s->leaf == CALL || s->leaf == CALL_WITH_ARGUMENTS; }

static bool secret(const struct shape *s)
{
    return s->nest == IF_SECRET_ELSE || s->nest == IF_SECRET_THEN || s->nest == FOR_THEN_SECRET_IF;
}

/* a secret branch in form 1 */
static bool refused(const struct shape *s) { return s->form == 1 && secret(s) && s->depth > 0; }

static uint32_t parameters(const struct shape *s) { return s->leaf != CALL_WITH_ARGUMENTS ? 0 : s->form == 1 ? 9 : 8; }

static void push(struct image *image, uint32_t word)
{
    if (image->count < TINESAGE_MOST_WORDS)
        tinesage_put_word(image->bytes, image->count, word);
    image->count++;
}

/* an expression of booleans from this level down to the last: the condition of a select is a select */
static void push_condition(struct image *image, uint32_t level, uint32_t last)
{
    if (level >= last) {
        push(image, 0x90000001);
        return;
    }
    push(image, 0xE0000000);
    push_condition(image, level + 1, last);
    push(image, 0x90000001);
    push(image, 0x90000000);
}

static void push_expression(struct image *image, enum operators operators, uint32_t level, uint32_t last);

/* the variable of the innermost for, which runs from 0 to 1; set for each image */
static uint32_t innermost;

/* an index that a secret context allows: that variable plus 3, the last of four cells */
static void push_neighbour(struct image *image)
{
    push(image, 0xD0000000);
    push(image, 0xA0000000 | innermost);
    push(image, 0x70000003);
}

/* an operator with words before and after its deep operand; 0 is no word */
static void push_operator(struct image *image, enum operators operators, uint32_t level, uint32_t last,
                          const uint32_t words[4])
{
    for (int i = 0; i < 2; i++)
        if (words[i] != 0)
            push(image, words[i]);
    push_expression(image, operators, level + 1, last);
    for (int i = 2; i < 4; i++)
        if (words[i] != 0)
            push(image, words[i]);
}

/* an expression of words whose deepest operand is at the last level; where it is a divisor it is 1, as an index 0 */
static void push_expression(struct image *image, enum operators operators, uint32_t level, uint32_t last)
{
    static const uint32_t words[OPERATORS][4] = {
        [COMPLEMENT] = {0xC0000001},
        [ADD_FIRST] = {0xD0000000, 0, 0x70000000},
        [ADD_SECOND] = {0xD0000000, 0x70000000},
        [SELECT_FIRST] = {0xE0000000, 0x90000001, 0x70000001},
        [DIVIDE_FIRST] = {0xD0000009, 0, 0x70000001},
        [DIVIDE_SECOND] = {0xD0000009, 0x70000001},
        [SHIFT_SECOND] = {0xD0000006, 0x70000001},
        [INDEX] = {0xB0000000},
        [NEIGHBOUR] = {0xC0000001},
    };
    if (operators == NEIGHBOUR && level + 2 >= last) {
        push(image, 0xB0000000);
        push_neighbour(image);
    } else if (level >= last) {
        push(image, operators == INDEX ? 0x70000000 : 0x70000001);
    } else if (operators == SELECT_CONDITION) {
        push(image, 0xE0000000);
        push_condition(image, level + 1, last);
        push(image, 0x70000001);
        push(image, 0x70000001);
    } else if (operators == SELECT_SECOND) {
        push(image, 0xE0000000);
        push(image, 0x90000000);
        push(image, 0x70000001);
        push_expression(image, operators, level + 1, last);
    } else {
        push_operator(image, operators, level, last, words[operators]);
    }
}

/* the statement inside all ifs and fors; procedure 0 has none to call and returns */
static void push_leaf(struct image *image, const struct shape *s, uint32_t number, uint32_t level)
{
    uint32_t first = parameters(s), last = most_level(s);
    if (calls(s) && number > 0) {
        push(image, 0x60050000 | (number - 1) << 8 | first);
        for (uint32_t i = 0; i < first; i++)
            push_expression(image, s->operators, level + 1, last);
        return;
    }
    if (s->leaf == ASSIGN)
        push(image, 0x60000000 | first);
    else if (s->leaf == STORE && s->operators == NEIGHBOUR)
        push(image, 0x60010001), push_neighbour(image);
    else if (s->leaf == STORE)
        push(image, 0x60010001), push(image, 0x70000000);
    else
        push(image, 0x60040000);
    push_expression(image, s->operators, level + 1, last);
}

/* whether a for stands where so many ifs and fors are left */
static bool is_for(const struct shape *s, uint32_t left)
{
    return s->nest == FOR || (s->nest == FOR_AND_IF && left % 2 == 0) || (s->nest == FOR_THEN_SECRET_IF && left > 1);
}

static void push_block(struct image *image, const struct shape *s, uint32_t number, uint32_t left, uint32_t level)
{
    /* at the last level there is room for a call without arguments, but not for the return of procedure 0 */
    bool empty = left == 0 && number == 0 && level + 1 == most_level(s);
    push(image, empty ? 0x50000000 : 0x50000001);
    if (left == 0) {
        if (!empty)
            push_leaf(image, s, number, level + 1);
        return;
    }
    uint32_t first = parameters(s);
    if (is_for(s, left)) {
        push(image, 0x60030000 | (first + 1 + left));
        push(image, 0x70000000);
        push(image, 0x70000001);
        push_block(image, s, number, left - 1, level + 2);
        return;
    }
    push(image, 0x60020000);
    push(image, secret(s) ? 0xA0000000 | (first + 1) : 0x90000001);
    bool in_else = secret(s) && s->nest != IF_SECRET_THEN;
    if (in_else)
        push(image, 0x50000000);
    push_block(image, s, number, left - 1, level + 2);
    if (!in_else)
        push(image, 0x50000000);
}

/* one for each if or for, where there are fors */
static uint32_t loop_variables(const struct shape *s)
{
    return s->nest == FOR || s->nest == FOR_AND_IF || s->nest == FOR_THEN_SECRET_IF ? s->depth : 0;
}

/* result and parameters are secret words; the locals are a secret word, a secret boolean and the loop variables */
static void push_types(struct image *image, const struct shape *s)
{
    for (uint32_t i = 0; i < parameters(s) + 2; i++)
        push(image, 0x40000001);
    push(image, 0x40000003);
    for (uint32_t i = 0; i < loop_variables(s); i++)
        push(image, 0x40000000);
}

static void push_procedure(struct image *image, const struct shape *s, uint32_t number)
{
    uint32_t guarded = secret(s) && s->form == 0 ? 1 : 0;
    push(image, 0x30000000 | guarded << 16 | parameters(s) << 8 | (2 + loop_variables(s)));
    push_types(image, s);
    push_block(image, s, number, s->depth, 1);
}

/* how many ifs and fors are left at the innermost for; 0 where there is none */
static uint32_t left_at_innermost(const struct shape *s)
{
    uint32_t left = 1;
    while (left <= s->depth && !is_for(s, left))
        left++;
    return left <= s->depth ? left : 0;
}

/* a procedure of assignments, so that the image has exactly `count` words */
static void push_padding(struct image *image, uint32_t count)
{
    push(image, 0x30000001);
    push(image, 0x40000001);
    push(image, 0x40000001);
    uint32_t words = count - (uint32_t)image->count - 1;
    push(image, 0x50000000 | words / 2);
    if (words % 2 == 1)
        push(image, 0x60000000), push(image, 0xC0000001), push(image, 0x70000001);
    while (image->count < count)
        push(image, 0x60000000), push(image, 0x70000001);
}

/* the number of the procedure that is called, the last one of the chain */
static uint32_t called(const struct shape *s)
{
    return calls(s) ? PROCEDURES - 1 : 0;
}

/* a public array, whose cells are 0 and name themselves as an index, and a secret one, long enough that every request takes
   the large machine */
static void make_image(struct image *image, const struct shape *s)
{
    uint32_t chain = called(s) + 1;
    innermost = parameters(s) + 1 + left_at_innermost(s);
    image->count = 0;
    push(image, 0x10000200 | s->form << 16 | (chain + (s->longest ? 1 : 0)));
    push(image, 0x20000004);
    push(image, 0x20010100);
    for (uint32_t i = 0; i < chain; i++)
        push_procedure(image, s, i);
    if (s->longest)
        push_padding(image, most_words(s));
}

/* whether the rules admit the shape; the levels and the words are left to the limits of the form */
static bool admitted(const struct shape *s)
{
    uint32_t level = 2 * s->depth + 2, last = most_level(s);
    if (secret(s) && (s->operators == INDEX || s->operators == DIVIDE_SECOND))
        return false;
    if (s->leaf == CALL && s->operators != COMPLEMENT)
        return false;
    if (s->operators == NEIGHBOUR && (left_at_innermost(s) == 0 || level + 3 > last))
        return false;
    if (s->longest && (s->leaf != RETURN || s->operators != COMPLEMENT))
        return false;
    return s->leaf == CALL ? level <= last : level < last;
}

/* ---- the functions, each on a thread of its own ---- */

/* all before the last two take an image */
enum function { CHECK, COMPILE, DESCRIBE, LOAD, CLEAR, POKE, PEEK, CALLED, PREVIEWED, BOUNDED, COMPARED, UNPADDED, FUNCTIONS };
static const char *const function_names[] = {"tinesage_check", "tinesage_compile", "tinesage_describe", "tinesage_load",
                                             "tinesage_clear", "tinesage_poke",    "tinesage_peek",     "tinesage_call",
                                             "tinesage_preview", "tinesage_bound", "tinesage_compare",
                                             "tinesage_unpadded_length"};

/* what docs/STACK.md states, in bytes */
static const size_t bounds[FUNCTIONS] = {[CHECK] = 112 << 10, [COMPILE] = 192 << 10, [DESCRIBE] = 112 << 10,
                                         [LOAD] = 112 << 10,  [CLEAR] = 112 << 10,   [POKE] = 112 << 10,
                                         [PEEK] = 112 << 10,  [CALLED] = 384 << 10,  [PREVIEWED] = 384 << 10,
                                         [BOUNDED] = 112 << 10, [COMPARED] = 4 << 10, [UNPADDED] = 16 << 10};

/* the same for images of at most SHORT words; the compiler has none, since its result may be long */
#define SHORT 512
static const size_t short_bounds[FUNCTIONS] = {[CHECK] = 36 << 10, [DESCRIBE] = 36 << 10, [LOAD] = 36 << 10,
                                               [CLEAR] = 36 << 10, [POKE] = 36 << 10,     [PEEK] = 36 << 10,
                                               [CALLED] = 128 << 10, [PREVIEWED] = 128 << 10,
                                               [BOUNDED] = 36 << 10};

struct job {
    enum function function;
    const struct image *image;
    uint32_t procedure, parameters;
    size_t entries; /* of a recording */
    const uint8_t *top;
    uint8_t answer[TINESAGE_ANSWER];
};

static uint8_t out[4 * TINESAGE_MOST_WORDS], cells[4 * TINESAGE_MOST_CELLS], trace[1 << 20];

static void *run(void *given)
{
    static const uint8_t arguments[4 * TINESAGE_MOST_ARGUMENTS];
    struct job *job = given;
    const uint8_t *image = job->image->bytes;
    size_t length = 4 * job->image->count, answer_len = sizeof job->answer;
    job->top = __builtin_frame_address(0);
    switch (job->function) {
    case CHECK: tinesage_check(image, length, job->answer, answer_len); break;
    case COMPILE: tinesage_compile(image, length, out, sizeof out, job->answer, answer_len); break;
    case DESCRIBE: tinesage_describe(image, length, out, sizeof out, job->answer, answer_len); break;
    case LOAD: tinesage_load(image, length, cells, sizeof cells, job->answer, answer_len); break;
    case CLEAR: tinesage_clear(image, length, cells, sizeof cells, job->answer, answer_len); break;
    case POKE: tinesage_poke(image, length, cells, sizeof cells, 1, 0, 0, job->answer, answer_len); break;
    case PEEK: tinesage_peek(image, length, cells, sizeof cells, 1, 0, job->answer, answer_len); break;
    case BOUNDED:
        tinesage_bound(image, length, cells, sizeof cells, job->procedure, job->answer, answer_len);
        break;
    case COMPARED:
        tinesage_compare(trace, 2 * TINESAGE_TRACE_ENTRY * job->entries, out, TINESAGE_TRACE_ENTRY * job->entries,
                         job->answer, answer_len);
        break;
    case UNPADDED:
        tinesage_put_word(job->answer, 0, tinesage_unpadded_length(cells, TINESAGE_BLOCK));
        break;
    case CALLED:
        tinesage_call(image, length, cells, sizeof cells, job->procedure, arguments, 4 * job->parameters, 1000000,
                      trace, sizeof trace, job->answer, answer_len);
        break;
    default:
        tinesage_preview(image, length, cells, sizeof cells, job->procedure, arguments, 4 * job->parameters, 1000000,
                         trace, sizeof trace, job->answer, answer_len);
    }
    return NULL;
}

#define STACK (2u << 20)
#define PATTERN 0xA55AC33C96695AA5u
#define LINE 8

static uint64_t *stack, *dirty;

static void prepare_stack(void)
{
    stack = aligned_alloc(4096, STACK);
    if (stack == NULL)
        exit(EXIT_FAILURE);
    dirty = stack;
}

/* whether a line of eight words holds the pattern */
static bool clean(const uint64_t *line)
{
    uint64_t changed = 0;
    for (int i = 0; i < LINE; i++)
        changed |= line[i] ^ PATTERN;
    return changed == 0;
}

/* the bytes of stack that the job needed, up to one line too many */
static size_t need(struct job *job)
{
    pthread_attr_t attributes;
    pthread_t thread;
    uint64_t *end = stack + STACK / sizeof *stack;
    for (uint64_t *at = dirty; at < end; at++)
        *at = PATTERN;
    if (pthread_attr_init(&attributes) != 0 || pthread_attr_setstack(&attributes, stack, STACK) != 0 ||
        pthread_create(&thread, &attributes, run, job) != 0 || pthread_join(thread, NULL) != 0) {
        fprintf(stderr, "stack: no thread\n");
        exit(EXIT_FAILURE);
    }
    pthread_attr_destroy(&attributes);
    for (dirty = stack; dirty < end && clean(dirty);)
        dirty += LINE;
    return (size_t)(job->top - (const uint8_t *)dirty);
}

/* ---- the largest needs ---- */

static unsigned runs, passed, failed;

struct largest {
    size_t bytes;
    struct shape shape;
};

/* by function: the largest need over all images; apart, over those in source form, short, of the most words, of nine fors */
static struct largest largest[FUNCTIONS], source[FUNCTIONS], shorter[FUNCTIONS], longest[FUNCTIONS], nine[FUNCTIONS];

static void keep(struct largest *kept, size_t bytes, const struct shape *s)
{
    if (bytes > kept->bytes)
        *kept = (struct largest){bytes, *s};
}

/* whether the image got as far as it was made for: 13 and 14 come after all checks of names, sorts and labels */
static bool expected(const struct job *job, const struct shape *s)
{
    struct tinesage_answer a = tinesage_read_answer(job->answer);
    if (refused(s))
        return a.number == 13;
    return job->function == COMPILE && s->form == 1 ? a.number == 14 : a.status == TINESAGE_DONE;
}

/* as many as leave a level for an operand */
static bool nine_fors(const struct shape *s)
{
    return (s->nest == FOR && s->depth == 9) || (s->nest == FOR_THEN_SECRET_IF && s->depth == 10);
}

static void measure(enum function function, const struct shape *s, const struct image *image)
{
    struct job job = {function, image, called(s), parameters(s), 0, NULL, {0}};
    size_t bytes = need(&job);
    if (!expected(&job, s)) {
        struct tinesage_answer a = tinesage_read_answer(job.answer);
        printf("FAILED: %s answers %u at word %u\n", function_names[function], (unsigned)a.number, (unsigned)a.place);
        failed++;
        return;
    }
    runs++;
    keep(&largest[function], bytes, s);
    if (s->form == 0)
        keep(&source[function], bytes, s);
    if (image->count <= SHORT)
        keep(&shorter[function], bytes, s);
    if (s->longest)
        keep(&longest[function], bytes, s);
    if (nine_fors(s))
        keep(&nine[function], bytes, s);
}

static void measure_all(const struct shape *s)
{
    static struct image image;
    if (!admitted(s))
        return;
    make_image(&image, s);
    if (image.count > most_words(s))
        return;
    measure(CHECK, s, &image);
    measure(COMPILE, s, &image);
    measure(CALLED, s, &image);
    measure(PREVIEWED, s, &image);
    measure(BOUNDED, s, &image);
    /* these check the image, and what they do after it is the same for all */
    for (int f = DESCRIBE; f <= PEEK && s->leaf == RETURN; f++)
        measure((enum function)f, s, &image);
}

#define MOST_ENTRIES (sizeof out / TINESAGE_TRACE_ENTRY)

/* a trace whose every second entry is an index, and a recording of these */
static void make_recording(void)
{
    for (uint32_t i = 0; i < MOST_ENTRIES; i++) {
        const uint32_t traced[4] = {0x80000000 | i, 0, 0x40000000 | i, i}, probed[2] = {0x40000000, i};
        for (size_t k = 0; k < 4; k++)
            tinesage_put_word(trace, 4 * i + k, traced[k]);
        for (size_t k = 0; k < 2; k++)
            tinesage_put_word(out, 2 * i + k, probed[k]);
    }
}

/* so many entries agree */
static void measure_comparison(size_t entries)
{
    static const struct image none;
    struct job job = {COMPARED, &none, 0, 0, entries, NULL, {0}};
    size_t bytes = need(&job);
    struct tinesage_answer a = tinesage_read_answer(job.answer);
    if (a.result != TINESAGE_AGREE || a.count != entries) {
        printf("FAILED: %s of %zu entries answers %u, %u\n", function_names[COMPARED], entries, (unsigned)a.result,
               (unsigned)a.count);
        failed++;
        return;
    }
    runs++;
    keep(&largest[COMPARED], bytes, &(struct shape){0});
}

static void measure_comparisons(void)
{
    make_recording();
    measure_comparison(0);
    for (size_t entries = 1; entries <= MOST_ENTRIES; entries *= 2)
        measure_comparison(entries);
}

/* a block of n cells of n, and with its first cell another */
static void measure_block(uint32_t n, uint32_t first, uint32_t due)
{
    static const struct image none;
    struct job job = {UNPADDED, &none, 0, 0, 0, NULL, {0}};
    for (uint32_t i = 0; i < TINESAGE_BLOCK_CELLS; i++)
        tinesage_put_word(cells, i, i == 0 ? first : n);
    size_t bytes = need(&job);
    if (tinesage_word(job.answer, 0) != due) {
        printf("FAILED: %s answers %u\n", function_names[UNPADDED], (unsigned)tinesage_word(job.answer, 0));
        failed++;
        return;
    }
    runs++;
    keep(&largest[UNPADDED], bytes, &(struct shape){0});
}

static void measure_blocks(void)
{
    measure_block(16, 16, 0);
    measure_block(16, 15, TINESAGE_NOT_PADDED);
    measure_block(0, 0, TINESAGE_NOT_PADDED);
}

static void measure_shapes(uint32_t form, bool longest_image)
{
    for (int nest = 0; nest < NESTS; nest++)
        for (uint32_t depth = 0; depth <= DEEPEST; depth++)
            for (int leaf = 0; leaf < LEAVES; leaf++)
                for (int operators = 0; operators < OPERATORS; operators++)
                    measure_all(&(struct shape){form, (enum nest)nest, depth, (enum leaf)leaf,
                                                (enum operators)operators, longest_image});
}

static void print_row(const char *title, enum function function, const struct largest *kept)
{
    const struct shape *s = &kept->shape;
    printf("| %s | %s | form %u, %u %s, %s", function_names[function], title, (unsigned)s->form, (unsigned)s->depth,
           nest_names[s->nest], leaf_names[s->leaf]);
    if (s->leaf != CALL)
        printf(", %s", operator_names[s->operators]);
    printf(" | %zu |\n", kept->bytes);
}

/* "at least 27% more than any image measured needed" (README.md) */
#define MORE 27

static void judge(const char *title, enum function function, const struct largest *kept, size_t bound)
{
    if (kept->bytes * (100 + MORE) <= bound * 100) {
        passed++;
        return;
    }
    failed++;
    printf("FAILED: %s, %s, needs %zu bytes, the bound of %zu is not at least %d%% above that\n",
           function_names[function], title, kept->bytes, bound, MORE);
}

int main(void)
{
    prepare_stack();
    for (uint32_t form = 0; form <= 1; form++) {
        measure_shapes(form, false);
        measure_shapes(form, true);
    }
    measure_comparisons();
    measure_blocks();
    puts("| function | of | image | bytes |\n| --- | --- | --- | ---: |");
    for (int f = CHECK; f < COMPARED; f++) {
        print_row("all images", (enum function)f, &largest[f]);
        print_row("images in source form", (enum function)f, &source[f]);
        print_row("images of at most 512 words", (enum function)f, &shorter[f]);
        print_row("images of the most words", (enum function)f, &longest[f]);
        print_row("nine fors", (enum function)f, &nine[f]);
    }
    printf("| %s | recordings of up to %zu entries | | %zu |\n", function_names[COMPARED], MOST_ENTRIES,
           largest[COMPARED].bytes);
    printf("| %s | blocks | | %zu |\n", function_names[UNPADDED], largest[UNPADDED].bytes);
    for (int f = CHECK; f < COMPARED; f++) {
        judge("all images", (enum function)f, &largest[f], bounds[f]);
        if (f != COMPILE)
            judge("short images", (enum function)f, &shorter[f], short_bounds[f]);
    }
    judge("all recordings", COMPARED, &largest[COMPARED], bounds[COMPARED]);
    judge("blocks", UNPADDED, &largest[UNPADDED], bounds[UNPADDED]);
    free(stack);
    printf("%u runs\n", runs);
    printf("%u passed, %u failed\n", passed, failed);
    return failed == 0 ? EXIT_SUCCESS : EXIT_FAILURE;
}
