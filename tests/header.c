/*
 * The header beside the library: its limits are those at which the checker turns from accepting to refusing, its
 * functions take answers and trace entries apart as the library writes them, and what previews, comparisons and bounds
 * answer can be used as it says. Prints 'N passed, M failed' as its last
 * line.
 */
#include <stdio.h>
#include <stdlib.h>
#include <string.h>

#include "tinesage.h"

static unsigned passed, failed;

static void expect(const char *what, int holds)
{
    if (holds) {
        passed++;
    } else {
        failed++;
        printf("FAILED: %s\n", what);
    }
}

/* ---- words and answers ---- */

static void word_cases(void)
{
    uint8_t bytes[12] = {0};
    tinesage_put_word(bytes, 1, 0x89ABCDEF);
    expect("put_word: most significant byte first, and no other byte",
           memcmp(bytes, "\0\0\0\0\x89\xAB\xCD\xEF\0\0\0\0", 12) == 0);
    expect("word: as put_word", tinesage_word(bytes, 1) == 0x89ABCDEF && tinesage_word(bytes, 2) == 0);
}

static void answer_cases(void)
{
    uint8_t bytes[TINESAGE_ANSWER];
    for (uint32_t i = 0; i < 7; i++)
        tinesage_put_word(bytes, i, 0xF0000001 + i);
    struct tinesage_answer a = tinesage_read_answer(bytes);
    expect("read_answer: status, number, place",
           a.status == 0xF0000001 && a.number == 0xF0000002 && a.place == 0xF0000003);
    expect("read_answer: result, steps", a.result == 0xF0000004 && a.steps == 0xF0000005);
    expect("read_answer: count, the high word first", a.count == 0xF0000006F0000007);
}

static void entry_cases(void)
{
    uint8_t trace[2 * TINESAGE_TRACE_ENTRY] = {0};
    tinesage_put_word(trace, 2, 0x4ABCDEF1);
    tinesage_put_word(trace, 3, 0x87654321);
    struct tinesage_trace_entry e = tinesage_read_entry(trace, 1);
    expect("read_entry: kind, place, value",
           e.kind == TINESAGE_TRACE_INDEX && e.place == 0xABCDEF1 && e.value == 0x87654321);
    tinesage_put_word(trace, 0, 0x9FFFFFFF);
    e = tinesage_read_entry(trace, 0);
    expect("read_entry: the last kind, the last place", e.kind == TINESAGE_TRACE_SHIFT_COUNT && e.place == 0xFFFFFFF);
}

static void version_case(void)
{
    char text[64];
    snprintf(text, sizeof text, "%d.%d.%d", TINESAGE_VERSION_MAJOR, TINESAGE_VERSION_MINOR, TINESAGE_VERSION_PATCH);
    expect("the version is made of its three numbers", strcmp(text, TINESAGE_VERSION) == 0);
}

/* ---- limits: each image is made for a number, which is accepted up to the limit and refused above it ---- */

static uint8_t image[4 * (TINESAGE_MOST_WORDS + 1)];
static size_t count;

static void push(uint32_t word)
{
    tinesage_put_word(image, count++, word);
}

static uint32_t checked(void)
{
    uint8_t answer[TINESAGE_ANSWER];
    tinesage_check(image, 4 * count, answer, sizeof answer);
    return tinesage_read_answer(answer).number;
}

/* procedure 0 is empty, procedure 1 has one local and calls it in each word of its body */
static uint32_t with_words(uint32_t form, uint32_t words)
{
    static const uint32_t start[] = {0x10000002, 0x30000000, 0x40000000, 0x50000000,
                                     0x30000001, 0x40000000, 0x40000000, 0x50000000};
    count = 0;
    for (uint32_t i = 0; i < 8; i++)
        push(start[i] + (i == 0 ? form << 16 : i == 7 ? words - 8 : 0));
    while (count < words)
        push(0x60050000);
    return checked();
}

/* as many arrays of 256 cells as fit, and one with the others */
static uint32_t with_cells(uint32_t cells)
{
    uint32_t arrays = (cells + 255) / 256;
    count = 0;
    push(0x10000001 + (arrays << 8));
    for (; cells > 0; cells -= cells < 256 ? cells : 256)
        push(0x20000000 + (cells < 256 ? cells : 256));
    push(0x30000000);
    push(0x40000000);
    push(0x50000000);
    return checked();
}

static uint32_t with_parameters(uint32_t form, uint32_t parameters)
{
    count = 0;
    push(0x10000001 + (form << 16));
    push(0x30000000 + (parameters << 8));
    for (uint32_t i = 0; i <= parameters; i++)
        push(0x40000000);
    push(0x50000000);
    return checked();
}

/* complements inside each other: the body is at level 1, the return at 2, the constant at the given level */
static uint32_t with_level(uint32_t form, uint32_t level)
{
    count = 0;
    push(0x10000001 | form << 16);
    push(0x30000000);
    push(0x40000000);
    push(0x50000001);
    push(0x60040000);
    for (uint32_t i = 3; i < level; i++)
        push(0xC0000001);
    push(0x70000000);
    return checked();
}

static void limit_cases(void)
{
    expect("the deepest level in compiled form is accepted", with_level(1, TINESAGE_MOST_LEVEL) == 0);
    expect("one more is refused", with_level(1, TINESAGE_MOST_LEVEL + 1) == TINESAGE_REFUSAL_TOO_DEEP);
    expect("the deepest level in source form is accepted", with_level(0, TINESAGE_MOST_SOURCE_LEVEL) == 0);
    expect("one more is refused", with_level(0, TINESAGE_MOST_SOURCE_LEVEL + 1) == TINESAGE_REFUSAL_TOO_DEEP);
    expect("the most words in compiled form are accepted", with_words(1, TINESAGE_MOST_WORDS) == 0);
    expect("one more is refused", with_words(1, TINESAGE_MOST_WORDS + 1) == TINESAGE_REFUSAL_LENGTH);
    expect("the most words in source form are accepted", with_words(0, TINESAGE_MOST_SOURCE_WORDS) == 0);
    expect("one more is refused", with_words(0, TINESAGE_MOST_SOURCE_WORDS + 1) == TINESAGE_REFUSAL_LENGTH);
    expect("the most cells are accepted", with_cells(TINESAGE_MOST_CELLS) == 0);
    expect("one more is refused", with_cells(TINESAGE_MOST_CELLS + 1) == TINESAGE_REFUSAL_WORD);
    expect("the most arguments are accepted", with_parameters(1, TINESAGE_MOST_ARGUMENTS) == 0);
    expect("one more is refused", with_parameters(1, TINESAGE_MOST_ARGUMENTS + 1) == TINESAGE_REFUSAL_WORD);
    expect("source form has one less", with_parameters(0, TINESAGE_MOST_ARGUMENTS - 1) == 0);
    expect("and no more", with_parameters(0, TINESAGE_MOST_ARGUMENTS) == TINESAGE_REFUSAL_WORD);
}

/* an entry is so long that a slice of that length takes one, and a byte less takes none */
static void entry_length_cases(void)
{
    static const uint32_t words[] = {0x10000001, 0x30000000, 0x40000000, 0x50000001, 0x60040000, 0x70000005};
    count = 0;
    for (size_t i = 0; i < 6; i++)
        push(words[i]);
    for (size_t missing = 0; missing < 2; missing++) {
        uint8_t trace[TINESAGE_TRACE_ENTRY], answer[TINESAGE_ANSWER];
        tinesage_call(image, 4 * count, NULL, 0, 0, NULL, 0, 1, trace, sizeof trace - missing, answer, sizeof answer);
        struct tinesage_answer a = tinesage_read_answer(answer);
        if (missing == 0) {
            expect("a return is recorded", a.status == TINESAGE_DONE && a.result == 5 && a.steps == 1 && a.count == 2);
            expect("as an entry", tinesage_read_entry(trace, 0).kind == TINESAGE_TRACE_RETURN &&
                                      tinesage_read_entry(trace, 0).place == 4);
        } else {
            expect("a byte less takes none", a.status == TINESAGE_STOPPED && a.number == TINESAGE_STOP_TRACE_FULL);
        }
    }
}

/* a shift by 33 goes one place, and 33 is recorded at its word, before the return's entry */
static void shift_count_case(void)
{
    static const uint32_t words[] = {0x10000001, 0x30000000, 0x40000000, 0x50000001,
                                     0x60040000, 0xD0000006, 0x70000003, 0x70000021};
    uint8_t trace[2 * TINESAGE_TRACE_ENTRY], answer[TINESAGE_ANSWER];
    count = 0;
    for (size_t i = 0; i < 8; i++)
        push(words[i]);
    tinesage_call(image, 4 * count, NULL, 0, 0, NULL, 0, 1, trace, sizeof trace, answer, sizeof answer);
    struct tinesage_answer a = tinesage_read_answer(answer);
    struct tinesage_trace_entry e = tinesage_read_entry(trace, 0);
    expect("a shift's count is taken modulo 32", a.status == TINESAGE_DONE && a.result == 6 && a.count == 4);
    expect("and recorded before that", e.kind == TINESAGE_TRACE_SHIFT_COUNT && e.place == 5 && e.value == 33);
}

/* a store of 7 in cell 0 and a return of it: three entries, which a preview counts and which a call needs room for */
static void sized_trace_cases(void)
{
    static const uint32_t words[] = {0x10000101, 0x20000001, 0x30000000, 0x40000000, 0x50000002, 0x60010000,
                                     0x70000000, 0x70000007, 0x60040000, 0xB0000000, 0x70000000};
    uint8_t cells[4] = {0}, trace[16 * TINESAGE_TRACE_ENTRY], answer[TINESAGE_ANSWER];
    count = 0;
    for (size_t i = 0; i < sizeof words / sizeof words[0]; i++)
        push(words[i]);
    tinesage_preview(image, 4 * count, cells, sizeof cells, 0, NULL, 0, 2, trace, sizeof trace, answer, sizeof answer);
    struct tinesage_answer previewed = tinesage_read_answer(answer);
    size_t length = 4 * (size_t)previewed.count;
    expect("a preview counts the trace words",
           previewed.status == TINESAGE_DONE && previewed.result == 7 && previewed.count == 6);
    expect("and stores nothing", tinesage_word(cells, 0) == 0);
    tinesage_preview(image, 4 * count, cells, sizeof cells, 0, NULL, 0, 2, trace, length - 1, answer, sizeof answer);
    expect("a trace a byte shorter stops it", tinesage_read_answer(answer).number == TINESAGE_STOP_TRACE_FULL);
    tinesage_call(image, 4 * count, cells, sizeof cells, 0, NULL, 0, 2, trace, length - 1, answer, sizeof answer);
    expect("and the call", tinesage_read_answer(answer).number == TINESAGE_STOP_TRACE_FULL);
    tinesage_call(image, 4 * count, cells, sizeof cells, 0, NULL, 0, 2, trace, length, answer, sizeof answer);
    struct tinesage_answer called = tinesage_read_answer(answer);
    expect("one of that length does not", called.status == TINESAGE_DONE && called.result == 7 &&
                                              called.count == previewed.count && tinesage_word(cells, 0) == 7);
}

/* a call in an if, and a return of cell 0: a branch, a call and an index, and a return, which a probe does not see */
static const uint32_t seen_words[] = {0x10000102, 0x20000001, 0x30000000, 0x40000000, 0x50000000, 0x30000001,
                                      0x40000000, 0x40000000, 0x50000002, 0x60020000, 0x90000001, 0x50000001,
                                      0x60050000, 0x50000000, 0x60040000, 0xB0000000, 0x70000000};

/* so many words of a recording against so many bytes of a trace */
static struct tinesage_answer compared(const uint8_t *trace, size_t length, const uint32_t *recording, size_t words)
{
    uint8_t probe[8 * TINESAGE_TRACE_ENTRY], answer[TINESAGE_ANSWER];
    for (size_t i = 0; i < words; i++)
        tinesage_put_word(probe, i, recording[i]);
    tinesage_compare(trace, length, probe, 4 * words, answer, sizeof answer);
    return tinesage_read_answer(answer);
}

static int is_comparison(struct tinesage_answer a, uint32_t result, uint64_t entries)
{
    return a.status == TINESAGE_DONE && a.number == 0 && a.place == 0 && a.steps == 0 && a.result == result &&
           a.count == entries;
}

/* a probe's recording beside the words that a call has recorded, and beside all that were lent to it */
static void comparison_cases(void)
{
    static const uint32_t seen[] = {0x10000000, 1, 0x70000000, 0, 0x40000000, 0};
    uint8_t cells[4] = {0}, trace[16 * TINESAGE_TRACE_ENTRY], answer[TINESAGE_ANSWER];
    count = 0;
    for (size_t i = 0; i < sizeof seen_words / sizeof seen_words[0]; i++)
        push(seen_words[i]);
    memset(trace, 0x40, sizeof trace);
    tinesage_call(image, 4 * count, cells, sizeof cells, 1, NULL, 0, 3, trace, sizeof trace, answer, sizeof answer);
    struct tinesage_answer called = tinesage_read_answer(answer);
    size_t recorded = 4 * (size_t)called.count;
    expect("four entries are recorded", called.status == TINESAGE_DONE && called.count == 8);
    expect("a recording agrees", is_comparison(compared(trace, recorded, seen, 6), TINESAGE_AGREE, 3));
    expect("one that ends before parts there", is_comparison(compared(trace, recorded, seen, 4), TINESAGE_PART, 2));
    expect("what the slice holds behind the words recorded would count",
           is_comparison(compared(trace, sizeof trace, seen, 6), TINESAGE_PART, 3));
    expect("an agreement over no entry", is_comparison(compared(trace, 0, seen, 0), TINESAGE_AGREE, 0));
    expect("and a parting at none", is_comparison(compared(trace, 0, seen, 6), TINESAGE_PART, 0));
}

/* a for from 0 up to what the last words say, over an assignment, and a return: 2 steps, and 2 for each pass */
static struct tinesage_answer bound_up_to(const uint32_t *to, size_t words)
{
    static const uint32_t start[] = {0x10000001, 0x30000002, 0x40000000, 0x40000000,
                                     0x40000000, 0x50000002, 0x60030000, 0x70000000};
    static const uint32_t end[] = {0x50000001, 0x60000001, 0x70000000, 0x60040000, 0xA0000001};
    uint8_t answer[TINESAGE_ANSWER];
    count = 0;
    for (size_t i = 0; i < sizeof start / sizeof start[0]; i++)
        push(start[i]);
    for (size_t i = 0; i < words; i++)
        push(to[i]);
    for (size_t i = 0; i < sizeof end / sizeof end[0]; i++)
        push(end[i]);
    tinesage_bound(image, 4 * count, NULL, 0, 0, answer, sizeof answer);
    return tinesage_read_answer(answer);
}

static struct tinesage_answer called_with(uint32_t budget)
{
    uint8_t trace[4 * TINESAGE_TRACE_ENTRY], answer[TINESAGE_ANSWER];
    tinesage_call(image, 4 * count, NULL, 0, 0, NULL, 0, budget, trace, sizeof trace, answer, sizeof answer);
    return tinesage_read_answer(answer);
}

/* the result of a bound is a budget for the call: it is enough, and here one less is not */
static void bound_cases(void)
{
    struct tinesage_answer a = bound_up_to((const uint32_t[]){0x70000004}, 1);
    expect("a bound stands in the result", a.status == TINESAGE_DONE && a.number == 0 && a.place == 0 &&
                                               a.result == 10 && a.steps == 0 && a.count == 0);
    struct tinesage_answer called = called_with(a.result);
    expect("a call with that budget is done", called.status == TINESAGE_DONE && called.steps == a.result);
    expect("one step less stops it", called_with(a.result - 1).number == TINESAGE_STOP_BUDGET);
    a = bound_up_to((const uint32_t[]){0xA0000001}, 1);
    expect("a variable is no constant bound",
           a.status == TINESAGE_REFUSED && a.number == TINESAGE_REFUSAL_UNBOUNDED_LOOP && a.place == 6);
    a = bound_up_to((const uint32_t[]){0x80000000, 0x7FFFFFFE}, 2);
    expect("the largest number of steps that this image can have below the limit",
           a.status == TINESAGE_DONE && a.result == 0xFFFFFFFE);
    a = bound_up_to((const uint32_t[]){0x80000000, 0x7FFFFFFF}, 2);
    expect("a pass more is too large",
           a.status == TINESAGE_REFUSED && a.number == TINESAGE_REFUSAL_BOUND_TOO_LARGE && a.place == 0);
}

int main(void)
{
    word_cases();
    answer_cases();
    entry_cases();
    version_case();
    limit_cases();
    entry_length_cases();
    shift_count_case();
    sized_trace_cases();
    comparison_cases();
    bound_cases();
    printf("%u passed, %u failed\n", passed, failed);
    return failed == 0 ? EXIT_SUCCESS : EXIT_FAILURE;
}
