/*
 * Answers request lines from standard input on standard output, one line each, by the library's functions.
 * docs/REFUSALS.md has examples. A line that starts with '#' is answered by itself, one that is no request by `error`.
 *
 *   check W..             compile CAP W..           load W..          (an image in words, 8 hexadecimal digits each)
 *   checkbytes HEX        compilebytes CAP HEX      loadbytes HEX     (an image in bytes)
 *   describe CAP W..      describebytes CAP HEX
 *   new COUNT             fill VALUE                cells             (the cell slice that this host lends)
 *   poke ARRAY INDEX VALUE    peek ARRAY INDEX    clear
 *   call PROCEDURE BUDGET TRACECAP ARGUMENT..     preview PROCEDURE BUDGET TRACECAP ARGUMENT..
 *   bound PROCEDURE       (the most steps of a call)
 *   agree W.. | W..       (a trace and a board probe's recording, in words)
 */
#include <stdio.h>
#include <stdlib.h>
#include <string.h>

#include "fields.h"
#include "tinesage.h"

/* A longer cell slice is not tried: `new` answers `error` rather than taking all memory. */
#define MOST_LENT_CELLS (1u << 24)

/* the length in words of the trace slice that a call or preview is first lent */
#define FIRST_TRACE 4096

/* a slice to lend; `at` is never null once it has been given a length */
struct slice {
    uint8_t *at;
    size_t length;
};

/* What this host keeps between requests: the last image accepted by a load (none: no bytes), and the cells. */
struct session {
    struct slice image;
    struct slice cells;
};

/* A slice of exactly so many bytes, so that a memory checker sees each byte touched beyond them. */
static struct slice allocate(size_t length)
{
    struct slice slice = {malloc(length > 0 ? length : 1), length};
    if (slice.at == NULL) {
        fprintf(stderr, "drive: out of memory\n");
        exit(EXIT_FAILURE);
    }
    return slice;
}

static void replace(struct slice *old, struct slice new)
{
    free(old->at);
    *old = new;
}

/* a line: its first field, and what follows */
struct request {
    struct field name;
    struct fields rest;
};

/* ---- images, arguments and recordings from the fields of a line ---- */

/* checkbytes, compilebytes, loadbytes and describebytes take the image in bytes */
static bool takes_bytes(const struct request *line)
{
    return line->name.length > 5 && memcmp(line->name.start + line->name.length - 5, "bytes", 5) == 0;
}

/* the bytes of one field; false where it is not whole bytes in hexadecimal */
static bool append_bytes(struct slice *bytes, struct field field)
{
    if (field.length % 2 != 0 || !all_hexadecimal(field))
        return false;
    for (size_t i = 0; i < field.length; i += 2)
        bytes->at[bytes->length++] = byte_of(field.start + i);
    return true;
}

/* the rest of a line: words of 8 digits, or where `raw` the bytes of one field; on false nothing is left to free */
static bool bytes_in(struct fields *line, bool raw, struct slice *bytes)
{
    struct field field;
    size_t fields = 0;
    *bytes = allocate((size_t)(line->end - line->next) / 2);
    bytes->length = 0;
    while (next_field(line, &field)) {
        fields++;
        bool fits = raw ? fields == 1 : field.length == 8;
        if (!fits || !append_bytes(bytes, field)) {
            free(bytes->at);
            return false;
        }
    }
    struct slice exact = allocate(bytes->length);
    memcpy(exact.at, bytes->at, exact.length);
    replace(bytes, exact);
    return true;
}

/* an image in words, or in bytes where the request's name says so; on false nothing is left to free */
static bool image_in(struct request *line, struct slice *image)
{
    return bytes_in(&line->rest, takes_bytes(line), image);
}

/* takes the fields before a bar, and the bar; false where there is none */
static bool fields_to_bar(struct fields *line, struct fields *before)
{
    struct field field;
    before->next = line->next;
    while (next_field(line, &field)) {
        before->end = field.start;
        if (field_is(field, "|"))
            return true;
    }
    return false;
}

/* a trace, a bar, and a recording: a second bar is no word; on false nothing is left to free */
static bool recording_in(struct fields *line, struct slice *trace, struct slice *probe)
{
    struct fields before;
    if (!fields_to_bar(line, &before) || !bytes_in(&before, false, trace))
        return false;
    if (bytes_in(line, false, probe))
        return true;
    free(trace->at);
    return false;
}

/* the arguments of a call or preview as words; on false nothing is left to free */
static bool arguments_in(struct fields *line, struct slice *arguments)
{
    struct field field;
    uint32_t value;
    size_t count = 0;
    /* a field takes at least a blank and a digit */
    struct slice most = allocate((size_t)(line->end - line->next) / 2 * 4);
    while (next_field(line, &field)) {
        if (!u32_in(field, &value)) {
            free(most.at);
            return false;
        }
        tinesage_put_word(most.at, count++, value);
    }
    *arguments = allocate(4 * count);
    memcpy(arguments->at, most.at, arguments->length);
    free(most.at);
    return true;
}

static bool at_end(struct fields *line)
{
    struct field field;
    return !next_field(line, &field);
}

/* ---- answers ---- */

static void print_words(const uint8_t *bytes, uint64_t count)
{
    for (uint64_t i = 0; i < count; i++)
        printf(" %08X", (unsigned)tinesage_word(bytes, i));
    putchar('\n');
}

static void print_refusal(struct tinesage_answer a)
{
    printf("refuse %u %u\n", (unsigned)a.number, (unsigned)a.place);
}

/* `ok`, or the refusal; whether it was done */
static bool print_plain(struct tinesage_answer a)
{
    if (a.status == TINESAGE_DONE)
        puts("ok");
    else
        print_refusal(a);
    return a.status == TINESAGE_DONE;
}

/* `ok` and the result, or the refusal */
static void print_result(struct tinesage_answer a)
{
    if (a.status == TINESAGE_DONE)
        printf("ok %u\n", (unsigned)a.result);
    else
        print_refusal(a);
}

static void print_call(struct tinesage_answer a, const uint8_t *trace)
{
    if (a.status == TINESAGE_REFUSED) {
        print_refusal(a);
        return;
    }
    if (a.status == TINESAGE_DONE)
        printf("ok %u", (unsigned)a.result);
    else
        printf("stop %u %u", (unsigned)a.number, (unsigned)a.place);
    printf(" %u |", (unsigned)a.steps);
    print_words(trace, a.count);
}

/* ---- requests: each prints one line, or nothing and answers false where the line is no request ---- */

static bool on_check(struct session *session, struct request *line)
{
    (void)session;
    struct slice image;
    uint8_t answer[TINESAGE_ANSWER];
    if (!image_in(line, &image))
        return false;
    tinesage_check(image.at, image.length, answer, sizeof answer);
    print_plain(tinesage_read_answer(answer));
    free(image.at);
    return true;
}

/* a function of the library that writes words of its own into a lent slice */
typedef void writing(const uint8_t *image, size_t image_len, uint8_t *out, size_t out_len, uint8_t *answer,
                     size_t answer_len);

/* the words that the function writes, or its refusal */
static bool print_written(struct request *line, writing *function)
{
    struct slice image;
    uint64_t capacity;
    uint8_t answer[TINESAGE_ANSWER];
    if (!next_number(&line->rest, &capacity) || !image_in(line, &image))
        return false;
    /* no result is longer than the limit, so a longer slice changes nothing */
    struct slice out = allocate(4 * (size_t)(capacity < TINESAGE_MOST_WORDS ? capacity : TINESAGE_MOST_WORDS));
    function(image.at, image.length, out.at, out.length, answer, sizeof answer);
    struct tinesage_answer a = tinesage_read_answer(answer);
    if (a.status == TINESAGE_DONE) {
        fputs("ok", stdout);
        print_words(out.at, a.count);
    } else {
        print_refusal(a);
    }
    free(out.at);
    free(image.at);
    return true;
}

static bool on_compile(struct session *session, struct request *line)
{
    (void)session;
    return print_written(line, tinesage_compile);
}

static bool on_describe(struct session *session, struct request *line)
{
    (void)session;
    return print_written(line, tinesage_describe);
}

static bool on_load(struct session *session, struct request *line)
{
    struct slice image;
    uint8_t answer[TINESAGE_ANSWER];
    if (!image_in(line, &image))
        return false;
    tinesage_load(image.at, image.length, session->cells.at, session->cells.length, answer, sizeof answer);
    if (print_plain(tinesage_read_answer(answer)))
        replace(&session->image, image);
    else
        free(image.at);
    return true;
}

static bool on_clear(struct session *session, struct request *line)
{
    const struct slice image = session->image, cells = session->cells;
    uint8_t answer[TINESAGE_ANSWER];
    if (!at_end(&line->rest))
        return false;
    tinesage_clear(image.at, image.length, cells.at, cells.length, answer, sizeof answer);
    print_plain(tinesage_read_answer(answer));
    return true;
}

static bool on_poke(struct session *session, struct request *line)
{
    const struct slice image = session->image, cells = session->cells;
    uint32_t array, index, value;
    uint8_t answer[TINESAGE_ANSWER];
    if (!next_u32(&line->rest, &array) || !next_u32(&line->rest, &index) || !next_u32(&line->rest, &value) ||
        !at_end(&line->rest))
        return false;
    tinesage_poke(image.at, image.length, cells.at, cells.length, array, index, value, answer, sizeof answer);
    print_plain(tinesage_read_answer(answer));
    return true;
}

static bool on_peek(struct session *session, struct request *line)
{
    const struct slice image = session->image, cells = session->cells;
    uint32_t array, index;
    uint8_t answer[TINESAGE_ANSWER];
    if (!next_u32(&line->rest, &array) || !next_u32(&line->rest, &index) || !at_end(&line->rest))
        return false;
    tinesage_peek(image.at, image.length, cells.at, cells.length, array, index, answer, sizeof answer);
    print_result(tinesage_read_answer(answer));
    return true;
}

static bool on_bound(struct session *session, struct request *line)
{
    const struct slice image = session->image, cells = session->cells;
    uint32_t procedure;
    uint8_t answer[TINESAGE_ANSWER];
    if (!next_u32(&line->rest, &procedure) || !at_end(&line->rest))
        return false;
    tinesage_bound(image.at, image.length, cells.at, cells.length, procedure, answer, sizeof answer);
    print_result(tinesage_read_answer(answer));
    return true;
}

/* what a call is given beside the image, the cells and the trace; a preview is given the same */
struct call {
    bool preview;
    uint32_t procedure, budget;
    struct slice arguments;
};

/* the one place where a call and a preview part: a preview only reads the cells */
static struct tinesage_answer lend(const struct session *session, const struct call *call, struct slice trace)
{
    const struct slice image = session->image, cells = session->cells, arguments = call->arguments;
    uint8_t answer[TINESAGE_ANSWER];
    if (call->preview)
        tinesage_preview(image.at, image.length, cells.at, cells.length, call->procedure, arguments.at,
                         arguments.length, call->budget, trace.at, trace.length, answer, sizeof answer);
    else
        tinesage_call(image.at, image.length, cells.at, cells.length, call->procedure, arguments.at, arguments.length,
                      call->budget, trace.at, trace.length, answer, sizeof answer);
    return tinesage_read_answer(answer);
}

/*
 * Runs a call or preview with a trace slice of `room` words. A shorter slice is lent first, since few traces are long:
 * a run that it does not stop with 22 is the same with a longer one, and one that it does leaves the cells for another
 * try.
 */
static struct tinesage_answer run(const struct session *session, const struct call *call, uint64_t room,
                                  struct slice *trace)
{
    uint64_t lent = room < FIRST_TRACE ? room : FIRST_TRACE;
    for (;;) {
        *trace = allocate(lent > SIZE_MAX / 4 ? SIZE_MAX : 4 * (size_t)lent);
        struct tinesage_answer a = lend(session, call, *trace);
        if (a.status != TINESAGE_STOPPED || a.number != TINESAGE_STOP_TRACE_FULL || lent == room)
            return a;
        free(trace->at);
        lent = lent < room / 4 ? 4 * lent : room;
    }
}

/* call, and preview */
static bool on_call(struct session *session, struct request *line)
{
    struct call call = {.preview = field_is(line->name, "preview")};
    uint64_t room;
    struct slice trace;
    if (!next_u32(&line->rest, &call.procedure) || !next_u32(&line->rest, &call.budget) ||
        !next_number(&line->rest, &room))
        return false;
    if (!arguments_in(&line->rest, &call.arguments))
        return false;
    struct tinesage_answer a = run(session, &call, room, &trace);
    print_call(a, trace.at);
    free(trace.at);
    free(call.arguments.at);
    return true;
}

static bool on_agree(struct session *session, struct request *line)
{
    (void)session;
    struct slice trace, probe;
    uint8_t answer[TINESAGE_ANSWER];
    if (!recording_in(&line->rest, &trace, &probe))
        return false;
    tinesage_compare(trace.at, trace.length, probe.at, probe.length, answer, sizeof answer);
    struct tinesage_answer a = tinesage_read_answer(answer);
    if (a.result == TINESAGE_AGREE)
        puts("ok agree");
    else
        printf("ok part %llu\n", (unsigned long long)a.count);
    free(probe.at);
    free(trace.at);
    return true;
}

static void fill(struct slice cells, uint32_t value)
{
    for (size_t i = 0; i < cells.length / 4; i++)
        tinesage_put_word(cells.at, i, value);
}

static bool on_new(struct session *session, struct request *line)
{
    uint64_t count;
    if (!next_number(&line->rest, &count) || count > MOST_LENT_CELLS || !at_end(&line->rest))
        return false;
    replace(&session->image, allocate(0));
    replace(&session->cells, allocate(4 * (size_t)count));
    fill(session->cells, 0);
    puts("ok");
    return true;
}

static bool on_fill(struct session *session, struct request *line)
{
    uint32_t value;
    if (!next_u32(&line->rest, &value) || !at_end(&line->rest))
        return false;
    fill(session->cells, value);
    puts("ok");
    return true;
}

static bool on_cells(struct session *session, struct request *line)
{
    if (!at_end(&line->rest))
        return false;
    fputs("cells", stdout);
    print_words(session->cells.at, session->cells.length / 4);
    return true;
}

/* ---- lines ---- */

struct handler {
    const char *name;
    bool (*answer)(struct session *session, struct request *line);
};

static const struct handler handlers[] = {
    {"check", on_check},       {"checkbytes", on_check},       {"compile", on_compile}, {"compilebytes", on_compile},
    {"describe", on_describe}, {"describebytes", on_describe}, {"load", on_load},       {"loadbytes", on_load},
    {"new", on_new},           {"fill", on_fill},              {"cells", on_cells},     {"clear", on_clear},
    {"poke", on_poke},         {"peek", on_peek},              {"call", on_call},       {"preview", on_call},
    {"bound", on_bound},       {"agree", on_agree},
};

static bool answer_request(struct session *session, struct request *line)
{
    if (!next_field(&line->rest, &line->name))
        return false;
    for (size_t i = 0; i < sizeof handlers / sizeof handlers[0]; i++) {
        if (field_is(line->name, handlers[i].name))
            return handlers[i].answer(session, line);
    }
    return false;
}

static void answer_line(struct session *session, const char *text, size_t length)
{
    struct request line = {{text, 0}, {text, text + length}};
    if (length > 0 && text[0] == '#') {
        fwrite(text, 1, length, stdout);
        putchar('\n');
    } else if (!answer_request(session, &line)) {
        puts("error");
    }
}

int main(void)
{
    struct session session = {allocate(0), allocate(0)};
    char *text = NULL;
    size_t room = 0;
    ssize_t length;
    while ((length = getline(&text, &room, stdin)) > 0) {
        size_t end = (size_t)length;
        if (text[end - 1] == '\n')
            end--;
        answer_line(&session, text, end);
    }
    bool written = !ferror(stdin) && fflush(stdout) == 0 && !ferror(stdout);
    free(text);
    free(session.image.at);
    free(session.cells.at);
    return written ? EXIT_SUCCESS : EXIT_FAILURE;
}
