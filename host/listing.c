#include "listing.h"

#include "terms.h"
#include "tinesage.h"

#define MOST_ARRAYS 16
#define MOST_ARRAY_CELLS 256
#define MOST_PROCEDURES 32
#define MOST_VARIABLES 255

/* the limits of a form */
struct limits {
    const char *name;
    uint32_t modes, parameters, locals, level;
};

static const struct limits forms[2] = {
    {"source", 2, TINESAGE_MOST_ARGUMENTS - 1, 64, TINESAGE_MOST_SOURCE_LEVEL},
    {"compiled", 1, TINESAGE_MOST_ARGUMENTS, 246, TINESAGE_MOST_LEVEL},
};

struct array {
    uint32_t label, cells;
};

/* the image, how far it is read, and what the words before said of those to come */
struct listing {
    FILE *out;
    const uint8_t *image;
    uint32_t words;
    bool cut;

    struct tinesage_answer refusal;
    struct reading reading;
    uint32_t next;

    const struct limits *form;
    uint32_t arrays, cells, procedures, variables;
    struct array array[MOST_ARRAYS];
    uint32_t parameters[MOST_PROCEDURES];
    uint8_t type[MOST_VARIABLES];
};

/* ---- lines ---- */

/* the word taken last */
static uint32_t word(const struct listing *l)
{
    return tinesage_word(l->image, l->next - 1);
}

static uint32_t kind(const struct listing *l)
{
    return word(l) >> 28;
}

static uint32_t payload(const struct listing *l)
{
    return word(l) & 0x0FFFFFFF;
}

static const char *plural(uint32_t count)
{
    return count == 1 ? "" : "s";
}

/* the start of the line of the word taken last, up to where its meaning stands */
static void open_line(const struct listing *l, uint32_t depth)
{
    fprintf(l->out, "%5u  %08X  %*s", (unsigned)l->next - 1, (unsigned)word(l), (int)(2 * depth), "");
}

/* the end of a line, with the refusal if this is its place; refusal 1 is of the image as a whole and has none */
static void close_line(const struct listing *l, uint32_t place)
{
    const struct tinesage_answer *r = &l->refusal;
    if (r->status == TINESAGE_REFUSED && r->number > 1 && r->place == place)
        fprintf(l->out, "   <-- refused, %u: %s", (unsigned)r->number, refusal_name(r->number));
    putc('\n', l->out);
}

static bool stop(struct listing *l, uint32_t number, uint32_t place)
{
    l->reading = (struct reading){false, number, place};
    close_line(l, place);
    return false;
}

/* ends the line of a word that was read */
static bool accept(const struct listing *l)
{
    close_line(l, l->next - 1);
    return true;
}

/* ends the line of a word with a level, unless it is too deep */
static bool accept_at(struct listing *l, uint32_t level)
{
    if (level <= l->form->level)
        return accept(l);
    fprintf(l->out, "; reading stops: at level %u, the largest is %u", (unsigned)level, (unsigned)l->form->level);
    return stop(l, 5, l->next - 1);
}

/* for a word of a kind that cannot stand where it does */
static bool reject_kind(struct listing *l, uint32_t depth, const char *expected)
{
    open_line(l, depth);
    fprintf(l->out, "reading stops: %s, expected %s", kind_names[kind(l)], expected);
    return stop(l, 2, l->next - 1);
}

/* for a word of the kind that is expected, with a payload that it cannot have */
static bool reject_payload(struct listing *l, uint32_t depth, const char *fault)
{
    open_line(l, depth);
    fprintf(l->out, "reading stops: %s, %s", kind_names[kind(l)], fault);
    return stop(l, 2, l->next - 1);
}

static const char wrong_payload[] = "wrong payload";

/* takes the next word; where there is none, the line says what it would have been */
static bool take(struct listing *l, uint32_t depth, const char *expected)
{
    if (l->next < l->words) {
        l->next++;
        return true;
    }
    fprintf(l->out, "%5u  (end)     %*sreading stops: ", (unsigned)l->next, (int)(2 * depth), "");
    if (l->cut)
        fprintf(l->out, "no more words are listed");
    else
        fprintf(l->out, "expected %s", expected);
    return stop(l, 3, l->next);
}

/* ---- names ---- */

static void print_variable(const struct listing *l, uint32_t number)
{
    const char *type = number < l->variables ? type_names[l->type[number]] : "not declared";
    fprintf(l->out, "variable %u (%s)", (unsigned)number, type);
}

static void print_array(const struct listing *l, uint32_t number)
{
    fprintf(l->out, "array %u ", (unsigned)number);
    if (number >= l->arrays) {
        fputs("(not declared)", l->out);
        return;
    }
    const struct array *array = &l->array[number];
    fprintf(l->out, "(%s, %u cell%s)", label_names[array->label], (unsigned)array->cells, plural(array->cells));
}

/* ---- expressions ---- */

/* whether an expression word has a payload that its kind can have */
static bool is_expression(const struct listing *l)
{
    switch (kind(l)) {
    case 0x8:
    case 0xE: return payload(l) == 0;
    case 0x9: return payload(l) <= 1;
    case 0xC: return payload(l) < UNARY_OPERATORS;
    case 0xD: return payload(l) < BINARY_OPERATORS;
    default: return true;
    }
}

static void print_expression(const struct listing *l)
{
    switch (kind(l)) {
    case 0x7: fprintf(l->out, "constant %u", (unsigned)payload(l)); break;
    case 0x8: fputs("constant in the next word", l->out); break;
    case 0x9: fputs(payload(l) == 1 ? "true" : "false", l->out); break;
    case 0xA: print_variable(l, payload(l)); break;
    case 0xB: fputs("cell of ", l->out), print_array(l, payload(l)); break;
    case 0xC: fputs(unary_names[payload(l)], l->out); break;
    case 0xD: fputs(binary_names[payload(l)], l->out); break;
    default: fputs("select", l->out);
    }
}

/* the word after one of kind 8; it has no level */
static bool list_raw_constant(struct listing *l, uint32_t depth)
{
    static const char expected[] = "a constant of at least 268435456";
    if (!take(l, depth, expected))
        return false;
    if (kind(l) == 0)
        return reject_kind(l, depth, expected);
    open_line(l, depth);
    fprintf(l->out, "constant %u", (unsigned)word(l));
    return accept(l);
}

/* what stands before the meaning of an operand; most operands need nothing */
static const char *const no_role = "";

/* The depth of a word below a body is one more than its level. */
static bool list_expression(struct listing *l, uint32_t level, const char *role)
{
    if (!take(l, level + 1, "an expression"))
        return false;
    uint32_t of_kind = kind(l);
    if (of_kind < 0x7 || of_kind > 0xE)
        return reject_kind(l, level + 1, "an expression");
    if (!is_expression(l))
        return reject_payload(l, level + 1, wrong_payload);
    open_line(l, level + 1);
    fputs(role, l->out);
    print_expression(l);
    if (!accept_at(l, level))
        return false;
    switch (of_kind) {
    case 0x8: return list_raw_constant(l, level + 2);
    case 0xB: return list_expression(l, level + 1, "index: ");
    case 0xC: return list_expression(l, level + 1, no_role);
    case 0xD: return list_expression(l, level + 1, no_role) && list_expression(l, level + 1, no_role);
    case 0xE:
        return list_expression(l, level + 1, "condition: ") && list_expression(l, level + 1, "if true: ") &&
               list_expression(l, level + 1, "if false: ");
    default: return true;
    }
}

/* ---- statements ---- */

enum statement { ASSIGN, STORE, IF, FOR, RETURN, CALL };

/* the fields of a statement word: which one it is, and the number beside it */
static uint32_t operation(const struct listing *l)
{
    return payload(l) >> 16;
}

static uint32_t operand(const struct listing *l)
{
    return word(l) & 0xFFFF;
}

/* whether a statement word has a payload that it can have */
static bool is_statement(const struct listing *l)
{
    switch (operation(l)) {
    case ASSIGN:
    case STORE:
    case FOR: return true;
    case IF:
    case RETURN: return operand(l) == 0;
    /* a procedure that is complete, so a lower-numbered one */
    case CALL: return operand(l) >> 8 < l->procedures;
    default: return false;
    }
}

static void print_call(const struct listing *l)
{
    fprintf(l->out, "call procedure %u, result in ", (unsigned)operand(l) >> 8);
    print_variable(l, operand(l) & 0xFF);
}

static void print_statement(const struct listing *l)
{
    switch (operation(l)) {
    case ASSIGN: fputs("assign ", l->out), print_variable(l, operand(l)); break;
    case STORE: fputs("store in ", l->out), print_array(l, operand(l)); break;
    case IF: fputs("if", l->out); break;
    case FOR: fputs("for ", l->out), print_variable(l, operand(l)); break;
    case RETURN: fputs("return", l->out); break;
    default: print_call(l);
    }
}

static bool list_arguments(struct listing *l, uint32_t procedure, uint32_t level)
{
    for (uint32_t i = 0; i < l->parameters[procedure]; i++) {
        char role[32];
        snprintf(role, sizeof role, "argument %u: ", (unsigned)i);
        if (!list_expression(l, level, role))
            return false;
    }
    return true;
}

static bool list_block(struct listing *l, uint32_t level, const char *role);

/* the words that belong to a statement, at their level */
static bool list_operands(struct listing *l, uint32_t op, uint32_t q, uint32_t level)
{
    switch (op) {
    case STORE: return list_expression(l, level, "index: ") && list_expression(l, level, "value: ");
    case IF:
        return list_expression(l, level, "condition: ") && list_block(l, level, "then: ") &&
               list_block(l, level, "else: ");
    case FOR:
        return list_expression(l, level, "from: ") && list_expression(l, level, "to: ") &&
               list_block(l, level, "each pass: ");
    case CALL: return list_arguments(l, q >> 8, level);
    default: return list_expression(l, level, "value: ");
    }
}

static bool list_statement(struct listing *l, uint32_t level)
{
    if (!take(l, level + 1, "a statement"))
        return false;
    if (kind(l) != 6)
        return reject_kind(l, level + 1, "a statement");
    if (!is_statement(l))
        return reject_payload(l, level + 1,
                              operation(l) == CALL ? "call of a procedure that is not lower-numbered" : wrong_payload);
    uint32_t op = operation(l), q = operand(l);
    open_line(l, level + 1);
    print_statement(l);
    return accept_at(l, level) && list_operands(l, op, q, level + 1);
}

static bool list_block(struct listing *l, uint32_t level, const char *role)
{
    if (!take(l, level + 1, "a block"))
        return false;
    if (kind(l) != 5)
        return reject_kind(l, level + 1, "a block");
    uint32_t count = payload(l);
    open_line(l, level + 1);
    fprintf(l->out, "%sblock of %u statement%s", role, (unsigned)count, plural(count));
    bool reads = accept_at(l, level);
    /* each statement takes a word, so the image ends this whatever the count */
    for (uint32_t i = 0; reads && i < count; i++)
        reads = list_statement(l, level + 1);
    return reads;
}

/* ---- declarations ---- */

static bool list_type(struct listing *l, const char *what, uint8_t *type)
{
    if (!take(l, 2, "a type"))
        return false;
    if (kind(l) != 4)
        return reject_kind(l, 2, "a type");
    if (payload(l) > 3)
        return reject_payload(l, 2, wrong_payload);
    *type = (uint8_t)payload(l);
    open_line(l, 2);
    fprintf(l->out, "%s: %s", what, type_names[*type]);
    return accept(l);
}

static bool list_variables(struct listing *l, uint32_t parameters, uint32_t locals)
{
    for (l->variables = 0; l->variables < parameters + locals; l->variables++) {
        char what[32];
        snprintf(what, sizeof what, "variable %u, %s", (unsigned)l->variables,
                 l->variables < parameters ? "parameter" : "local");
        if (!list_type(l, what, &l->type[l->variables]))
            return false;
    }
    return true;
}

static bool list_procedure(struct listing *l)
{
    uint8_t result;
    if (!take(l, 1, "a procedure"))
        return false;
    uint32_t mode = payload(l) >> 16, parameters = word(l) >> 8 & 0xFF, locals = word(l) & 0xFF;
    if (kind(l) != 3)
        return reject_kind(l, 1, "a procedure");
    if (mode >= l->form->modes || parameters > l->form->parameters || locals > l->form->locals)
        return reject_payload(l, 1, wrong_payload);
    open_line(l, 1);
    fprintf(l->out, "procedure %u: %s, %u parameter%s, %u local%s", (unsigned)l->procedures,
            mode == 1 ? "guarded" : "open", (unsigned)parameters, plural(parameters), (unsigned)locals, plural(locals));
    accept(l);
    if (!list_type(l, "result", &result) || !list_variables(l, parameters, locals) || !list_block(l, 1, "body: "))
        return false;
    l->parameters[l->procedures++] = parameters;
    return true;
}

static bool list_array(struct listing *l)
{
    if (!take(l, 1, "an array"))
        return false;
    uint32_t label = payload(l) >> 16, cells = word(l) & 0xFFFF;
    if (kind(l) != 2)
        return reject_kind(l, 1, "an array");
    if (label > 1 || cells < 1 || cells > MOST_ARRAY_CELLS)
        return reject_payload(l, 1, wrong_payload);
    if (l->cells + cells > TINESAGE_MOST_CELLS)
        return reject_payload(l, 1, "more than 1024 cells with those before");
    l->array[l->arrays] = (struct array){label, cells};
    l->cells += cells;
    open_line(l, 1);
    fprintf(l->out, "array %u: %s, %u cell%s", (unsigned)l->arrays, label_names[label], (unsigned)cells, plural(cells));
    l->arrays++;
    return accept(l);
}

/* ---- the image ---- */

static bool list_all(struct listing *l)
{
    if (!take(l, 0, "a header"))
        return false;
    uint32_t form = payload(l) >> 16, arrays = word(l) >> 8 & 0xFF, procedures = word(l) & 0xFF;
    if (kind(l) != 1)
        return reject_kind(l, 0, "a header");
    if (form > 1 || arrays > MOST_ARRAYS || procedures < 1 || procedures > MOST_PROCEDURES)
        return reject_payload(l, 0, wrong_payload);
    l->form = &forms[form];
    open_line(l, 0);
    fprintf(l->out, "header: %s form, %u array%s, %u procedure%s", l->form->name, (unsigned)arrays, plural(arrays),
            (unsigned)procedures, plural(procedures));
    bool reads = accept(l);
    while (reads && l->arrays < arrays)
        reads = list_array(l);
    while (reads && l->procedures < procedures)
        reads = list_procedure(l);
    return reads;
}

/* words after the last procedure; the first of them is where reading stops */
static void list_spare_word(struct listing *l)
{
    if (l->next == l->words)
        return;
    l->next++;
    open_line(l, 0);
    fprintf(l->out, "reading stops: %s, expected the end", kind_names[kind(l)]);
    stop(l, 4, l->next - 1);
}

/* words after the one where reading stops */
static void list_unread_words(struct listing *l)
{
    while (l->next < l->words) {
        l->next++;
        open_line(l, 0);
        fprintf(l->out, "not read: %s", kind_names[kind(l)]);
        accept(l);
    }
}

static void list_unread_bytes(const struct listing *l, size_t length)
{
    if (l->cut) {
        fprintf(l->out, "%5u  more words follow, not listed\n", (unsigned)l->words);
        return;
    }
    size_t left = length % 4;
    if (left == 0)
        return;
    fprintf(l->out, "%5u  ", (unsigned)l->words);
    for (size_t i = 0; i < 4; i++) {
        if (i < left)
            fprintf(l->out, "%02X", l->image[4 * (size_t)l->words + i]);
        else
            fputs("  ", l->out);
    }
    fprintf(l->out, "  %u byte%s left over, no whole word\n", (unsigned)left, plural((uint32_t)left));
}

static void print_verdict(const struct listing *l, size_t length)
{
    const struct tinesage_answer *r = &l->refusal;
    if (l->cut)
        fprintf(l->out, "more than %u words: ", (unsigned)l->words);
    else
        fprintf(l->out, "%u word%s: ", (unsigned)(length / 4), plural(l->words));
    if (r->status != TINESAGE_REFUSED)
        fputs("accepted\n", l->out);
    else if (r->number == 1)
        fprintf(l->out, "refused, 1: %s\n", refusal_name(1));
    else
        fprintf(l->out, "refused, %u at word %u: %s\n", (unsigned)r->number, (unsigned)r->place,
                refusal_name(r->number));
}

struct reading list_image(const uint8_t *image, size_t length, FILE *out)
{
    bool cut = length / 4 > TINESAGE_MOST_WORDS;
    struct listing l = {.out = out, .image = image, .cut = cut, .reading = {true, 0, 0}};
    uint8_t answer[TINESAGE_ANSWER];
    l.words = cut ? TINESAGE_MOST_WORDS : (uint32_t)(length / 4);
    tinesage_check(image, length, answer, sizeof answer);
    l.refusal = tinesage_read_answer(answer);
    print_verdict(&l, length);
    if (list_all(&l))
        list_spare_word(&l);
    list_unread_words(&l);
    list_unread_bytes(&l, length);
    return l.reading;
}
