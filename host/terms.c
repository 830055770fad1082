#include "terms.h"

const char *const kind_names[16] = {
    "word of no kind", "header",          "array",          "procedure",        "type",     "block",
    "statement",       "small constant",  "large constant", "boolean constant", "variable", "cell",
    "unary operator",  "binary operator", "select",         "word of no kind",
};

const char *const unary_names[UNARY_OPERATORS] = {"not", "complement", "boolean as word"};

const char *const binary_names[BINARY_OPERATORS] = {
    "add",         "subtract", "multiply",  "bitwise and", "bitwise or", "bitwise xor", "shift left", "shift right",
    "rotate left", "quotient", "remainder", "equal",       "less",       "boolean and", "boolean or",
};

const char *const type_names[4] = {"public word", "secret word", "public boolean", "secret boolean"};

const char *const label_names[2] = {"public", "secret"};

const char *refusal_name(uint32_t number)
{
    static const char *const names[] = {
        "unknown",
        "empty, too long or not whole words",
        "wrong kind or payload",
        "ends early",
        "spare word",
        "too deep",
        "no such variable or array",
        "wrong sort",
        "breaks the rule of loop variables",
        "a secret value or context reaches something public",
        "secret where it has to be public",
        "not bounded by its form, in a secret context",
        "open procedure called in a secret context",
        "branch on a secret in compiled form",
    };
    return names[number < sizeof names / sizeof names[0] ? number : 0];
}
