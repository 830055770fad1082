/* The fields of a request line: runs of bytes between blanks. A line may hold any byte, also 0. */
#ifndef FIELDS_H
#define FIELDS_H

#include <stdbool.h>
#include <stddef.h>
#include <stdint.h>

struct field {
    const char *start;
    size_t length;
};

/* what is left of a line */
struct fields {
    const char *next;
    const char *end;
};

/* takes the next field; false where there is none */
bool next_field(struct fields *line, struct field *field);

bool field_is(struct field field, const char *name);

/* decimal digits only: no sign, and nothing past 64 bits, or 32 bits */
bool number_in(struct field field, uint64_t *number);
bool u32_in(struct field field, uint32_t *number);

/* takes a field that is a number; false where the next field is none */
bool next_number(struct fields *line, uint64_t *number);
bool next_u32(struct fields *line, uint32_t *number);

/* whether all characters are hexadecimal digits; small letters are none */
bool all_hexadecimal(struct field field);

/* the byte of two hexadecimal digits */
uint8_t byte_of(const char digits[2]);

#endif
