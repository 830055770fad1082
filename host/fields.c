#include "fields.h"

#include <string.h>

/* the vertical tab is no blank here */
static bool is_blank(char c)
{
    return c == ' ' || c == '\t' || c == '\n' || c == '\f' || c == '\r';
}

bool next_field(struct fields *line, struct field *field)
{
    const char *start = line->next;
    while (start < line->end && is_blank(*start))
        start++;
    const char *stop = start;
    while (stop < line->end && !is_blank(*stop))
        stop++;
    line->next = stop;
    *field = (struct field){start, (size_t)(stop - start)};
    return start < stop;
}

bool field_is(struct field field, const char *name)
{
    return field.length == strlen(name) && memcmp(field.start, name, field.length) == 0;
}

bool number_in(struct field field, uint64_t *number)
{
    uint64_t value = 0;
    for (size_t i = 0; i < field.length; i++) {
        char c = field.start[i];
        if (c < '0' || c > '9')
            return false;
        uint64_t digit = (uint64_t)(c - '0');
        if (value > (UINT64_MAX - digit) / 10)
            return false;
        value = value * 10 + digit;
    }
    *number = value;
    return field.length > 0;
}

bool u32_in(struct field field, uint32_t *number)
{
    uint64_t value;
    if (!number_in(field, &value) || value > UINT32_MAX)
        return false;
    *number = (uint32_t)value;
    return true;
}

bool next_number(struct fields *line, uint64_t *number)
{
    struct field field;
    return next_field(line, &field) && number_in(field, number);
}

bool next_u32(struct fields *line, uint32_t *number)
{
    struct field field;
    return next_field(line, &field) && u32_in(field, number);
}

static bool is_hexadecimal(char c)
{
    return (c >= '0' && c <= '9') || (c >= 'A' && c <= 'F');
}

bool all_hexadecimal(struct field field)
{
    for (size_t i = 0; i < field.length; i++) {
        if (!is_hexadecimal(field.start[i]))
            return false;
    }
    return true;
}

static uint8_t digit_of(char c)
{
    return (uint8_t)(c <= '9' ? c - '0' : c - 'A' + 10);
}

uint8_t byte_of(const char digits[2])
{
    return (uint8_t)(digit_of(digits[0]) << 4 | digit_of(digits[1]));
}
