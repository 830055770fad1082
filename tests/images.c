#include "images.h"

#include "fields.h"

/* takes the fields before the image */
static bool names_image(struct fields *line)
{
    static const char *const names[] = {"check", "checkbytes", "load", "loadbytes"};
    struct field name;
    uint64_t capacity;
    if (!next_field(line, &name))
        return false;
    for (size_t i = 0; i < sizeof names / sizeof names[0]; i++)
        if (field_is(name, names[i]))
            return true;
    return (field_is(name, "compile") || field_is(name, "compilebytes")) && next_number(line, &capacity);
}

bool image_of_line(const char *text, size_t text_length, uint8_t *image, size_t room, size_t *length)
{
    struct fields line = {text, text + text_length};
    struct field field;
    *length = 0;
    if (!names_image(&line))
        return false;
    while (next_field(&line, &field)) {
        if (field.length % 2 != 0 || !all_hexadecimal(field) || field.length / 2 > room - *length)
            return false;
        for (size_t i = 0; i < field.length; i += 2)
            image[(*length)++] = byte_of(field.start + i);
    }
    return true;
}
