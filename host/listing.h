/* The listing of an image: one line a word, with its place and its meaning. docs/REFUSALS.md has the refusals. */
#ifndef LISTING_H
#define LISTING_H

#include <stdbool.h>
#include <stddef.h>
#include <stdint.h>
#include <stdio.h>

/* How far the words could be read as an image: all of them, or up to the place of a fault, refusal 2 to 5. */
struct reading {
    bool whole;
    uint32_t number, place;
};

/*
 * Prints the image, which may be any bytes: first what the checker answers, then each word. The word of a refusal is
 * marked. Words after the one where reading stops are printed without a meaning; words beyond the most that an image
 * can have are left out.
 */
struct reading list_image(const uint8_t *image, size_t length, FILE *out);

#endif
