/*
 * Prints an image, one line a word with its place and its meaning, from a file or from standard input. Images that are
 * refused are printed as far as they can be read; the word of the refusal is marked.
 *
 *   list [--hex] [FILE]
 *
 * With --hex the input is text: the image's bytes as hexadecimal digits, with blanks and line ends anywhere between two
 * bytes, as ./print_image prints them. The exit status is 0 where the image was printed, refused or not.
 */
#include <ctype.h>
#include <stdio.h>
#include <stdlib.h>
#include <string.h>

#include "listing.h"
#include "tinesage.h"

/* One word more than an image can have: a longer input is refused as this one is. */
static uint8_t image[4 * (TINESAGE_MOST_WORDS + 1)];
static size_t length;

static int fail(const char *name, const char *what)
{
    fprintf(stderr, "list: %s: %s\n", name, what);
    return EXIT_FAILURE;
}

/* the next character that is no blank */
static int next_digit(FILE *in)
{
    int c;
    do
        c = getc(in);
    while (c != EOF && isspace(c));
    return c;
}

static int value_of(int digit)
{
    if (!isxdigit(digit))
        return -1;
    return isdigit(digit) ? digit - '0' : toupper(digit) - 'A' + 10;
}

/* false where the text is not whole bytes in hexadecimal */
static bool read_hexadecimal(FILE *in)
{
    int digit;
    while (length < sizeof image && (digit = next_digit(in)) != EOF) {
        int high = value_of(digit), low = value_of(getc(in));
        if (high < 0 || low < 0)
            return false;
        image[length++] = (uint8_t)(high << 4 | low);
    }
    return true;
}

static int list(FILE *in, const char *name, bool hexadecimal)
{
    if (!hexadecimal)
        length = fread(image, 1, sizeof image, in);
    else if (!read_hexadecimal(in))
        return fail(name, "not whole bytes in hexadecimal");
    if (ferror(in))
        return fail(name, "cannot be read");
    list_image(image, length, stdout);
    if (fflush(stdout) != 0 || ferror(stdout))
        return fail("standard output", "cannot be written");
    return EXIT_SUCCESS;
}

int main(int count, char **arguments)
{
    bool hexadecimal = count > 1 && strcmp(arguments[1], "--hex") == 0;
    int files = count - (hexadecimal ? 2 : 1);
    const char *name = arguments[count - 1];
    if (files > 1 || (files == 1 && name[0] == '-')) {
        fprintf(stderr, "usage: list [--hex] [FILE]\n");
        return 2;
    }
    if (files < 1)
        return list(stdin, "standard input", hexadecimal);
    FILE *in = fopen(name, "rb");
    if (in == NULL)
        return fail(name, "cannot be opened");
    int status = list(in, name, hexadecimal);
    fclose(in);
    return status;
}
