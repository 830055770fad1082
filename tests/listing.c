/*
 * Lists the images of request lines, and each of them again with damage at random, and compares every listing with the
 * image and with what the checker answers: one line for each word, the refusal marked at its place, reading stopped
 * exactly where the checker's does. Built with the address and undefined behaviour sanitizers, which end it at the
 * first byte read outside an image.
 *
 *   target/listing SEED <REQUESTS
 *
 * Prints 'N passed, M failed' as its last line, counted in images.
 */
#include <stdio.h>
#include <stdlib.h>
#include <string.h>

#include "images.h"
#include "listing.h"
#include "random.h"
#include "tinesage.h"

/* how often an image is damaged; one with many words less often */
#define DAMAGES 8
#define MANY_WORDS 1000

static unsigned passed, failed, refused[14];

/* a block of exactly so many bytes, so that the sanitizer sees each byte read beyond them */
struct bytes {
    uint8_t *at;
    size_t length;
};

static struct bytes allocate(size_t length)
{
    struct bytes bytes = {malloc(length > 0 ? length : 1), length};
    if (bytes.at == NULL) {
        fprintf(stderr, "listing: out of memory\n");
        exit(EXIT_FAILURE);
    }
    return bytes;
}

/* ---- what a listing has to say ---- */

struct listed {
    struct bytes image;
    struct tinesage_answer refusal;
    struct reading reading;
};

/* words that are listed, of those that there are */
static size_t listed_words(const struct listed *l)
{
    size_t words = l->image.length / 4;
    return words < TINESAGE_MOST_WORDS ? words : TINESAGE_MOST_WORDS;
}

/* Reading stops with 2 to 5 where the checker does, and not at all where it reads the whole image. */
static bool stops_as_checker(const struct listed *l)
{
    uint32_t number = l->refusal.number;
    if (number == 1)
        return true;
    if (number < 2 || number > 5)
        return l->reading.whole;
    return !l->reading.whole && l->reading.number == number && l->reading.place == l->refusal.place;
}

/* whether a line is marked with the refusal, where the image is refused with 2 or more and this is its place */
static bool marked_rightly(const struct listed *l, const char *line, size_t place)
{
    char mark[32];
    snprintf(mark, sizeof mark, "<-- refused, %u: ", (unsigned)l->refusal.number);
    bool here = l->refusal.number > 1 && l->refusal.place == place;
    return here == (strstr(line, here ? mark : "<-- ") != NULL);
}

/* the line of a word starts with place and word; one more is there where the image ends early */
static bool line_agrees(const struct listed *l, const char *line, size_t place)
{
    char start[32];
    if (place < listed_words(l))
        snprintf(start, sizeof start, "%5zu  %08X  ", place, (unsigned)tinesage_word(l->image.at, place));
    else
        snprintf(start, sizeof start, "%5zu  (end)     ", place);
    return strncmp(line, start, strlen(start)) == 0 && marked_rightly(l, line, place);
}

/* what follows the lines of the words: that bytes are left over, that words were left out, or nothing */
static bool rest_agrees(const struct listed *l, const char *rest)
{
    const char *said = "";
    if (l->image.length / 4 > TINESAGE_MOST_WORDS)
        said = "more words follow, not listed\n";
    else if (l->image.length % 4 != 0)
        said = "left over, no whole word\n";
    const char *found = strstr(rest, said);
    return found != NULL && found[strlen(said)] == '\0';
}

static bool verdict_agrees(const struct listed *l, const char *line)
{
    return strstr(line, l->refusal.status == TINESAGE_REFUSED ? ": refused, " : ": accepted") != NULL;
}

/* takes a line off the text, as a string; null where there is none */
static char *next_line(char **text)
{
    char *line = *text, *end = strchr(line, '\n');
    if (end == NULL)
        return NULL;
    *end = '\0';
    *text = end + 1;
    return line;
}

static bool text_agrees(const struct listed *l, char *text)
{
    char *line = next_line(&text);
    if (line == NULL || !verdict_agrees(l, line))
        return false;
    size_t lines = listed_words(l) + (!l->reading.whole && l->reading.number == 3 ? 1 : 0);
    for (size_t i = 0; i < lines; i++) {
        line = next_line(&text);
        if (line == NULL || !line_agrees(l, line, i))
            return false;
    }
    return rest_agrees(l, text);
}

/* ---- images ---- */

static void print_bytes(struct bytes image)
{
    for (size_t i = 0; i < image.length; i++)
        printf("%02X", image.at[i]);
    puts("");
}

static void examine(struct bytes image)
{
    struct listed l = {.image = image};
    uint8_t answer[TINESAGE_ANSWER];
    char *text;
    size_t size;
    FILE *out = open_memstream(&text, &size);
    if (out == NULL)
        exit(EXIT_FAILURE);
    tinesage_check(image.at, image.length, answer, sizeof answer);
    l.refusal = tinesage_read_answer(answer);
    l.reading = list_image(image.at, image.length, out);
    fclose(out);
    refused[l.refusal.number]++;
    if (stops_as_checker(&l) && text_agrees(&l, text)) {
        passed++;
    } else if (failed++ < 3) {
        printf("FAILED, refused with %u at %u: ", (unsigned)l.refusal.number, (unsigned)l.refusal.place);
        print_bytes(image);
    }
    free(text);
}

/* A copy with a byte or word changed, cut short, or with some bytes more at its end. */
static struct bytes damaged(struct bytes image)
{
    size_t length = image.length;
    uint32_t how = below(8);
    if (how == 0)
        length = below((uint32_t)length + 1);
    if (how == 1)
        length += 1 + below(9);
    struct bytes copy = allocate(length);
    memcpy(copy.at, image.at, length < image.length ? length : image.length);
    for (size_t i = image.length; i < length; i++)
        copy.at[i] = (uint8_t)below(256);
    if (how < 2 || length < 4)
        return copy;
    for (uint32_t changes = 1 + below(3); changes > 0; changes--) {
        size_t at = below(how < 4 ? (length < 16 ? 4 : 16) : (uint32_t)length);
        copy.at[at] = (uint8_t)(how % 2 == 0 ? below(256) : copy.at[at] ^ 1u << below(8));
    }
    return copy;
}

static void examine_with_damage(struct bytes image)
{
    examine(image);
    int times = image.length > 4 * MANY_WORDS ? 1 : DAMAGES;
    for (int i = 0; i < times; i++) {
        struct bytes copy = damaged(image);
        examine(copy);
        free(copy.at);
    }
}

static void take_line(const char *text, size_t length)
{
    struct bytes most = allocate(length);
    if (image_of_line(text, length, most.at, most.length, &most.length)) {
        struct bytes image = allocate(most.length);
        memcpy(image.at, most.at, image.length);
        examine_with_damage(image);
        free(image.at);
    }
    free(most.at);
}

int main(int count, char **arguments)
{
    if (count != 2) {
        fprintf(stderr, "usage: listing SEED <REQUESTS\n");
        return 2;
    }
    random_state = strtoull(arguments[1], NULL, 10);
    char *text = NULL;
    size_t room = 0;
    ssize_t length;
    while ((length = getline(&text, &room, stdin)) > 0)
        take_line(text, (size_t)length);
    free(text);
    printf("accepted %u", refused[0]);
    for (int number = 1; number <= 13; number++)
        printf(", refused with %d %u", number, refused[number]);
    puts("");
    printf("%u passed, %u failed\n", passed, failed);
    return failed == 0 ? EXIT_SUCCESS : EXIT_FAILURE;
}
