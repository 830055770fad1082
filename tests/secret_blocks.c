/*
 * The padding check under valgrind's memcheck, over blocks that are marked as undefined: memcheck reports every branch
 * and every address that depends on one. What is answered is secret too, so it must be undefined.
 *
 *   valgrind target/secret-blocks <BLOCKS
 *   valgrind target/secret-blocks leak <BLOCKS     a branch on the answer, which has to be reported
 *
 * BLOCKS are those of `second blocks`. The last line has the counts; the exit status is 0 where nothing was reported.
 */
#include <stdbool.h>
#include <stdio.h>
#include <stdlib.h>
#include <valgrind/memcheck.h>

#include "blocks.h"
#include "tinesage_padding.h"

static volatile unsigned leaked;

static __attribute__((noinline)) void leak_by_branch(uint32_t answer)
{
    if (answer == TINESAGE_NOT_PADDED)
        leaked++;
}

int main(int count, char **arguments)
{
    uint8_t block[TINESAGE_BLOCK];
    uint32_t number;
    unsigned blocks = 0, reported = 0, defined = 0, wrong = 0;
    bool leak = count == 2 && arguments[1][0] == 'l';
    for (; read_block(block, &number); blocks++) {
        unsigned before = VALGRIND_COUNT_ERRORS;
        VALGRIND_MAKE_MEM_UNDEFINED(block, sizeof block);
        uint32_t answer = tinesage_unpadded_length(block, sizeof block);
        if (leak)
            leak_by_branch(answer);
        reported += VALGRIND_COUNT_ERRORS - before;
        uint32_t bits = 0;
        if (VALGRIND_GET_VBITS(&answer, &bits, sizeof answer) == 1 && bits == 0)
            defined++;
        VALGRIND_MAKE_MEM_DEFINED(&answer, sizeof answer);
        if (answer != number)
            wrong++;
    }
    printf("%u blocks, %u answers defined, %u wrong, %u reports\n", blocks, defined, wrong, reported);
    return reported == 0 && defined == 0 && wrong == 0 ? EXIT_SUCCESS : EXIT_FAILURE;
}
