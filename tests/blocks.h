/* Blocks as `second blocks` prints them: a line has 16 cells in hexadecimal, then the number that is due. */
#ifndef BLOCKS_H
#define BLOCKS_H

#include <inttypes.h>
#include <stdbool.h>
#include <stdio.h>

#include "tinesage.h"
#include "tinesage_padding.h"

/* the next block of standard input; false where there is none */
static bool read_block(uint8_t block[TINESAGE_BLOCK], uint32_t *due)
{
    for (size_t i = 0; i < TINESAGE_BLOCK_CELLS; i++) {
        uint32_t cell;
        if (scanf("%" SCNx32, &cell) != 1)
            return false;
        tinesage_put_word(block, i, cell);
    }
    return scanf("%" SCNu32, due) == 1;
}

#endif
