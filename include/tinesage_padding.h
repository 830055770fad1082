/*
 * Tinesage padding: how much of a secret block stays once its padding is gone, after RFC 5652,
 * section 6.3. The check runs on the library's machine, as an image that the library's compiler
 * has made, and what an onlooker sees is the same for every block: docs/PADDING.md.
 *
 * A block is 16 cells of four bytes, most significant first; each cell holds an octet of the
 * padded input. The padding is n cells that all hold n, n from 1 to 16.
 *
 * The function stands in an archive of its own, beside that of tinesage.h or without it. The rules
 * of tinesage.h for every function hold here too.
 */
#ifndef TINESAGE_PADDING_H
#define TINESAGE_PADDING_H

#include <stddef.h>
#include <stdint.h>

#ifdef __cplusplus
extern "C" {
#endif

/* a block, in cells and in bytes */
#define TINESAGE_BLOCK_CELLS 16
#define TINESAGE_BLOCK 64

/* the answer to a block that is not padded */
#define TINESAGE_NOT_PADDED 255

/*
 * Answers how many cells of a block stay: 16 minus n where the last cell is n, from 1 to 16, and
 * the last n cells all hold n, else TINESAGE_NOT_PADDED. A slice of fewer or more cells than a
 * block has is not padded.
 *
 * The answer is secret, as the block is: a host that branches on it shows it.
 * Written: nothing. The block is only read, so it may lie in memory that cannot be written.
 */
uint32_t tinesage_unpadded_length(const uint8_t *block, size_t block_len);

/*
 * For a host that runs the routine on a machine of its own: examples/padding.image, compiled by
 * tinesage_compile into so many words and loaded. The block is poked into this array, and this
 * procedure called without an argument, with this budget and room for so many trace words. Every
 * call is done, takes exactly so many steps, fills the trace with the same words and leaves the
 * cells; its result is the number that tinesage_unpadded_length answers.
 */
#define TINESAGE_PADDING_WORDS 60
#define TINESAGE_PADDING_ARRAY 0
#define TINESAGE_PADDING_PROCEDURE 0
#define TINESAGE_PADDING_BUDGET 71
#define TINESAGE_PADDING_TRACE_WORDS 40

#ifdef __cplusplus
}
#endif

#endif
