/* Board A: the board of the settled examples. */
#ifndef BOARD_A_H
#define BOARD_A_H

#include "bsmp.h"

#include <string.h>

enum { BOARD_A_VALUES = 7, BOARD_A_BLOCKS = 8, BOARD_A_LENGTHS = 2, BOARD_A_SUMS = 1 * BSMP_SUM_SIZE };

static const struct bsmp_variable board_a_variables[] = {
    {BSMP_READ_ONLY, 4, BSMP_SIGNED_BIG},
    {BSMP_WRITABLE, 1, BSMP_PLAIN},
    {BSMP_WRITABLE, 2, BSMP_UNSIGNED_LITTLE},
};

static const struct bsmp_curve board_a_curves[] = {{BSMP_WRITABLE, 4, 2}};

static const struct bsmp_function board_a_functions[] = {{1, 2}};

static const struct bsmp_board board_a = {board_a_variables, 3, board_a_curves, 1, board_a_functions, 1, 5, 0x81};

/* Makes the state over two stores, of BOARD_A_VALUES and BOARD_A_BLOCKS bytes, BOARD_A_LENGTHS lengths and BOARD_A_SUMS bytes of sums, and
 * fills all four. Gives the refusal of bsmp_node_fresh: 0, since board A keeps to the limits. */
static inline uint8_t board_a_fresh(struct bsmp_state *state, uint8_t *values, uint8_t *blocks, uint16_t *lengths, uint8_t *sums)
{
    static const uint8_t start[BOARD_A_VALUES] = {0xFF, 0xFF, 0xFF, 0xFD, 0x5A, 0x34, 0x12};
    struct bsmp_state fresh = {values, BOARD_A_VALUES, blocks, BOARD_A_BLOCKS, lengths, BOARD_A_LENGTHS, sums, BOARD_A_SUMS,
                               {0, {0, 0, 0, 0, 0}}};
    memcpy(values, start, BOARD_A_VALUES);
    memset(blocks, 0, BOARD_A_BLOCKS);
    memset(lengths, 0, BOARD_A_LENGTHS * sizeof *lengths);
    memset(sums, 0, BOARD_A_SUMS);
    *state = fresh;
    return bsmp_node_fresh(&board_a, state);
}

#endif
