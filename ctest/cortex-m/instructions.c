/* What a packet costs on a Cortex-M, in instructions with the call: on board A; on a board with 64 variables of 4,096 bytes together and 8
 * curves of two blocks each; and on one with as many blocks as there can be. Run with -icount shift=0, the emulator takes a nanosecond for
 * each instruction; the tick counts at 25 MHz. */
#include "board_a.h"

#include <stdio.h>

enum { TIMES = 200, INSTRUCTIONS_IN_A_TICK = 40 };
struct ticks {
    volatile uint32_t control, reload, current;
};
#define TICKS ((struct ticks *)0xE000E010)

static struct bsmp_variable variables[BSMP_MOST_VARIABLES];
static struct bsmp_curve curves[BSMP_MOST_CURVES];
static const struct bsmp_board large = {variables, BSMP_MOST_VARIABLES, curves, BSMP_MOST_CURVES, NULL, 0, 5, 1};
static const struct bsmp_curve of_bytes = {BSMP_WRITABLE, 1, BSMP_MOST_BLOCKS};
static const struct bsmp_board many_blocks = {board_a_variables, 3, &of_bytes, 1, NULL, 0, 5, 1};
static uint8_t values[BSMP_MOST_VALUE_BYTES], blocks[BSMP_MOST_CURVE_BYTES], sums[BSMP_MOST_CURVES * BSMP_SUM_SIZE];
static uint16_t lengths[BSMP_MOST_BLOCKS];
static uint8_t packet[BSMP_MOST_PACKET], reply[BSMP_REPLY_ROOM];

/* Of the large board, the last block of one curve isn't full. */
enum { SHORT_CURVE = 6, SHORT_PLACE = 2 * SHORT_CURVE + 1, SHORT_LENGTH = 1000 };

struct asked {
    const char *name;
    const struct bsmp_board *board;
    uint8_t command, front[3];
    size_t front_length, rest;
    uint8_t answered;
};

static const struct asked all[] = {
    {"read of a variable, board A", &board_a, 0x10, {0}, 1, 0, 0x11},
    {"write of a variable, board A", &board_a, 0x20, {1}, 1, 1, 0xE0},
    {"read of a group of 3, board A", &board_a, 0x12, {0}, 1, 0, 0x13},
    {"version, board A", &board_a, 0x00, {0}, 0, 0, 0x01},
    {"read of a sum, board A", &board_a, 0x0A, {0}, 1, 0, 0x0B},
    {"renewal of the sum of 8 bytes, board A", &board_a, 0x42, {0}, 1, 0, 0xE0},
    {"read of variable 63", &large, 0x10, {63}, 1, 0, 0x11},
    {"write of variable 63", &large, 0x20, {63}, 1, 64, 0xE0},
    {"list of variables", &large, 0x02, {0}, 0, 0, 0x03},
    {"read of a group of 64", &large, 0x12, {0}, 1, 0, 0x13},
    {"write of a group of 64", &large, 0x22, {0}, 1, 4096, 0xE0},
    {"read of a block of 4,096 bytes", &large, 0x40, {7, 0, 1}, 3, 0, 0x41},
    {"write of a block of 4,096 bytes", &large, 0x41, {7, 0, 1}, 3, 4096, 0xE0},
    {"read of a block of 4,096 that has 1,000 bytes", &large, 0x40, {SHORT_CURVE, 0, 1}, 3, 0, 0x41},
    {"write of 1,000 bytes to a block of 4,096", &large, 0x41, {SHORT_CURVE, 0, 1}, 3, SHORT_LENGTH, 0xE0},
    {"read of a sum", &large, 0x0A, {7}, 1, 0, 0x0B},
    {"renewal of the sum of 8,192 bytes", &large, 0x42, {7}, 1, 0, 0xE0},
    {"renewal of the sum of 4,096 and 1,000 bytes", &large, 0x42, {SHORT_CURVE}, 1, 0, 0xE0},
    {"read of a variable, 65,536 blocks", &many_blocks, 0x10, {0}, 1, 0, 0x11},
    {"read of a block, 65,536 blocks", &many_blocks, 0x40, {0, 0xFF, 0xFF}, 3, 0, 0x41},
};

static size_t make_packet(const struct asked *asked)
{
    size_t size = asked->front_length + asked->rest, length = size + 5;
    memset(packet, 0, sizeof packet);
    packet[0] = 5;
    packet[1] = asked->command;
    packet[2] = (uint8_t)(size >> 8);
    packet[3] = (uint8_t)size;
    memcpy(packet + 4, asked->front, asked->front_length);
    packet[length - 1] = bsmp_checksum(packet, length - 1);
    return length;
}

static struct bsmp_state start_state(const struct asked *asked)
{
    struct bsmp_state state = {values, sizeof values, blocks, sizeof blocks, lengths, 2 * BSMP_MOST_CURVES, sums, sizeof sums,
                               {0, {0, 0, 0, 0, 0}}};
    if (asked->board == &board_a) board_a_fresh(&state, values, blocks, lengths, sums);
    if (asked->board == &many_blocks) {
        state.values_length = BOARD_A_VALUES;
        state.length_count = BSMP_MOST_BLOCKS;
        state.sums_length = BSMP_SUM_SIZE;
    }
    bsmp_node_fresh(asked->board, &state);
    if (asked->board == &large) lengths[SHORT_PLACE] = SHORT_LENGTH;
    return state;
}

static bool measure(const struct asked *asked)
{
    struct bsmp_state state = start_state(asked);
    size_t length = make_packet(asked);
    bool good = true;
    TICKS->reload = 0xFFFFFF;
    TICKS->current = 0;
    TICKS->control = 5;
    uint32_t before = TICKS->current;
    for (int i = 0; i < TIMES; i++) {
        struct bsmp_outcome outcome = bsmp_node_packet(asked->board, &state, 0, packet, length, reply, sizeof reply);
        good = good && outcome.kind == BSMP_REPLY && reply[1] == asked->answered;
    }
    uint32_t spent = (before - TICKS->current) & 0xFFFFFF;
    printf("| %s | %lu |%s\n", asked->name, (unsigned long)((uint64_t)spent * INSTRUCTIONS_IN_A_TICK / TIMES), good ? "" : " FAILED");
    return good;
}

int main(void)
{
    bool good = true;
    for (size_t i = 0; i < BSMP_MOST_VARIABLES; i++) variables[i] = (struct bsmp_variable){BSMP_WRITABLE, 64, BSMP_PLAIN};
    for (size_t i = 0; i < BSMP_MOST_CURVES; i++) curves[i] = (struct bsmp_curve){BSMP_WRITABLE, BSMP_MOST_BLOCK_SIZE, 2};
    puts("| Packet | Instructions |\n|---|---:|");
    for (size_t i = 0; i < sizeof all / sizeof all[0]; i++) good = measure(&all[i]) && good;
    return !good;
}
