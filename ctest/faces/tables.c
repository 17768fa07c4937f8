/* Refusal 1: wrong tables. */
#include "subjects.h"

static void no_variables(struct bench *b) { b->board.variable_count = 0; set_values_length(b, 0); }
static void type_2(struct bench *b) { b->variables[1].writable = 2; }
static void size_0(struct bench *b) { b->variables[1].size = 0; set_values_length(b, 6); }
static void size_128(struct bench *b) { b->variables[1].size = 128; set_values_length(b, 134); }
static void kind_5(struct bench *b) { b->variables[1].kind = 5; }
static void number_of_3(struct bench *b) { b->variables[2].size = 3; set_values_length(b, 8); }
static void values_short(struct bench *b) { set_values_length(b, BOARD_A_VALUES - 1); }
static void values_long(struct bench *b) { set_values_length(b, BOARD_A_VALUES + 1); }
static void curve_type_2(struct bench *b) { b->curves[0].writable = 2; }
static void block_size_0(struct bench *b) { b->curves[0].block_size = 0; fit_to_curves(b); }
static void block_size_4097(struct bench *b) { b->curves[0].block_size = 4097; fit_to_curves(b); }
static void no_blocks(struct bench *b) { b->curves[0].blocks = 0; fit_to_curves(b); }
static void blocks_short(struct bench *b) { set_blocks_length(b, BOARD_A_BLOCKS - 1); }
static void blocks_long(struct bench *b) { set_blocks_length(b, BOARD_A_BLOCKS + 1); }
static void sums_short(struct bench *b) { set_sums_length(b, BOARD_A_SUMS - 1); }
static void sums_long(struct bench *b) { set_sums_length(b, BOARD_A_SUMS + 1); }
static void no_sums(struct bench *b) { set_sums_length(b, 0); }
static void sums_of_2_curves(struct bench *b) { set_sums_length(b, 2 * BSMP_SUM_SIZE); }
static void sums_without_curves(struct bench *b) { b->board.curve_count = 0; set_blocks_length(b, 0); set_length_count(b, 0); }
static void lengths_without_curves(struct bench *b) { b->board.curve_count = 0; set_blocks_length(b, 0); set_sums_length(b, 0); }
static void input_16(struct bench *b) { b->functions[0].input = 16; }
static void output_16(struct bench *b) { b->functions[0].output = 16; }
static void functions_17(struct bench *b) { b->board.function_count = 17; }
static void groups_6(struct bench *b) { b->state.groups.count = 6; }
static void group_empty(struct bench *b) { b->state.groups.count = 1; }
static void group_undeclared(struct bench *b) { b->state.groups.count = 1; b->state.groups.sets[0] = 8; }

static void curve_of_65537(struct bench *b)
{
    b->curves[0].block_size = 1;
    b->curves[0].blocks = 65537;
    fit_to_curves(b);
}

static void plain_variables(struct bench *b, size_t count, uint8_t size)
{
    for (size_t i = 0; i < count; i++) {
        b->variables[i].size = size;
        b->variables[i].kind = BSMP_PLAIN;
    }
    b->board.variable_count = count;
    set_values_length(b, count * size);
}

static void variables_65(struct bench *b) { plain_variables(b, 65, 1); }
static void variables_of_4128(struct bench *b) { plain_variables(b, 43, 96); }

static void curves_9(struct bench *b)
{
    for (size_t i = 0; i < 9; i++) b->curves[i].block_size = b->curves[i].blocks = 1;
    b->board.curve_count = 9;
    fit_to_curves(b);
}

static void curves_of_69632(struct bench *b)
{
    b->curves[0].block_size = 4096;
    b->curves[0].blocks = 17;
    fit_to_curves(b);
}

/* Each that of a full block. */
static void lend_lengths(struct bench *b, size_t count)
{
    set_length_count(b, count);
    for (size_t i = 0; i < count; i++) b->state.lengths[i] = (uint16_t)b->curves[0].block_size;
}

static void no_lengths(struct bench *b) { lend_lengths(b, 0); }
static void length_too_few(struct bench *b) { lend_lengths(b, BOARD_A_LENGTHS - 1); }
static void length_too_many(struct bench *b) { lend_lengths(b, BOARD_A_LENGTHS + 1); }
static void length_for_each_byte(struct bench *b) { lend_lengths(b, BOARD_A_BLOCKS); }

static const struct wrong {
    const char *name;
    bool of_variables; /* so that the readings see it */
    void (*spoil)(struct bench *bench);
} wrongs[] = {
    {"no variables", true, no_variables},
    {"65 variables", true, variables_65},
    {"a variable of type 2", true, type_2},
    {"a variable of no bytes", true, size_0},
    {"a variable of 128 bytes", true, size_128},
    {"a variable of kind 5", true, kind_5},
    {"a number of 3 bytes", true, number_of_3},
    {"variables of 4,128 bytes", true, variables_of_4128},
    {"a store of values one byte short", false, values_short},
    {"a store of values one byte long", false, values_long},
    {"9 curves", false, curves_9},
    {"a curve of type 2", false, curve_type_2},
    {"a block size of 0", false, block_size_0},
    {"a block size of 4,097", false, block_size_4097},
    {"a curve of no blocks", false, no_blocks},
    {"a curve of 65,537 blocks", false, curve_of_65537},
    {"curves of 69,632 bytes", false, curves_of_69632},
    {"a store of blocks one byte short", false, blocks_short},
    {"a store of blocks one byte long", false, blocks_long},
    {"no lengths", false, no_lengths},
    {"a length too few", false, length_too_few},
    {"a length too many", false, length_too_many},
    {"a length for each byte of the blocks", false, length_for_each_byte},
    {"lengths without curves", false, lengths_without_curves},
    {"sums one byte short", false, sums_short},
    {"sums one byte long", false, sums_long},
    {"no sums", false, no_sums},
    {"sums of two curves for one", false, sums_of_2_curves},
    {"sums without curves", false, sums_without_curves},
    {"17 functions", false, functions_17},
    {"an input of 16 bytes", false, input_16},
    {"an output of 16 bytes", false, output_16},
    {"6 groups", false, groups_6},
    {"an empty group", false, group_empty},
    {"a group of an undeclared variable", false, group_undeclared},
};

static void try_wrong(int way, const struct wrong *wrong)
{
    static const uint8_t bytes[4] = {0};
    struct bench bench;
    start(&bench);
    wrong->spoil(&bench);
    expect_unusable(&bench, way, wrong->name);
    expect_no_fresh(&bench, way, wrong->name);
    struct bsmp_signed_reading reading = bsmp_node_read_signed(&bench.board, 0, bytes, sizeof bytes);
    check_number(wrong->name, reading.refusal, wrong->of_variables ? BSMP_BOARD_UNUSABLE : 0);
    end(&bench);
}

/* Only the library's own functions can be lent a record that is cut off. */
static void try_cut_records(void)
{
    static const uint8_t packet[] = {5, 0, 0, 0, 0xFB};
    static const size_t numbers[][2] = {{2, 2}, {4, 2}, {3, 1}, {3, 3}};
    for (size_t i = 0; i < sizeof numbers / sizeof numbers[0]; i++) {
        struct bench bench;
        start(&bench);
        struct bsmp_state *state = &bench.state;
        struct bsmp_outcome outcome = bsmp_packet(
            bench.variables, 3, &bench.curves[0].writable, numbers[i][0], &bench.functions[0].input, numbers[i][1],
            &state->groups, 5, 0x81, 0, state->values, state->values_length, state->blocks, state->blocks_length, state->lengths,
            state->length_count, state->sums, state->sums_length, packet, sizeof packet, bench.reply, bench.room);
        check_outcome("a record cut off", RAW, &bench, &outcome, packet, "refused 1");
        uint8_t refusal = bsmp_fresh_board(
            bench.variables, 3, &bench.curves[0].writable, numbers[i][0], &bench.functions[0].input, numbers[i][1],
            &state->groups, state->values, state->values_length, state->blocks, state->blocks_length, state->lengths,
            state->length_count, state->sums, state->sums_length);
        check_number("a record cut off", refusal, BSMP_BOARD_UNUSABLE);
        end(&bench);
    }
}

void try_tables(int way)
{
    for (size_t i = 0; i < sizeof wrongs / sizeof wrongs[0]; i++) try_wrong(way, &wrongs[i]);
    if (way == RAW) try_cut_records();
}
