/* NULL with length 0. */
#include "subjects.h"

static void try_no_curves_or_functions(void)
{
    static const uint8_t packet[] = {5, 0x08, 0, 0, 0xF3};
    uint8_t values[BOARD_A_VALUES] = {0}, *reply = heap(BSMP_REPLY_ROOM);
    struct bsmp_board board = {board_a_variables, 3, NULL, 0, NULL, 0, 5, 0x81};
    struct bsmp_state state = {values, sizeof values, NULL, 0, NULL, 0, NULL, 0, {0, {0, 0, 0, 0, 0}}};
    struct bsmp_outcome outcome = bsmp_node_packet(&board, &state, 0, packet, sizeof packet, reply, BSMP_REPLY_ROOM);
    check_number("no curves, no functions: outcome", outcome.kind, BSMP_REPLY);
    check_text("no curves, no functions", INLINE, text_of(reply, outcome.length).text, "00 09 00 00 F7");
    free(reply);
}

/* A board without curves has neither blocks nor lengths nor sums. */
static void try_no_curves(int way)
{
    static const struct result result = {0, true, false, 0, "AB CD"};
    static const uint8_t byte[] = {0x77};
    struct bench bench;
    start(&bench);
    free(bench.state.blocks);
    free(bench.state.lengths);
    free(bench.state.sums);
    bench.state.blocks = bench.state.sums = NULL;
    bench.state.lengths = NULL;
    bench.state.blocks_length = bench.state.length_count = bench.state.sums_length = 0;
    bench.board.curves = NULL;
    bench.board.curve_count = 0;
    check_number("no curves: a fresh board", fresh_by(way, &bench), 0);
    expect_packet(&bench, way, "05 08 00 00 =", "00 09 00 00 =");
    expect_packet(&bench, way, "05 0A 00 01 00 =", "00 E3 00 00 =");
    expect_packet(&bench, way, "05 40 00 03 00 00 00 =", "00 E3 00 00 =");
    expect_packet(&bench, way, "05 41 00 04 00 00 00 AB =", "00 E3 00 00 =");
    expect_packet(&bench, way, "05 42 00 01 00 =", "00 E3 00 00 =");
    struct bsmp_outcome outcome = result_by(way, &bench, &result);
    check_outcome("no curves: a function's result", way, &bench, &outcome, NULL, "00 51 00 02 AB CD =");
    check_number("no curves: a board store", store_by(way, &bench, 1, byte, sizeof byte), 0);
    check_values("no curves: a board store", way, &bench, "FF FF FF FD 77 34 12");
    end(&bench);
}

static void try_null_buffers(void)
{
    static const struct bsmp_board nothing = {NULL, 0, NULL, 0, NULL, 0, 5, 0x81};
    struct bsmp_state none = {NULL, 0, NULL, 0, NULL, 0, NULL, 0, {0, {0, 0, 0, 0, 0}}};
    struct bench bench;
    start(&bench);
    struct bsmp_outcome outcome = bsmp_node_packet(&bench.board, &bench.state, 0, NULL, 0, bench.reply, bench.room);
    check_number("NULL as a packet", outcome.refusal, BSMP_PACKET_LENGTH);
    outcome = bsmp_node_packet(&bench.board, &bench.state, 0, NULL, 0, NULL, 0);
    check_number("NULL as a reply buffer", outcome.refusal, BSMP_REPLY_BUFFER_SHORT);
    outcome = bsmp_node_packet(&nothing, &none, 0, NULL, 0, NULL, 0);
    check_number("NULL as a board's tables", outcome.refusal, BSMP_BOARD_UNUSABLE);
    check_number("NULL as a fresh board's tables", bsmp_node_fresh(&nothing, &none), BSMP_BOARD_UNUSABLE);
    bench.functions[0].output = 0;
    outcome = bsmp_node_function_gave(&bench.board, &bench.state, 0, true, NULL, 0, bench.reply, bench.room);
    check_outcome("NULL as a function's empty output", INLINE, &bench, &outcome, NULL, "00 51 00 00 AF");
    end(&bench);
}

static void try_null_bytes(void)
{
    struct bench bench;
    start(&bench);
    const struct bsmp_board *board = &bench.board;
    check_number("NULL in a board store", store_by(INLINE, &bench, 0, NULL, 0), BSMP_WRONG_BYTE_COUNT);
    check_number("NULL in a signed reading", bsmp_node_read_signed(board, 0, NULL, 0).refusal, BSMP_WRONG_BYTE_COUNT);
    check_number("NULL in an unsigned reading", bsmp_node_read_unsigned(board, 2, NULL, 0).refusal, BSMP_WRONG_BYTE_COUNT);
    check_number("NULL in a signed writing", bsmp_node_write_signed(board, 0, 0, NULL, 0), BSMP_WRONG_BYTE_COUNT);
    check_number("NULL in an unsigned writing", bsmp_node_write_unsigned(board, 2, 0, NULL, 0), BSMP_WRONG_BYTE_COUNT);
    check_number("NULL as variable records", bsmp_write_signed(NULL, 0, 0, 0, NULL, 0), BSMP_BOARD_UNUSABLE);
    end(&bench);
}

void try_null(void)
{
    try_no_curves_or_functions();
    try_no_curves(RAW);
    try_no_curves(INLINE);
    try_null_buffers();
    try_null_bytes();
}
