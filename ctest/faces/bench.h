/* A bench for the C face: board A with all that it lends, calls by either way, and what came of them as text.
 *
 * Bytes are written in hex; "=" stands for the checksum of the bytes before it. What a call lends stands in heap blocks of
 * exactly its length, so that a memory checker sees a byte too far. */
#ifndef BENCH_H
#define BENCH_H

#include "board_a.h"

#include <stdio.h>
#include <stdlib.h>

/* By the library's functions, or by the inline ones. */
enum { RAW, INLINE, WAYS };

/* What stands in a buffer until it is written. */
enum { UNTOUCHED = 0xAA };

/* ---- Reporting ---- */

extern unsigned checks, failed;

static inline bool passes(bool good)
{
    checks++;
    if (!good) failed++;
    return good;
}

static inline void check(bool good, const char *name, const char *wrong)
{
    if (!passes(good)) printf("FAILED: %s: %s\n", name, wrong);
}

/* Formats are those that newlib has too, which has no %zu. */
static inline void check_number(const char *name, unsigned long long said, unsigned long long expected)
{
    if (!passes(said == expected)) printf("FAILED: %s: %llu and not %llu\n", name, said, expected);
}

static inline void check_text(const char *name, int way, const char *said, const char *expected)
{
    if (passes(strcmp(said, expected) == 0)) return;
    printf("FAILED: %s (%s): %s and not %s\n", name, way == RAW ? "raw" : "inline", said, expected);
}

/* ---- Bytes and text ---- */

static inline uint8_t *heap(size_t length)
{
    uint8_t *block = (uint8_t *)malloc(length);
    if (!block && length > 0) {
        fputs("out of memory\n", stderr);
        exit(2);
    }
    if (length > 0) memset(block, UNTOUCHED, length);
    return block;
}

static inline uint16_t *heap_of_lengths(size_t count)
{
    return (uint16_t *)(void *)heap(count * sizeof(uint16_t));
}

static inline size_t bytes_of(const char *text, uint8_t *bytes)
{
    size_t length = 0;
    uint8_t sum = 0;
    while (*text) {
        char *end = NULL;
        bytes[length] = *text == '=' ? (uint8_t)(0 - sum) : (uint8_t)strtoul(text, &end, 16);
        text = *text == '=' ? text + 1 : end;
        while (*text == ' ') text++;
        sum = (uint8_t)(sum + bytes[length]);
        length++;
    }
    return length;
}

struct text {
    char text[128];
};

/* The first 32 bytes, which is more than any expected text has. */
static inline struct text text_of(const uint8_t *bytes, size_t length)
{
    struct text text;
    if (length > 32) length = 32;
    text.text[0] = 0;
    for (size_t i = 0; i < length; i++) snprintf(text.text + 3 * i, 4, "%02X ", bytes[i]);
    if (length > 0) text.text[3 * length - 1] = 0;
    return text;
}

/* The same text with its checksum worked out. */
static inline struct text full_text(const char *given)
{
    struct text text;
    uint8_t bytes[32];
    if (strchr(given, '=')) return text_of(bytes, bytes_of(given, bytes));
    snprintf(text.text, sizeof text.text, "%s", given);
    return text;
}

/* ---- The bench ---- */

struct bench {
    struct bsmp_variable variables[BSMP_MOST_VARIABLES + 1];
    struct bsmp_curve curves[BSMP_MOST_CURVES + 1];
    struct bsmp_function functions[BSMP_MOST_FUNCTIONS + 1];
    struct bsmp_board board;
    struct bsmp_state state;
    uint64_t busy;
    uint8_t *reply;
    size_t room;
};

static inline void set_values_length(struct bench *bench, size_t length)
{
    free(bench->state.values);
    bench->state.values = heap(length);
    bench->state.values_length = length;
}

static inline void set_blocks_length(struct bench *bench, size_t length)
{
    free(bench->state.blocks);
    bench->state.blocks = heap(length);
    bench->state.blocks_length = length;
}

static inline void set_length_count(struct bench *bench, size_t count)
{
    free(bench->state.lengths);
    bench->state.lengths = heap_of_lengths(count);
    bench->state.length_count = count;
}

static inline void set_sums_length(struct bench *bench, size_t length)
{
    free(bench->state.sums);
    bench->state.sums = heap(length);
    bench->state.sums_length = length;
}

/* What the curve records ask for, with full blocks. */
static inline void fit_to_curves(struct bench *bench)
{
    size_t bytes = 0, count = 0, place = 0;
    for (size_t i = 0; i < bench->board.curve_count; i++) {
        bytes += (size_t)bench->curves[i].block_size * bench->curves[i].blocks;
        count += bench->curves[i].blocks;
    }
    set_blocks_length(bench, bytes);
    set_length_count(bench, count);
    set_sums_length(bench, BSMP_SUM_SIZE * bench->board.curve_count);
    for (size_t i = 0; i < bench->board.curve_count; i++)
        for (size_t k = 0; k < bench->curves[i].blocks; k++) bench->state.lengths[place++] = (uint16_t)bench->curves[i].block_size;
}

static inline void set_room(struct bench *bench, size_t room)
{
    free(bench->reply);
    bench->reply = heap(room);
    bench->room = room;
}

/* Board A, in tables that have place for wrong ones. */
static inline void start(struct bench *bench)
{
    memset(bench, 0, sizeof *bench);
    memcpy(bench->variables, board_a_variables, sizeof board_a_variables);
    memcpy(bench->curves, board_a_curves, sizeof board_a_curves);
    memcpy(bench->functions, board_a_functions, sizeof board_a_functions);
    bench->board = board_a;
    bench->board.variables = bench->variables;
    bench->board.curves = bench->curves;
    bench->board.functions = bench->functions;
    check_number("board A", board_a_fresh(&bench->state, heap(BOARD_A_VALUES), heap(BOARD_A_BLOCKS),
                                          heap_of_lengths(BOARD_A_LENGTHS), heap(BOARD_A_SUMS)), 0);
    set_room(bench, BSMP_REPLY_ROOM);
}

static inline void end(struct bench *bench)
{
    free(bench->state.values);
    free(bench->state.blocks);
    free(bench->state.lengths);
    free(bench->state.sums);
    free(bench->reply);
}

static inline uint64_t mixed(uint64_t digest, const void *bytes, size_t length)
{
    for (size_t i = 0; i < length; i++) digest = (digest ^ ((const uint8_t *)bytes)[i]) * UINT64_C(1099511628211);
    return digest;
}

/* Of the stores and the group table, then of the lengths and of the sums too, so that "nothing changed" is one comparison. */
static inline uint64_t digest_of_stores(const struct bench *bench)
{
    uint64_t digest = UINT64_C(14695981039346656037);
    digest = mixed(digest, bench->state.values, bench->state.values_length);
    digest = mixed(digest, bench->state.blocks, bench->state.blocks_length);
    return mixed(digest, &bench->state.groups, sizeof bench->state.groups);
}

static inline uint64_t digest_but_sums(const struct bench *bench)
{
    return mixed(digest_of_stores(bench), bench->state.lengths, bench->state.length_count * sizeof *bench->state.lengths);
}

static inline uint64_t digest(const struct bench *bench)
{
    return mixed(digest_but_sums(bench), bench->state.sums, bench->state.sums_length);
}

/* ---- Calls, by either way ---- */

static inline struct bsmp_outcome packet_by(int way, struct bench *bench, const uint8_t *packet, size_t length)
{
    const struct bsmp_board *board = &bench->board;
    struct bsmp_state *state = &bench->state;
    if (way == INLINE) return bsmp_node_packet(board, state, bench->busy, packet, length, bench->reply, bench->room);
    return bsmp_packet(bench->variables, board->variable_count, &bench->curves[0].writable, 3 * board->curve_count,
                       &bench->functions[0].input, 2 * board->function_count, &state->groups, board->own,
                       board->multicast, bench->busy, state->values, state->values_length, state->blocks,
                       state->blocks_length, state->lengths, state->length_count, state->sums, state->sums_length,
                       packet, length, bench->reply, bench->room);
}

struct result {
    size_t function;
    bool due;
    bool failed;
    uint8_t error;
    const char *output;
};

static inline struct bsmp_outcome result_by(int way, struct bench *bench, const struct result *result)
{
    const struct bsmp_board *board = &bench->board;
    const struct bsmp_state *state = &bench->state;
    uint8_t output[32];
    size_t length = bytes_of(result->output, output);
    if (way == INLINE && result->failed)
        return bsmp_node_function_failed(board, state, result->function, result->due, result->error, bench->reply, bench->room);
    if (way == INLINE)
        return bsmp_node_function_gave(board, state, result->function, result->due, output, length, bench->reply, bench->room);
    return bsmp_function_result(bench->variables, board->variable_count, &bench->curves[0].writable,
                                3 * board->curve_count, &bench->functions[0].input, 2 * board->function_count,
                                &state->groups, state->values, state->values_length, state->blocks,
                                state->blocks_length, state->lengths, state->length_count, state->sums,
                                state->sums_length, result->function, result->due, result->failed, result->error,
                                output, length, bench->reply, bench->room);
}

static inline uint8_t store_by(int way, struct bench *bench, size_t variable, const uint8_t *bytes, size_t count)
{
    const struct bsmp_board *board = &bench->board;
    struct bsmp_state *state = &bench->state;
    if (way == INLINE) return bsmp_node_store(board, state, variable, bytes, count);
    return bsmp_board_store(bench->variables, board->variable_count, &bench->curves[0].writable, 3 * board->curve_count,
                            &bench->functions[0].input, 2 * board->function_count, &state->groups, state->values,
                            state->values_length, state->blocks, state->blocks_length, state->lengths,
                            state->length_count, state->sums, state->sums_length, variable, bytes, count);
}

static inline uint8_t fresh_by(int way, struct bench *bench)
{
    const struct bsmp_board *board = &bench->board;
    struct bsmp_state *state = &bench->state;
    if (way == INLINE) return bsmp_node_fresh(board, state);
    return bsmp_fresh_board(bench->variables, board->variable_count, &bench->curves[0].writable, 3 * board->curve_count,
                            &bench->functions[0].input, 2 * board->function_count, &state->groups, state->values,
                            state->values_length, state->blocks, state->blocks_length, state->lengths,
                            state->length_count, state->sums, state->sums_length);
}

/* The MD5 of what a curve holds: of each of its blocks as many bytes as its length says. */
static inline struct bsmp_sum sum_of(const struct bench *bench, size_t curve)
{
    const uint8_t *block = bench->state.blocks;
    const uint16_t *lengths = bench->state.lengths;
    for (size_t i = 0; i < curve; i++) {
        block += (size_t)bench->curves[i].block_size * bench->curves[i].blocks;
        lengths += bench->curves[i].blocks;
    }
    size_t size = bench->curves[curve].block_size, count = bench->curves[curve].blocks, together = 0;
    uint8_t *held = heap(size * count);
    for (size_t i = 0; i < count; i++, block += size) {
        memcpy(held + together, block, lengths[i]);
        together += lengths[i];
    }
    struct bsmp_sum sum = bsmp_md5(held, together);
    free(held);
    return sum;
}

/* ---- What came of them: a reply's bytes, "silence", "run 0 with 07, due", "refused 5" ---- */

static inline struct text said(const struct bench *bench, const struct bsmp_outcome *outcome, const uint8_t *packet)
{
    struct text text, input;
    switch (outcome->kind) {
    case BSMP_REPLY: return text_of(bench->reply, outcome->length);
    case BSMP_SILENCE: return full_text("silence");
    case BSMP_RUN:
        input = text_of(packet + outcome->input, outcome->length);
        snprintf(text.text, sizeof text.text, "run %lu with %.50s%s", (unsigned long)outcome->function, input.text,
                 outcome->due ? ", due" : "");
        return text;
    case BSMP_REFUSED: snprintf(text.text, sizeof text.text, "refused %u", outcome->refusal); return text;
    default: return full_text("an outcome of no known kind");
    }
}

/* The outcome is the expected one, what its kind has no use for is 0, and of the reply buffer only the reply was written. */
static inline void check_outcome(const char *name, int way, const struct bench *bench, const struct bsmp_outcome *outcome,
                          const uint8_t *packet, const char *expected)
{
    bool reply = outcome->kind == BSMP_REPLY, run = outcome->kind == BSMP_RUN;
    size_t written = bench->room;
    check_text(name, way, said(bench, outcome, packet).text, full_text(expected).text);
    check(outcome->kind == BSMP_REFUSED || outcome->refusal == 0, name, "a refusal where none is");
    check(run || (!outcome->due && outcome->function == 0 && outcome->input == 0), name, "a function where none is to be run");
    check(reply || run || outcome->length == 0, name, "a length where there are no bytes");
    while (written > 0 && bench->reply[written - 1] == UNTOUCHED) written--;
    check(written <= (reply ? outcome->length : 0), name, "the reply buffer was written beyond the reply");
}

static inline void check_values(const char *name, int way, const struct bench *bench, const char *expected)
{
    struct text text = text_of(bench->state.values, bench->state.values_length);
    check_text(name, way, text.text, expected ? expected : "FF FF FF FD 5A 34 12");
}

static inline bool is_wire_error(const struct bench *bench, const struct bsmp_outcome *outcome)
{
    return outcome->kind == BSMP_REPLY && bench->reply[1] > BSMP_WIRE_OK;
}

/* Sends a packet; refusals, runs and wire errors must leave stores, lengths, sums and group table as they were. */
static inline void expect_packet(struct bench *bench, int way, const char *packet_text, const char *expected)
{
    uint8_t bytes[32];
    size_t length = bytes_of(packet_text, bytes);
    uint8_t *packet = heap(length);
    memcpy(packet, bytes, length);
    memset(bench->reply, UNTOUCHED, bench->room);
    uint64_t before = digest(bench);
    struct bsmp_outcome outcome = packet_by(way, bench, packet, length);
    check_outcome(packet_text, way, bench, &outcome, packet, expected);
    if (outcome.kind == BSMP_REFUSED || outcome.kind == BSMP_RUN || is_wire_error(bench, &outcome))
        check(digest(bench) == before, packet_text, "a store, a length, a sum or the group table changed");
    free(packet);
}

/* No place, value or store of a number, whatever else is wrong with the call, and though the readings may see nothing wrong. */
static inline void expect_no_values(struct bench *bench, const char *name)
{
    const struct bsmp_board *board = &bench->board;
    struct bsmp_state *state = &bench->state;
    static const size_t variables[] = {0, 1, 2, SIZE_MAX};
    for (size_t i = 0; i < sizeof variables / sizeof variables[0]; i++) {
        struct bsmp_place place = bsmp_node_place(board, state, variables[i]);
        check(place.refusal == BSMP_BOARD_UNUSABLE && place.offset == 0 && place.size == 0, name, "a place was given");
        check_number(name, bsmp_node_value_signed(board, state, variables[i]).refusal, BSMP_BOARD_UNUSABLE);
        check_number(name, bsmp_node_value_unsigned(board, state, variables[i]).refusal, BSMP_BOARD_UNUSABLE);
        check_number(name, bsmp_node_store_signed(board, state, variables[i], INT64_MAX), BSMP_BOARD_UNUSABLE);
        check_number(name, bsmp_node_store_unsigned(board, state, variables[i], UINT64_MAX), BSMP_BOARD_UNUSABLE);
    }
}

/* Refusal 1 by all calls with a state but a fresh board, which asks less of the lengths. Nothing changes. */
static inline void expect_unusable(struct bench *bench, int way, const char *name)
{
    static const uint8_t packet[] = {5, 0x20, 0, 2, 1, 0x66, 0x72}, bytes[4] = {0};
    static const struct result result = {0, true, false, 0, "01 02"};
    uint64_t before = digest(bench);
    memset(bench->reply, UNTOUCHED, bench->room);
    struct bsmp_outcome outcome = packet_by(way, bench, packet, sizeof packet);
    check_outcome(name, way, bench, &outcome, packet, "refused 1");
    outcome = result_by(way, bench, &result);
    check_outcome(name, way, bench, &outcome, packet, "refused 1");
    check_number(name, store_by(way, bench, 0, bytes, sizeof bytes), BSMP_BOARD_UNUSABLE);
    if (way == INLINE) expect_no_values(bench, name);
    check(digest(bench) == before, name, "a refusal changed something");
}

static inline void expect_no_fresh(struct bench *bench, int way, const char *name)
{
    uint64_t before = digest(bench);
    check_number(name, fresh_by(way, bench), BSMP_BOARD_UNUSABLE);
    check(digest(bench) == before, name, "a refused fresh board changed something");
}

#endif
