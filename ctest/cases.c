/* Every case of docs/what-if.cases but a gateway's own calls through the C face: how each call ends, with its bytes, and the state that it leaves. The table is made by
 * the suite's program `cases table`. Needs no files, so that it runs on a bare board too. */
#include "bsmp.h"

#include <stdio.h>
#include <string.h>

enum entry { PACKET, RESULT, STORE, FRESH, READ_SIGNED, READ_UNSIGNED, WRITE_SIGNED, WRITE_UNSIGNED };
enum ending { REPLY = BSMP_REPLY, SILENCE = BSMP_SILENCE, RUN = BSMP_RUN, REFUSED = BSMP_REFUSED, DONE };

struct act {
    /* The call. */
    enum entry entry;
    size_t thing; /* a variable or a function */
    bool due, failed;
    uint64_t value; /* to be written */
    const uint8_t *given;
    size_t given_length;
    size_t room;
    unsigned line; /* in the file of cases */
    uint64_t busy;
    /* What comes of it. */
    enum ending ends;
    uint64_t refusal;
    size_t function;
    bool still_due;
    uint64_t number;
    const uint8_t *bytes;
    size_t length;
    uint64_t left; /* a digest of stores, lengths, sums and group table */
};

struct whole_case {
    const struct bsmp_variable *variables;
    size_t variable_count;
    const uint32_t *curves;
    size_t curve_numbers;
    const uint8_t *functions;
    size_t function_numbers;
    const uint8_t *values; /* as far as they are not 0 at the end */
    size_t value_starts, values_length;
    const uint8_t *blocks;
    size_t block_starts, blocks_length;
    const uint16_t *lengths;
    size_t length_count;
    const uint8_t *sums;
    size_t sum_starts, sums_length;
    struct bsmp_groups groups;
    uint8_t own, multicast;
    const struct act *acts;
    size_t act_count;
};

#include "cases.inc"

/* Stores, which may be too long for a board, and a buffer, with some bytes behind each that must stay as they are. */
enum { UNTOUCHED = 0x5C, BEHIND = 16, VALUES_ROOM = 2 * BSMP_MOST_VALUE_BYTES, BLOCKS_ROOM = 2 * BSMP_MOST_CURVE_BYTES };
enum { LENGTHS_ROOM = 2 * BSMP_MOST_BLOCKS, SUMS_ROOM = 2 * BSMP_MOST_CURVES * BSMP_SUM_SIZE };
static uint8_t values[VALUES_ROOM + BEHIND], blocks[BLOCKS_ROOM + BEHIND], sums[SUMS_ROOM + BEHIND], buffer[BSMP_REPLY_ROOM + BEHIND];
static uint16_t lengths[LENGTHS_ROOM + BEHIND];
static struct bsmp_groups groups;
static unsigned failed, calls;

static void check(bool good, const struct act *act, const char *wrong)
{
    if (good) return;
    printf("FAILED: what-if.cases, line %u: %s\n", act->line, wrong);
    failed++;
}

static size_t size_of_lengths(const struct whole_case *whole)
{
    return whole->length_count * sizeof lengths[0];
}

static bool untouched(const void *memory, size_t from, size_t to)
{
    const uint8_t *bytes = memory;
    while (from < to && bytes[from] == UNTOUCHED) from++;
    return from == to;
}

static uint64_t mixed(uint64_t digest, const uint8_t *bytes, size_t length)
{
    for (size_t i = 0; i < length; i++) digest = (digest ^ bytes[i]) * UINT64_C(0x100000001B3);
    return digest;
}

static uint64_t with_number(uint64_t digest, uint64_t number, size_t size)
{
    uint8_t bytes[8];
    for (size_t i = 0; i < size; i++) bytes[i] = (uint8_t)(number >> 8 * i);
    return mixed(digest, bytes, size);
}

static uint64_t left(const struct whole_case *whole)
{
    uint64_t digest = UINT64_C(0xCBF29CE484222325);
    digest = mixed(digest, values, whole->values_length);
    digest = mixed(digest, blocks, whole->blocks_length);
    for (size_t i = 0; i < whole->length_count; i++) digest = with_number(digest, lengths[i], sizeof lengths[i]);
    digest = mixed(digest, sums, whole->sums_length);
    digest = with_number(digest, groups.count, sizeof groups.count);
    for (int i = 0; i < BSMP_MOST_MADE_GROUPS; i++) digest = with_number(digest, groups.sets[i], sizeof groups.sets[i]);
    return digest;
}

static void start_store(void *store, size_t room, const void *starts, size_t count, size_t length)
{
    memset(store, UNTOUCHED, room);
    memset(store, 0, length);
    if (count > 0) memcpy(store, starts, count);
}

#define RECORDS whole->variables, whole->variable_count, whole->curves, whole->curve_numbers, whole->functions, whole->function_numbers
#define STORES values, whole->values_length, blocks, whole->blocks_length, lengths, whole->length_count, sums, whole->sums_length

/* What an entry gives, brought to one form. */
struct came {
    enum ending ends;
    uint64_t refusal, number;
    struct bsmp_outcome outcome;
};

static struct came of_outcome(struct bsmp_outcome outcome)
{
    struct came came = {(enum ending)outcome.kind, outcome.refusal, 0, outcome};
    return came;
}

static struct came of_refusal(uint64_t refusal, uint64_t number)
{
    struct came came = {refusal == BSMP_NOT_REFUSED ? DONE : REFUSED, refusal, number, {0, 0, false, 0, 0, 0}};
    return came;
}

static struct came call(const struct whole_case *whole, const struct act *act)
{
    const struct bsmp_variable *variables = whole->variables;
    size_t count = whole->variable_count;
    struct bsmp_signed_reading read_signed;
    struct bsmp_unsigned_reading read_unsigned;
    switch (act->entry) {
    case PACKET:
        return of_outcome(bsmp_packet(RECORDS, &groups, whole->own, whole->multicast, act->busy, STORES, act->given, act->given_length,
                                      buffer, act->room));
    case RESULT:
        if (act->failed)
            return of_outcome(bsmp_function_result(RECORDS, &groups, STORES, act->thing, act->due, true, act->given[0], NULL, 0,
                                                   buffer, act->room));
        return of_outcome(bsmp_function_result(RECORDS, &groups, STORES, act->thing, act->due, false, 0, act->given, act->given_length,
                                               buffer, act->room));
    case STORE: return of_refusal(bsmp_board_store(RECORDS, &groups, STORES, act->thing, act->given, act->given_length), 0);
    case FRESH: return of_refusal(bsmp_fresh_board(RECORDS, &groups, STORES), 0);
    case READ_SIGNED:
        read_signed = bsmp_read_signed(variables, count, act->thing, act->given, act->given_length);
        return of_refusal(read_signed.refusal, (uint64_t)read_signed.number);
    case READ_UNSIGNED:
        read_unsigned = bsmp_read_unsigned(variables, count, act->thing, act->given, act->given_length);
        return of_refusal(read_unsigned.refusal, read_unsigned.number);
    case WRITE_SIGNED: return of_refusal(bsmp_write_signed(variables, count, act->thing, (int64_t)act->value, buffer, act->room), 0);
    default: return of_refusal(bsmp_write_unsigned(variables, count, act->thing, act->value, buffer, act->room), 0);
    }
}

static void try_act(const struct whole_case *whole, const struct act *act)
{
    memset(buffer, UNTOUCHED, sizeof buffer);
    struct came came = call(whole, act);
    const struct bsmp_outcome *outcome = &came.outcome;
    size_t written = act->ends == RUN ? 0 : act->length;
    calls++;
    check(came.ends == act->ends && came.refusal == act->refusal && came.number == act->number, act, "another outcome");
    if (act->ends == REPLY) check(outcome->length == act->length, act, "a reply of another length");
    if (act->ends == RUN) {
        check(outcome->function == act->function && outcome->due == act->still_due, act, "another function to be run");
        check(outcome->length == act->length, act, "an input of another length");
        check(act->length == 0 || memcmp(act->given + outcome->input, act->bytes, act->length) == 0, act, "another input");
    }
    if (written > 0) check(memcmp(buffer, act->bytes, written) == 0, act, "other bytes");
    check(untouched(buffer, written, sizeof buffer), act, "the buffer was written beyond the bytes");
    check(untouched(values, whole->values_length, sizeof values) && untouched(blocks, whole->blocks_length, sizeof blocks) &&
              untouched(lengths, size_of_lengths(whole), sizeof lengths) && untouched(sums, whole->sums_length, sizeof sums),
          act, "something was written beyond a store, the lengths or the sums");
    check(left(whole) == act->left, act, "another state");
}

static void try_case(const struct whole_case *whole)
{
    if (whole->values_length > VALUES_ROOM || whole->blocks_length > BLOCKS_ROOM || whole->length_count > LENGTHS_ROOM ||
        whole->sums_length > SUMS_ROOM) {
        check(false, whole->acts, "a store is too long for this program, or the lengths or sums are");
        return;
    }
    start_store(values, sizeof values, whole->values, whole->value_starts, whole->values_length);
    start_store(blocks, sizeof blocks, whole->blocks, whole->block_starts, whole->blocks_length);
    start_store(lengths, sizeof lengths, whole->lengths, size_of_lengths(whole), size_of_lengths(whole));
    start_store(sums, sizeof sums, whole->sums, whole->sum_starts, whole->sums_length);
    groups = whole->groups;
    for (size_t i = 0; i < whole->act_count; i++) try_act(whole, &whole->acts[i]);
}

int main(void)
{
    unsigned count = sizeof cases / sizeof cases[0];
    for (unsigned i = 0; i < count; i++) try_case(&cases[i]);
    printf("%u cases, %u calls, %u failed\n", count, calls, failed);
    return failed != 0;
}
