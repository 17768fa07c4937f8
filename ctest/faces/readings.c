/* Readings, writings, and stores of numbers at the edges: refusals 9 to 12. */
#include "subjects.h"

/* Four kinds of number at sizes 1, 2, 4 and 8: number 4 * (kind - 1) + place of the size. */
static struct bsmp_variable numbers[16];
static const struct bsmp_board number_board = {numbers, 16, NULL, 0, NULL, 0, 5, 0x81};
static uint8_t number_values[4 * (1 + 2 + 4 + 8)];
static struct bsmp_state number_state = {number_values, sizeof number_values, NULL, 0, NULL, 0, NULL, 0, {0, {0, 0, 0, 0, 0}}};

static void make_numbers(void)
{
    for (size_t i = 0; i < 16; i++) {
        numbers[i].writable = BSMP_READ_ONLY;
        numbers[i].size = (uint8_t)(1 << i % 4);
        numbers[i].kind = (uint8_t)(BSMP_UNSIGNED_BIG + i / 4);
    }
}

static void bytes_by_hand(uint64_t number, const struct bsmp_variable *variable, uint8_t *bytes)
{
    bool big = variable->kind == BSMP_UNSIGNED_BIG || variable->kind == BSMP_SIGNED_BIG;
    for (size_t i = 0; i < variable->size; i++) bytes[big ? variable->size - 1u - i : i] = (uint8_t)(number >> 8 * i);
}

/* A store of a number gave 0: its bytes stand in the variable's place, and the others are as they were. */
static void check_stored(size_t variable, uint8_t refusal, const uint8_t *bytes)
{
    size_t offset = 15 * (variable / 4) + (1u << variable % 4) - 1, size = numbers[variable].size;
    uint8_t expected[sizeof number_values];
    memset(expected, UNTOUCHED, sizeof expected);
    memcpy(expected + offset, bytes, size);
    check_number("a store of a number", refusal, 0);
    check(memcmp(number_values, expected, sizeof expected) == 0, "a store of a number", "other bytes");
    memset(number_values, UNTOUCHED, sizeof number_values);
}

static void try_signed(size_t variable, int64_t number)
{
    size_t size = numbers[variable].size;
    uint8_t *written = heap(size), *expected = heap(size);
    bytes_by_hand((uint64_t)number, &numbers[variable], expected);
    check_number("a signed writing", bsmp_node_write_signed(&number_board, variable, number, written, size), 0);
    check(memcmp(written, expected, size) == 0, "a signed writing", "other bytes");
    struct bsmp_signed_reading reading = bsmp_node_read_signed(&number_board, variable, expected, size);
    check_number("a signed reading", reading.refusal, 0);
    check(reading.number == number, "a signed reading", "another number");
    uint8_t refusal = bsmp_node_store_signed(&number_board, &number_state, variable, number);
    reading = bsmp_node_value_signed(&number_board, &number_state, variable);
    check(reading.refusal == 0 && reading.number == number, "a signed value", "another number");
    check_stored(variable, refusal, expected);
    free(written);
    free(expected);
}

static void try_unsigned(size_t variable, uint64_t number)
{
    size_t size = numbers[variable].size;
    uint8_t *written = heap(size), *expected = heap(size);
    bytes_by_hand(number, &numbers[variable], expected);
    check_number("an unsigned writing", bsmp_node_write_unsigned(&number_board, variable, number, written, size), 0);
    check(memcmp(written, expected, size) == 0, "an unsigned writing", "other bytes");
    struct bsmp_unsigned_reading reading = bsmp_node_read_unsigned(&number_board, variable, expected, size);
    check_number("an unsigned reading", reading.refusal, 0);
    check(reading.number == number, "an unsigned reading", "another number");
    uint8_t refusal = bsmp_node_store_unsigned(&number_board, &number_state, variable, number);
    reading = bsmp_node_value_unsigned(&number_board, &number_state, variable);
    check(reading.refusal == 0 && reading.number == number, "an unsigned value", "another number");
    check_stored(variable, refusal, expected);
    free(written);
    free(expected);
}

static void check_refused_writing(uint8_t refusal, unsigned expected, const uint8_t *buffer, size_t length)
{
    check_number("a refused writing", refusal, expected);
    for (size_t i = 0; i < length; i++) check(buffer[i] == UNTOUCHED, "a refused writing", "the buffer changed");
}

static void try_signed_edges(size_t variable)
{
    uint8_t size = numbers[variable].size, buffer[8];
    int64_t most = INT64_MAX >> (64 - 8 * size), least = -most - 1;
    const int64_t good[] = {least, least + 1, -2, -1, 0, 1, most - 1, most};
    for (size_t i = 0; i < sizeof good / sizeof good[0]; i++) try_signed(variable, good[i]);
    memset(buffer, UNTOUCHED, sizeof buffer);
    check_refused_writing(bsmp_write_unsigned(numbers, 16, variable, 0, buffer, size), BSMP_WRONG_KIND, buffer, size);
    if (size == 8) return;
    const int64_t bad[] = {least - 1, most + 1, INT64_MIN, INT64_MAX};
    for (size_t i = 0; i < sizeof bad / sizeof bad[0]; i++)
        check_refused_writing(bsmp_write_signed(numbers, 16, variable, bad[i], buffer, size), BSMP_DOES_NOT_FIT, buffer, size);
}

static void try_unsigned_edges(size_t variable)
{
    uint8_t size = numbers[variable].size, buffer[8];
    uint64_t most = UINT64_MAX >> (64 - 8 * size);
    const uint64_t good[] = {0, 1, most / 2, most / 2 + 1, most - 1, most};
    for (size_t i = 0; i < sizeof good / sizeof good[0]; i++) try_unsigned(variable, good[i]);
    memset(buffer, UNTOUCHED, sizeof buffer);
    check_refused_writing(bsmp_write_signed(numbers, 16, variable, 0, buffer, size), BSMP_WRONG_KIND, buffer, size);
    if (size == 8) return;
    const uint64_t bad[] = {most + 1, UINT64_MAX};
    for (size_t i = 0; i < sizeof bad / sizeof bad[0]; i++)
        check_refused_writing(bsmp_write_unsigned(numbers, 16, variable, bad[i], buffer, size), BSMP_DOES_NOT_FIT, buffer, size);
}

/* On board A: variable 0 is signed, 1 plain, 2 unsigned. */
static void try_reading_refusals(void)
{
    static const struct { size_t variable, count; unsigned of_signed, of_unsigned; } tries[] = {
        {0, 4, 0, BSMP_WRONG_KIND},
        {0, 3, BSMP_WRONG_BYTE_COUNT, BSMP_WRONG_KIND},
        {1, 1, BSMP_WRONG_KIND, BSMP_WRONG_KIND},
        {1, 2, BSMP_WRONG_KIND, BSMP_WRONG_KIND},
        {2, 2, BSMP_WRONG_KIND, 0},
        {2, 8, BSMP_WRONG_KIND, BSMP_WRONG_BYTE_COUNT},
        {3, 4, BSMP_NO_SUCH_VARIABLE, BSMP_NO_SUCH_VARIABLE},
        {SIZE_MAX, 0, BSMP_NO_SUCH_VARIABLE, BSMP_NO_SUCH_VARIABLE},
    };
    uint8_t bytes[8] = {0};
    for (size_t i = 0; i < sizeof tries / sizeof tries[0]; i++) {
        size_t variable = tries[i].variable, count = tries[i].count;
        const struct bsmp_board *board = &board_a;
        unsigned signed_one = tries[i].of_signed, unsigned_one = tries[i].of_unsigned;
        check_number("a signed reading", bsmp_node_read_signed(board, variable, bytes, count).refusal, signed_one);
        check_number("an unsigned reading", bsmp_node_read_unsigned(board, variable, bytes, count).refusal, unsigned_one);
        check_number("a signed writing", bsmp_node_write_signed(board, variable, 0, bytes, count), signed_one);
        check_number("an unsigned writing", bsmp_node_write_unsigned(board, variable, 0, bytes, count), unsigned_one);
    }
}

void try_readings(void)
{
    make_numbers();
    memset(number_values, UNTOUCHED, sizeof number_values);
    for (size_t i = 0; i < 8; i++) try_unsigned_edges(i);
    for (size_t i = 8; i < 16; i++) try_signed_edges(i);
    try_reading_refusals();
}
