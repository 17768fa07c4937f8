/* A variable's place, and current values as numbers: refusals 9, 11 and 12. Refusal 1, which comes before them, is tried in tables.c. */
#include "subjects.h"

/* On board A: variable 0 is signed, 1 plain, 2 unsigned. */
static void try_places(void)
{
    static const struct { size_t variable; unsigned refusal; size_t offset, size; } tries[] = {
        {0, 0, 0, 4}, {1, 0, 4, 1}, {2, 0, 5, 2}, {3, BSMP_NO_SUCH_VARIABLE, 0, 0}, {SIZE_MAX, BSMP_NO_SUCH_VARIABLE, 0, 0},
    };
    struct bench bench;
    start(&bench);
    uint64_t before = digest(&bench);
    for (size_t i = 0; i < sizeof tries / sizeof tries[0]; i++) {
        struct bsmp_place place = bsmp_node_place(&bench.board, &bench.state, tries[i].variable);
        check_number("a place: refusal", place.refusal, tries[i].refusal);
        check_number("a place: offset", place.offset, tries[i].offset);
        check_number("a place: size", place.size, tries[i].size);
    }
    check(digest(&bench) == before, "a place", "a store, a length, a sum or the group table changed");
    end(&bench);
}

static void try_values(void)
{
    static const struct { size_t variable; unsigned of_signed, of_unsigned; } tries[] = {
        {0, 0, BSMP_WRONG_KIND},
        {1, BSMP_WRONG_KIND, BSMP_WRONG_KIND},
        {2, BSMP_WRONG_KIND, 0},
        {3, BSMP_NO_SUCH_VARIABLE, BSMP_NO_SUCH_VARIABLE},
        {SIZE_MAX, BSMP_NO_SUCH_VARIABLE, BSMP_NO_SUCH_VARIABLE},
    };
    struct bench bench;
    start(&bench);
    uint64_t before = digest(&bench);
    for (size_t i = 0; i < sizeof tries / sizeof tries[0]; i++) {
        struct bsmp_signed_reading as_signed = bsmp_node_value_signed(&bench.board, &bench.state, tries[i].variable);
        struct bsmp_unsigned_reading as_unsigned = bsmp_node_value_unsigned(&bench.board, &bench.state, tries[i].variable);
        check_number("a signed value", as_signed.refusal, tries[i].of_signed);
        check(as_signed.number == (as_signed.refusal ? 0 : -3), "a signed value", "another number");
        check_number("an unsigned value", as_unsigned.refusal, tries[i].of_unsigned);
        check_number("an unsigned value", as_unsigned.number, as_unsigned.refusal ? 0 : 0x1234);
    }
    check(digest(&bench) == before, "a value", "a store, a length, a sum or the group table changed");
    end(&bench);
}

static void check_number_store(const struct bench *bench, uint8_t refusal, unsigned expected, const char *values)
{
    check_number("a store of a number", refusal, expected);
    check_values("a store of a number", INLINE, bench, values);
}

static void try_signed_stores(void)
{
    static const struct { size_t variable; int64_t number; unsigned refusal; const char *values; } tries[] = {
        {0, -2, 0, "FF FF FF FE 5A 34 12"},
        {0, INT32_MIN, 0, "80 00 00 00 5A 34 12"},
        {0, INT32_MAX, 0, "7F FF FF FF 5A 34 12"},
        {0, (int64_t)INT32_MIN - 1, BSMP_DOES_NOT_FIT, NULL},
        {0, (int64_t)INT32_MAX + 1, BSMP_DOES_NOT_FIT, NULL},
        {1, 0, BSMP_WRONG_KIND, NULL},
        {2, INT64_MAX, BSMP_WRONG_KIND, NULL},
        {3, INT64_MAX, BSMP_NO_SUCH_VARIABLE, NULL},
        {SIZE_MAX, 0, BSMP_NO_SUCH_VARIABLE, NULL},
    };
    for (size_t i = 0; i < sizeof tries / sizeof tries[0]; i++) {
        struct bench bench;
        start(&bench);
        uint8_t refusal = bsmp_node_store_signed(&bench.board, &bench.state, tries[i].variable, tries[i].number);
        check_number_store(&bench, refusal, tries[i].refusal, tries[i].values);
        end(&bench);
    }
}

static void try_unsigned_stores(void)
{
    static const struct { size_t variable; uint64_t number; unsigned refusal; const char *values; } tries[] = {
        {2, 0xABCD, 0, "FF FF FF FD 5A CD AB"},
        {2, 0, 0, "FF FF FF FD 5A 00 00"},
        {2, 65535, 0, "FF FF FF FD 5A FF FF"},
        {2, 65536, BSMP_DOES_NOT_FIT, NULL},
        {1, 0, BSMP_WRONG_KIND, NULL},
        {0, UINT64_MAX, BSMP_WRONG_KIND, NULL},
        {3, UINT64_MAX, BSMP_NO_SUCH_VARIABLE, NULL},
        {SIZE_MAX, 0, BSMP_NO_SUCH_VARIABLE, NULL},
    };
    for (size_t i = 0; i < sizeof tries / sizeof tries[0]; i++) {
        struct bench bench;
        start(&bench);
        uint8_t refusal = bsmp_node_store_unsigned(&bench.board, &bench.state, tries[i].variable, tries[i].number);
        check_number_store(&bench, refusal, tries[i].refusal, tries[i].values);
        end(&bench);
    }
}

/* The last variable of a board with the most bytes, in a plain variable that is longer than any number. */
static void try_last_place(void)
{
    struct bench bench;
    start(&bench);
    for (size_t i = 0; i < BSMP_MOST_VARIABLES; i++) {
        struct bsmp_variable plain = {BSMP_READ_ONLY, 64, BSMP_PLAIN};
        bench.variables[i] = plain;
    }
    bench.board.variable_count = BSMP_MOST_VARIABLES;
    set_values_length(&bench, BSMP_MOST_VALUE_BYTES);
    uint64_t before = digest(&bench);
    struct bsmp_place place = bsmp_node_place(&bench.board, &bench.state, 63);
    check_number("the last place: refusal", place.refusal, 0);
    check_number("the last place: offset", place.offset, BSMP_MOST_VALUE_BYTES - 64);
    check_number("the last place: size", place.size, 64);
    check_number("a long plain value", bsmp_node_value_signed(&bench.board, &bench.state, 63).refusal, BSMP_WRONG_KIND);
    check_number("a long plain store", bsmp_node_store_unsigned(&bench.board, &bench.state, 63, 0), BSMP_WRONG_KIND);
    check(digest(&bench) == before, "the last place", "a store, a length, a sum or the group table changed");
    end(&bench);
}

void try_places_and_values(void)
{
    try_places();
    try_values();
    try_signed_stores();
    try_unsigned_stores();
    try_last_place();
}
