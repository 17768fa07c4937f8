/* Function results with refusals 3, 7 and 8, and board stores with refusals 9 and 10. */
#include "subjects.h"

static void try_function_results(int way)
{
    static const struct { struct result result; size_t room; const char *outcome; } tries[] = {
        {{0, true, false, 0, "AB CD"}, 4104, "00 51 00 02 AB CD ="},
        {{0, true, false, 9, "AB CD"}, 4104, "00 51 00 02 AB CD ="},
        {{0, true, true, 0x2A, ""}, 4104, "00 53 00 01 2A ="},
        {{0, true, true, 0x2A, "AB CD EF"}, 4104, "00 53 00 01 2A ="},
        {{0, false, false, 0, "AB CD"}, 4104, "silence"},
        {{0, false, true, 0x2A, ""}, 4104, "silence"},
        {{0, true, false, 0, "AB CD"}, 4103, "refused 3"},
        {{0, false, true, 0x2A, ""}, 0, "refused 3"},
        {{1, true, false, 0, "AB"}, 4103, "refused 3"},
        {{1, true, false, 0, "AB"}, 4104, "refused 7"},
        {{1, true, false, 0, "AB CD"}, 4104, "refused 7"},
        {{SIZE_MAX, false, true, 0, ""}, 4104, "refused 7"},
        {{0, true, false, 0, "AB"}, 4104, "refused 8"},
        {{0, false, false, 0, "AB CD EF"}, 4104, "refused 8"},
    };
    for (size_t i = 0; i < sizeof tries / sizeof tries[0]; i++) {
        struct bench bench;
        start(&bench);
        set_room(&bench, tries[i].room);
        uint64_t before = digest(&bench);
        struct bsmp_outcome outcome = result_by(way, &bench, &tries[i].result);
        check_outcome("a function's result", way, &bench, &outcome, NULL, tries[i].outcome);
        check(digest(&bench) == before, "a function's result", "a store, a length, a sum or the group table changed");
        end(&bench);
    }
}

/* ---- Board stores: refusals 9 and 10 ---- */

static void try_board_stores(int way)
{
    static const struct { size_t variable; const char *bytes; uint8_t refusal; const char *values; } tries[] = {
        {0, "01 02 03 04", 0, "01 02 03 04 5A 34 12"}, {1, "77", 0, "FF FF FF FD 77 34 12"},
        {2, "88 99", 0, "FF FF FF FD 5A 88 99"},       {3, "77", BSMP_NO_SUCH_VARIABLE, NULL},
        {SIZE_MAX, "", BSMP_NO_SUCH_VARIABLE, NULL},   {0, "01 02 03", BSMP_WRONG_BYTE_COUNT, NULL},
        {1, "77 78", BSMP_WRONG_BYTE_COUNT, NULL},
    };
    for (size_t i = 0; i < sizeof tries / sizeof tries[0]; i++) {
        struct bench bench;
        uint8_t bytes[8];
        start(&bench);
        uint64_t before = digest(&bench);
        uint8_t refusal = store_by(way, &bench, tries[i].variable, bytes, bytes_of(tries[i].bytes, bytes));
        check_number("a board store", refusal, tries[i].refusal);
        check_values("a board store", way, &bench, tries[i].values);
        if (refusal != 0) check(digest(&bench) == before, "a board store", "a refusal changed something");
        end(&bench);
    }
}

void try_results_and_stores(int way)
{
    try_function_results(way);
    try_board_stores(way);
}
