/* Values of a group by their places, numbers by the kinds that the gateway supplies, and records of lists; NULL with length 0. */
#include "subjects.h"

void try_member_places(void)
{
    static const struct { size_t group, variable; unsigned refusal; size_t offset, size; } tries[] = {
        {0, 0, 0, 4, 4}, {0, 1, 0, 8, 1}, {0, 2, 0, 9, 2}, {0, 3, 9, 0, 0},  {0, SIZE_MAX, 9, 0, 0},
        {1, 0, 0, 4, 4}, {1, 1, 9, 0, 0}, {1, 2, 9, 0, 0}, {2, 0, 9, 0, 0},  {2, 1, 0, 4, 1},
        {2, 2, 0, 5, 2}, {3, 0, 0, 4, 4}, {3, 1, 9, 0, 0}, {3, 2, 0, 8, 2},  {4, 1, 0, 4, 1},
        {4, 0, 9, 0, 0}, {5, 0, 9, 0, 0}, {7, 0, 9, 0, 0}, {8, 0, 9, 0, 0},  {SIZE_MAX, 0, 9, 0, 0},
        {0, 63, 9, 0, 0}, {0, 64, 9, 0, 0}, {5, 3, 9, 0, 0},
    };
    struct bsmp_learned *learned = (struct bsmp_learned *)(void *)heap(sizeof *learned);
    *learned = board_a_known();
    for (size_t i = 0; i < COUNT(tries); i++) {
        struct bsmp_place place = bsmp_hear_place(learned, tries[i].group, tries[i].variable);
        check_number("a member's place: refusal", place.refusal, tries[i].refusal);
        check_number("a member's place: offset", place.offset, tries[i].offset);
        check_number("a member's place: size", place.size, tries[i].size);
    }
    /* Marks past the variables are nobody's; the last of 64 has a place in each. */
    learned->writable = UINT64_MAX - 1;
    check_number("a mark of no variable", bsmp_hear_place(learned, 2, 3).refusal, BSMP_NO_SUCH_VARIABLE);
    check_number("a mark of no variable: the others", bsmp_hear_place(learned, 2, 2).offset, 5);
    learned->variable_count = 64;
    memset(learned->sizes, 64, 64);
    learned->sets[0] = UINT64_MAX;
    learned->sets[1] = UINT64_C(3) << 62;
    check_number("the last of all", bsmp_hear_place(learned, 0, 63).offset, 4 + 63 * 64);
    check_number("the last of a made group of all", bsmp_hear_place(learned, 3, 63).offset, 4 + 63 * 64);
    check_number("the last of two", bsmp_hear_place(learned, 4, 63).offset, 4 + 64);
    check_number("the first of two", bsmp_hear_place(learned, 4, 62).offset, 4);
    check_number("the last of the writable", bsmp_hear_place(learned, 2, 63).offset, 4 + 62 * 64);
    check_number("none of the read-only", bsmp_hear_place(learned, 1, 63).refusal, BSMP_NO_SUCH_VARIABLE);
    check_number("the only read-only", bsmp_hear_place(learned, 1, 0).size, 64);
    free(learned);
}

/* ---- Numbers ---- */

/* Eight variables: plain, and a number of each size; the last two are signed and unsigned bytes. */
enum { PLAIN, BYTE, WORD, LONG_SIGNED, LONG, LITTLE, BIG, SHORT, KINDS };
static const uint8_t sizes[KINDS] = {5, 1, 2, 8, 8, 4, 4, 2};
static const uint8_t kinds[KINDS] = {BSMP_PLAIN,        BSMP_SIGNED_BIG,    BSMP_UNSIGNED_LITTLE, BSMP_SIGNED_BIG,
                                     BSMP_UNSIGNED_BIG, BSMP_SIGNED_LITTLE, BSMP_SIGNED_BIG,      BSMP_SIGNED_LITTLE};

static struct bsmp_learned numbers_known(void)
{
    struct bsmp_learned learned = nothing_known();
    learned.variable_count = KINDS;
    memcpy(learned.sizes, sizes, sizeof sizes);
    return learned;
}

/* The bytes read as the number, and the number is written as the bytes. */
static void try_signed_numbers(const struct bsmp_learned *learned)
{
    static const struct { size_t variable; int64_t number; const char *bytes; } tries[] = {
        {BIG, -3, "FF FF FF FD"},          {LITTLE, -3, "FD FF FF FF"},       {BYTE, -3, "FD"},
        {SHORT, -3, "FD FF"},              {SHORT, 0x1234, "34 12"},          {BYTE, -128, "80"},
        {BYTE, 127, "7F"},                 {BYTE, -1, "FF"},                  {BYTE, 0, "00"},
        {SHORT, -32768, "00 80"},          {SHORT, 32767, "FF 7F"},           {BIG, INT32_MIN, "80 00 00 00"},
        {BIG, INT32_MAX, "7F FF FF FF"},   {LITTLE, INT32_MIN, "00 00 00 80"}, {LONG_SIGNED, -3, "FF FF FF FF FF FF FF FD"},
        {LONG_SIGNED, INT64_MIN, "80 00 00 00 00 00 00 00"},
        {LONG_SIGNED, INT64_MAX, "7F FF FF FF FF FF FF FF"},
    };
    for (size_t i = 0; i < COUNT(tries); i++) {
        uint8_t given[8], *bytes, *written;
        size_t count = bytes_of(tries[i].bytes, given);
        bytes = heap(count);
        written = heap(count);
        memcpy(bytes, given, count);
        struct bsmp_signed_reading reading = bsmp_hear_signed(learned, kinds, KINDS, tries[i].variable, bytes, count);
        check_number(tries[i].bytes, reading.refusal, BSMP_NOT_REFUSED);
        check(reading.number == tries[i].number, tries[i].bytes, "it reads as another number");
        check_number(tries[i].bytes, bsmp_ask_signed(learned, kinds, KINDS, tries[i].variable, tries[i].number, written, count), 0);
        check(memcmp(bytes, written, count) == 0, tries[i].bytes, "it is written otherwise");
        check_number("unsigned asked of signed", bsmp_hear_unsigned(learned, kinds, KINDS, tries[i].variable, bytes, count).refusal,
                     BSMP_WRONG_KIND);
        check_number("unsigned written to signed", bsmp_ask_unsigned(learned, kinds, KINDS, tries[i].variable, 0, written, count),
                     BSMP_WRONG_KIND);
        free(bytes);
        free(written);
    }
}

static void try_unsigned_numbers(const struct bsmp_learned *learned)
{
    static const struct { size_t variable; uint64_t number; const char *bytes; } tries[] = {
        {WORD, 0x1234, "34 12"}, {WORD, 65533, "FD FF"}, {WORD, 0, "00 00"}, {WORD, 65535, "FF FF"},
        {LONG, 1, "00 00 00 00 00 00 00 01"}, {LONG, UINT64_MAX, "FF FF FF FF FF FF FF FF"},
    };
    for (size_t i = 0; i < COUNT(tries); i++) {
        uint8_t given[8], *bytes, *written;
        size_t count = bytes_of(tries[i].bytes, given);
        bytes = heap(count);
        written = heap(count);
        memcpy(bytes, given, count);
        struct bsmp_unsigned_reading reading = bsmp_hear_unsigned(learned, kinds, KINDS, tries[i].variable, bytes, count);
        check_number(tries[i].bytes, reading.refusal, BSMP_NOT_REFUSED);
        check_number(tries[i].bytes, reading.number, tries[i].number);
        check_number(tries[i].bytes, bsmp_ask_unsigned(learned, kinds, KINDS, tries[i].variable, tries[i].number, written, count), 0);
        check(memcmp(bytes, written, count) == 0, tries[i].bytes, "it is written otherwise");
        check_number("signed asked of unsigned", bsmp_hear_signed(learned, kinds, KINDS, tries[i].variable, bytes, count).refusal,
                     BSMP_WRONG_KIND);
        free(bytes);
        free(written);
    }
}

/* All four calls give the same refusal but for 12, and write nothing then. 11 comes before 10, 9 before both, 1 before all. */
static void expect_refusal(const char *name, const struct bsmp_learned *learned, const uint8_t *of, size_t count, size_t variable,
                           size_t length, unsigned of_signed, unsigned of_unsigned)
{
    uint8_t *bytes = heap(length), *lent_kinds = heap(count);
    if (count > 0) memcpy(lent_kinds, of, count);
    struct bsmp_signed_reading as_signed = bsmp_hear_signed(learned, lent_kinds, count, variable, bytes, length);
    struct bsmp_unsigned_reading as_unsigned = bsmp_hear_unsigned(learned, lent_kinds, count, variable, bytes, length);
    check_number(name, as_signed.refusal, of_signed);
    check_number(name, as_unsigned.refusal, of_unsigned);
    check(as_signed.refusal == 0 || as_signed.number == 0, name, "a refusal with a number");
    check(as_unsigned.refusal == 0 || as_unsigned.number == 0, name, "a refusal with a number");
    if (of_signed != 0) check_number(name, bsmp_ask_signed(learned, lent_kinds, count, variable, 0, bytes, length), of_signed);
    if (of_unsigned != 0) check_number(name, bsmp_ask_unsigned(learned, lent_kinds, count, variable, 0, bytes, length), of_unsigned);
    for (size_t i = 0; i < length; i++) check(bytes[i] == UNTOUCHED, name, "a refused writing wrote");
    free(bytes);
    free(lent_kinds);
}

static void try_refusals(void)
{
    enum { R1 = BSMP_BOARD_UNUSABLE, R9 = BSMP_NO_SUCH_VARIABLE, R10 = BSMP_WRONG_BYTE_COUNT, R11 = BSMP_WRONG_KIND };
    struct bsmp_learned learned = numbers_known(), none = nothing_known(), changed;
    uint8_t others[BSMP_MOST_VARIABLES + 2];
    expect_refusal("a plain one", &learned, kinds, KINDS, PLAIN, 5, R11, R11);
    expect_refusal("a plain one, too short", &learned, kinds, KINDS, PLAIN, 4, R11, R11);
    expect_refusal("too short", &learned, kinds, KINDS, BIG, 3, R10, R11);
    expect_refusal("too long", &learned, kinds, KINDS, BIG, 5, R10, R11);
    expect_refusal("nothing", &learned, kinds, KINDS, WORD, 0, R11, R10);
    expect_refusal("no such variable", &learned, kinds, KINDS, KINDS, 5, R9, R9);
    expect_refusal("no such variable", &learned, kinds, KINDS, SIZE_MAX, 0, R9, R9);
    /* As many variables count as there are kinds, and no more kinds than variables. */
    expect_refusal("the last kind", &learned, kinds, BYTE + 1, BYTE, 1, 0, R11);
    expect_refusal("a variable without a kind", &learned, kinds, BYTE + 1, WORD, 2, R9, R9);
    expect_refusal("no kinds", &learned, kinds, 0, BYTE, 1, R1, R1);
    memset(others, 0xEE, sizeof others);
    memcpy(others, kinds, KINDS);
    expect_refusal("kinds of no variable", &learned, others, sizeof others, BYTE, 1, 0, R11);
    expect_refusal("kinds of no variable", &learned, others, sizeof others, KINDS, 1, R9, R9);
    expect_refusal("nothing known", &none, kinds, KINDS, 0, 1, R1, R1);
    /* Records that break the limits, the variable at hand among them or not. */
    others[SHORT] = 5;
    expect_refusal("no such kind", &learned, others, KINDS, BYTE, 1, R1, R1);
    expect_refusal("no such kind, past the kinds", &learned, others, SHORT, BYTE, 1, 0, R11);
    others[SHORT] = BSMP_SIGNED_BIG;
    changed = learned;
    changed.sizes[SHORT] = 3;
    expect_refusal("a number of 3 bytes", &changed, kinds, KINDS, BYTE, 1, R1, R1);
    expect_refusal("a number of 3 bytes, past the kinds", &changed, kinds, SHORT, BYTE, 1, 0, R11);
    others[SHORT] = BSMP_PLAIN;
    expect_refusal("3 plain bytes", &changed, others, KINDS, BYTE, 1, 0, R11);
    changed.sizes[SHORT] = 0;
    expect_refusal("a size of 0", &changed, others, KINDS, BYTE, 1, R1, R1);
    changed.sizes[SHORT] = 127;
    expect_refusal("a size of 127", &changed, others, KINDS, BYTE, 1, 0, R11);
    changed.sizes[SHORT] = 128;
    expect_refusal("a size of 128", &changed, others, KINDS, KINDS, 1, R1, R1);
    /* Only the variables count. */
    changed = learned;
    changed.group_count = changed.curve_count = changed.function_count = UINT64_MAX;
    expect_refusal("no good groups, curves and functions", &changed, kinds, KINDS, BYTE, 1, 0, R11);
    /* 64 variables of 64 bytes, and what is more. */
    memset(others, BSMP_PLAIN, sizeof others);
    changed = learned;
    changed.variable_count = BSMP_MOST_VARIABLES;
    memset(changed.sizes, 64, sizeof changed.sizes);
    expect_refusal("4,096 bytes", &changed, others, 64, 63, 64, R11, R11);
    changed.sizes[9] = 65;
    expect_refusal("4,097 bytes", &changed, others, 64, 63, 64, R1, R1);
    expect_refusal("4,033 bytes with kinds", &changed, others, 63, 62, 64, R11, R11);
    changed.sizes[9] = 64;
    changed.variable_count = UINT64_MAX;
    expect_refusal("65 variables", &changed, others, 65, 63, 64, R1, R1);
    expect_refusal("64 of more variables", &changed, others, 64, 63, 64, R11, R11);
}

static void try_ranges(const struct bsmp_learned *learned)
{
    static const struct { size_t variable; int64_t number; size_t length; } signed_tries[] = {
        {BYTE, 128, 1},   {BYTE, -129, 1},  {SHORT, 32768, 2}, {SHORT, -32769, 2}, {BIG, (int64_t)INT32_MAX + 1, 4},
        {LITTLE, (int64_t)INT32_MIN - 1, 4}, {BYTE, INT64_MAX, 1}, {BIG, INT64_MIN, 4},
    };
    for (size_t i = 0; i < COUNT(signed_tries); i++) {
        uint8_t buffer[8];
        memset(buffer, UNTOUCHED, sizeof buffer);
        check_number("a number out of range",
                     bsmp_ask_signed(learned, kinds, KINDS, signed_tries[i].variable, signed_tries[i].number, buffer,
                                     signed_tries[i].length), BSMP_DOES_NOT_FIT);
        check_number("a number out of range and a buffer too long",
                     bsmp_ask_signed(learned, kinds, KINDS, signed_tries[i].variable, signed_tries[i].number, buffer,
                                     signed_tries[i].length + 1), BSMP_WRONG_BYTE_COUNT);
        for (size_t k = 0; k < sizeof buffer; k++) check(buffer[k] == UNTOUCHED, "a number out of range", "it was written");
    }
    uint8_t buffer[8];
    memset(buffer, UNTOUCHED, sizeof buffer);
    check_number("65,536 in two bytes", bsmp_ask_unsigned(learned, kinds, KINDS, WORD, 65536, buffer, 2), BSMP_DOES_NOT_FIT);
    check_number("the most in two bytes", bsmp_ask_unsigned(learned, kinds, KINDS, WORD, UINT64_MAX, buffer, 2), BSMP_DOES_NOT_FIT);
    check(buffer[0] == UNTOUCHED && buffer[1] == UNTOUCHED, "65,536 in two bytes", "it was written");
}

void try_numbers(void)
{
    struct bsmp_learned *learned = (struct bsmp_learned *)(void *)heap(sizeof *learned);
    *learned = numbers_known();
    try_signed_numbers(learned);
    try_unsigned_numbers(learned);
    try_ranges(learned);
    struct bsmp_learned before = numbers_known();
    check(memcmp(learned, &before, sizeof before) == 0, "numbers", "the table changed");
    free(learned);
    try_refusals();
}

/* ---- Records of a list ---- */

void try_records(void)
{
    static const uint8_t curve[] = {1, 0x0F, 0xFE, 0x12, 0x34}, most[] = {0, 0, 1, 0, 0};
    check(!bsmp_listed_variable(0x04).writable && bsmp_listed_variable(0x04).size == 4, "04 of list 03", "another record");
    check(bsmp_listed_variable(0xFF).writable && bsmp_listed_variable(0xFF).size == 127, "FF of list 03", "another record");
    check(bsmp_listed_group(0x82).writable && bsmp_listed_group(0x82).size == 2, "82 of list 05", "another record");
    check(!bsmp_listed_group(0x00).writable && bsmp_listed_group(0x00).size == 0, "00 of list 05", "another record");
    check_number("a curve's type", bsmp_listed_curve(curve).writable, BSMP_WRITABLE);
    check_number("a curve's block size", bsmp_listed_curve(curve).block_size, 0x0FFE);
    check_number("a curve's blocks", bsmp_listed_curve(curve).blocks, 0x1234);
    check_number("the most blocks", bsmp_listed_curve(most).blocks, BSMP_MOST_BLOCKS);
    check_number("a function's input", bsmp_listed_function(0x12).input, 1);
    check_number("a function's output", bsmp_listed_function(0x12).output, 2);
    check_number("the most input", bsmp_listed_function(0xF0).input, BSMP_MOST_INPUT);
    check_number("the most output", bsmp_listed_function(0x0F).output, BSMP_MOST_OUTPUT);
}

/* ---- NULL with length 0 ---- */

void try_no_bytes(int way)
{
    struct bsmp_learned learned = board_a_known();
    expect_asked("NULL as a value", way, NODE, bsmp_request_write_variable(1, NULL, 0), "05 20 00 01 01 =");
    expect_asked("NULL as a mask", way, NODE, bsmp_request_mask_group(1, BSMP_MASK_AND, NULL, 0), "05 26 00 02 01 41 =");
    expect_asked("NULL as IDs", way, NODE, bsmp_request_make_group(NULL, 0), "05 30 00 00 =");
    expect_asked("NULL as a block's bytes", way, NODE, bsmp_request_write_block(0, 0, NULL, 0), "05 41 00 03 00 00 00 =");
    expect_asked("NULL as an input", way, NODE, bsmp_request_run_function(0, NULL, 0), "05 50 00 01 00 =");
    check_number("NULL as a buffer", ask_by(way, NODE, bsmp_request_version(), NULL, 0).refusal, BSMP_REPLY_BUFFER_SHORT);
    struct bsmp_heard heard = hear_by(way, &learned, NODE, bsmp_request_version(), NULL, 0);
    check_heard("NULL as a reply", way, &heard, NULL, "refused 4");
    expect_heard("NULL as IDs, heard", way, &learned, bsmp_request_make_group(NULL, 0), "00 E0 00 00 20", "done");
    expect_table("NULL as IDs, heard", way, &learned, "4r 1w 2w; 3 is 5; 4 is 2; 4wx2; 1>2");
    check_number("NULL as kinds", bsmp_hear_signed(&learned, NULL, 0, 0, NULL, 0).refusal, BSMP_BOARD_UNUSABLE);
    check_number("NULL as kinds", bsmp_hear_unsigned(&learned, NULL, 0, 0, NULL, 0).refusal, BSMP_BOARD_UNUSABLE);
    check_number("NULL as kinds", bsmp_ask_signed(&learned, NULL, 0, 0, 0, NULL, 0), BSMP_BOARD_UNUSABLE);
    check_number("NULL as kinds", bsmp_ask_unsigned(&learned, NULL, 0, 0, 0, NULL, 0), BSMP_BOARD_UNUSABLE);
    learned = numbers_known();
    check_number("NULL as bytes", bsmp_hear_signed(&learned, kinds, KINDS, BIG, NULL, 0).refusal, BSMP_WRONG_BYTE_COUNT);
    check_number("NULL as bytes", bsmp_hear_unsigned(&learned, kinds, KINDS, WORD, NULL, 0).refusal, BSMP_WRONG_BYTE_COUNT);
    check_number("NULL to be written", bsmp_ask_signed(&learned, kinds, KINDS, BIG, 0, NULL, 0), BSMP_WRONG_BYTE_COUNT);
    check_number("NULL to be written", bsmp_ask_unsigned(&learned, kinds, KINDS, WORD, 0, NULL, 0), BSMP_WRONG_BYTE_COUNT);
}
