/* The sums of several curves: those of a fresh board, stale ones, and 42, which renews one. And MD5 itself, by which they are told here. */
#include "subjects.h"

/* A byte; a chunk of MD5, 64 bytes; a byte more than that, in blocks; and blocks of the largest size. */
static const struct bsmp_curve curves[] = {
    {BSMP_WRITABLE, 1, 1}, {BSMP_READ_ONLY, 64, 1}, {BSMP_WRITABLE, 5, 13}, {BSMP_READ_ONLY, BSMP_MOST_BLOCK_SIZE, 3}};
enum { CURVES = sizeof curves / sizeof curves[0] };

struct drum {
    int way;
    struct bench bench;
    uint8_t said[CURVES * BSMP_SUM_SIZE]; /* the sums as they should be */
};

/* The sums are still to be worked out. All variables are busy, which is nothing to a curve. */
static void start_drum(struct drum *drum, int way)
{
    struct bench *bench = &drum->bench;
    drum->way = way;
    start(bench);
    memcpy(bench->curves, curves, sizeof curves);
    bench->board.curve_count = CURVES;
    bench->busy = UINT64_MAX;
    fit_to_curves(bench);
    for (size_t i = 0; i < bench->state.blocks_length; i++) bench->state.blocks[i] = (uint8_t)(7 * i);
    memcpy(drum->said, bench->state.sums, sizeof drum->said);
}

/* From now on the sum of this curve should be that of what it holds. */
static void say_sum(struct drum *drum, size_t curve)
{
    struct bsmp_sum sum = sum_of(&drum->bench, curve);
    memcpy(drum->said + BSMP_SUM_SIZE * curve, sum.bytes, BSMP_SUM_SIZE);
}

/* The sums are as they should be, and 0A answers each. */
static void check_sums(struct drum *drum, const char *name)
{
    check(memcmp(drum->bench.state.sums, drum->said, sizeof drum->said) == 0, name, "other sums");
    for (size_t i = 0; i < CURVES; i++) {
        char packet[32], reply[96];
        snprintf(packet, sizeof packet, "05 0A 00 01 %02X =", (unsigned)i);
        snprintf(reply, sizeof reply, "00 0B 00 10 %.47s =", text_of(drum->said + BSMP_SUM_SIZE * i, BSMP_SUM_SIZE).text);
        expect_packet(&drum->bench, drum->way, packet, reply);
    }
}

static void make_fresh(struct drum *drum)
{
    uint64_t before = digest_but_sums(&drum->bench);
    check_number("a fresh board", fresh_by(drum->way, &drum->bench), 0);
    check(digest_but_sums(&drum->bench) == before, "a fresh board", "a store, a length or the group table changed");
    for (size_t i = 0; i < CURVES; i++) say_sum(drum, i);
    check_sums(drum, "a fresh board");
}

static void renew(struct drum *drum, size_t curve)
{
    char packet[32];
    uint64_t before = digest_but_sums(&drum->bench);
    snprintf(packet, sizeof packet, "05 42 00 01 %02X =", (unsigned)curve);
    expect_packet(&drum->bench, drum->way, packet, "00 E0 00 00 =");
    check(digest_but_sums(&drum->bench) == before, packet, "a store, a length or the group table changed");
    say_sum(drum, curve);
    check_sums(drum, packet);
}

static void try_fresh(int way)
{
    struct drum drum;
    start_drum(&drum, way);
    check_sums(&drum, "sums that nobody worked out");
    make_fresh(&drum);
    drum.bench.state.blocks[drum.bench.state.blocks_length - 1] ^= 1;
    check_sums(&drum, "a byte that the board changed");
    make_fresh(&drum);
    end(&drum.bench);
}

static void try_renewals(int way)
{
    struct drum drum;
    start_drum(&drum, way);
    for (size_t i = CURVES; i > 0; i--) renew(&drum, i - 1);
    end(&drum.bench);
}

/* What changes a curve leaves its sum stale, and what concerns no curve leaves all sums. */
static void try_stale(int way)
{
    static const struct result result = {0, true, false, 0, "AB CD"};
    static const uint8_t byte[] = {0x77};
    struct drum drum;
    start_drum(&drum, way);
    make_fresh(&drum);
    expect_packet(&drum.bench, way, "05 41 00 04 02 00 0C EE =", "00 E0 00 00 =");
    check_sums(&drum, "41");
    expect_packet(&drum.bench, way, "05 41 00 04 01 00 00 EE =", "00 E6 00 00 =");
    check_number("a board store", store_by(way, &drum.bench, 1, byte, sizeof byte), 0);
    struct bsmp_outcome outcome = result_by(way, &drum.bench, &result);
    check_outcome("a function's result", way, &drum.bench, &outcome, NULL, "00 51 00 02 AB CD =");
    check_sums(&drum, "a board store and a function's result");
    renew(&drum, 0);
    uint64_t stale = digest(&drum.bench);
    renew(&drum, 2);
    check(digest(&drum.bench) != stale, "42", "the sum was not stale");
    end(&drum.bench);
}

void try_sums(int way)
{
    try_fresh(way);
    try_renewals(way);
    try_stale(way);
}

/* ---- MD5 ---- */

/* In the end of a heap block, so that a memory checker sees a byte too far, and from any place, aligned or not. */
static void expect_md5(const char *name, const uint8_t *message, size_t length, const char *expected)
{
    for (size_t before = 0; before < 4; before++) {
        uint8_t *block = heap(before + length);
        char printed[2 * BSMP_SUM_SIZE + 1];
        if (length > 0) memcpy(block + before, message, length);
        struct bsmp_sum sum = bsmp_md5(block + before, length);
        for (size_t i = 0; i < BSMP_SUM_SIZE; i++) snprintf(printed + 2 * i, 3, "%02x", sum.bytes[i]);
        check_text(name, RAW, printed, expected);
        free(block);
    }
}

/* The suite of RFC 1321, A.5. */
static void try_rfc_suite(void)
{
    static const struct { const char *message, *sum; } tries[] = {
        {"", "d41d8cd98f00b204e9800998ecf8427e"},
        {"a", "0cc175b9c0f1b6a831c399e269772661"},
        {"abc", "900150983cd24fb0d6963f7d28e17f72"},
        {"message digest", "f96b697d7cb7938d525a2f31aaf161d0"},
        {"abcdefghijklmnopqrstuvwxyz", "c3fcd3d76192e4007dfb496cca67e13b"},
        {"ABCDEFGHIJKLMNOPQRSTUVWXYZabcdefghijklmnopqrstuvwxyz0123456789", "d174ab98d277d9f5a5611c2c9f419d9f"},
        {"12345678901234567890123456789012345678901234567890123456789012345678901234567890", "57edf4a22be3c955ac49da2e2107b67a"},
    };
    for (size_t i = 0; i < sizeof tries / sizeof tries[0]; i++)
        expect_md5("RFC 1321's suite", (const uint8_t *)tries[i].message, strlen(tries[i].message), tries[i].sum);
}

/* 00 01 02 .. of lengths at which the padding and the length go into another chunk, or a chunk is full. */
static void try_md5_lengths(void)
{
    static const struct { size_t length; const char *sum; } tries[] = {
        {54, "33dd62a2df6538daf1cf821d9cde61f9"},  {55, "6912ee65fff2d9f9ce2508cddf8bcda0"},
        {56, "51fdd1acda72405dfdfa03fcb85896d7"},  {57, "5320ef4c17ef34a0cf2db763338d25eb"},
        {63, "48a6295221902e8e0938f773a7185e72"},  {64, "b2d3f56bc197fd985d5965079b5e7148"},
        {65, "8bd7053801c768420faf816fadba971c"},  {119, "1c772251899a7ff007400b888d6b2042"},
        {120, "b7ba1efc6022e9ed272f00b8831e26e6"}, {127, "8402b21e7bc7906493bae0dac017f1f9"},
        {128, "37eff01866ba3f538421b30b7cbefcac"}, {129, "46f986692847558fc38b0cece591c20f"},
        {BSMP_MOST_CURVE_BYTES, "8f1445bafe2c2095044af7789462f475"},
    };
    static uint8_t message[BSMP_MOST_CURVE_BYTES];
    for (size_t i = 0; i < sizeof message; i++) message[i] = (uint8_t)i;
    for (size_t i = 0; i < sizeof tries / sizeof tries[0]; i++)
        expect_md5("a message of such a length", message, tries[i].length, tries[i].sum);
}

void try_md5(void)
{
    struct bsmp_sum of_null = bsmp_md5(NULL, 0), of_nothing = bsmp_md5((const uint8_t *)"", 0);
    check(memcmp(&of_null, &of_nothing, sizeof of_null) == 0, "NULL as a message", "another sum");
    try_rfc_suite();
    try_md5_lengths();
}
