/* Blocks that aren't full: a write sets a block's length, a read and a sum go by it, and a fresh board makes all blocks full. And
 * lengths out of range, which make a board unusable; wrong counts of them are tried in tables.c. */
#include "subjects.h"

/* ---- The two blocks of board A ---- */

static void write_block(struct bench *bench, int way, unsigned block, const char *data)
{
    uint8_t bytes[32];
    char packet[96];
    snprintf(packet, sizeof packet, "05 41 00 %02X 00 00 %02X %.47s =", 3 + (unsigned)bytes_of(data, bytes), block, data);
    expect_packet(bench, way, packet, "00 E0 00 00 =");
}

static void expect_block_1(struct bench *bench, int way, const char *data)
{
    uint8_t bytes[32];
    char reply[96];
    unsigned count = (unsigned)bytes_of(data, bytes);
    snprintf(reply, sizeof reply, "00 41 00 %02X 00 00 01 %.47s =", 3 + count, data);
    expect_packet(bench, way, "05 40 00 03 00 00 01 =", reply);
    check_number("the length of block 0", bench->state.lengths[0], 4);
    check_number("the length of block 1", bench->state.lengths[1], count);
}

static void expect_sum(struct bench *bench, int way, const char *held)
{
    uint8_t bytes[32];
    struct bsmp_sum sum = bsmp_md5(bytes, bytes_of(held, bytes));
    expect_packet(bench, way, "05 42 00 01 00 =", "00 E0 00 00 =");
    check(memcmp(bench->state.sums, sum.bytes, BSMP_SUM_SIZE) == 0, held, "another sum");
}

/* One write after another, shorter ones and longer ones: the bytes past the length stay, and are neither sent nor summed. */
static void try_writes(int way)
{
    static const struct { const char *data, *stored; } writes[] = {
        {"53 70 69", "53 70 69 00"}, {"20 31 32 0A", "20 31 32 0A"}, {"6E", "6E 31 32 0A"}, {"AB CD", "AB CD 32 0A"},
        {"01 02 03", "01 02 03 0A"}, {"04 05 06", "04 05 06 0A"},
    };
    struct bench bench;
    start(&bench);
    for (size_t i = 0; i < sizeof writes / sizeof writes[0]; i++) {
        char held[32];
        snprintf(held, sizeof held, "00 00 00 00 %s", writes[i].data);
        write_block(&bench, way, 1, writes[i].data);
        check_text("41", way, text_of(bench.state.blocks + 4, 4).text, writes[i].stored);
        expect_block_1(&bench, way, writes[i].data);
        expect_sum(&bench, way, held);
    }
    end(&bench);
}

/* The same five bytes in both blocks, however they are divided, have the same sum. */
static void try_divided(int way)
{
    static const char *const divided[][2] = {
        {"53", "70 69 6E 20"}, {"53 70", "69 6E 20"}, {"53 70 69", "6E 20"}, {"53 70 69 6E", "20"},
    };
    struct bench bench;
    start(&bench);
    for (size_t i = 0; i < sizeof divided / sizeof divided[0]; i++) {
        write_block(&bench, way, 0, divided[i][0]);
        write_block(&bench, way, 1, divided[i][1]);
        expect_sum(&bench, way, "53 70 69 6E 20");
    }
    end(&bench);
}

/* To all, a write sets the length in silence, and an error sets none. */
static void try_multicast(int way)
{
    struct bench bench;
    start(&bench);
    expect_packet(&bench, way, "F8 41 00 05 00 00 01 AB CD =", "silence");
    expect_block_1(&bench, way, "AB CD");
    uint64_t before = digest(&bench);
    expect_packet(&bench, way, "F8 41 00 08 00 00 01 01 02 03 04 05 =", "silence");
    expect_packet(&bench, way, "F8 41 00 03 00 00 01 =", "silence");
    check(digest(&bench) == before, "41 to all, in error", "a store, a length, a sum or the group table changed");
    end(&bench);
}

/* What 41 is tested for goes by the block size, whatever the length is; and what writes no block sets no length. */
static void try_others(int way)
{
    static const struct result result = {0, true, false, 0, "AB CD"};
    static const uint8_t byte[] = {0x77};
    struct bench bench;
    start(&bench);
    write_block(&bench, way, 1, "53 70");
    expect_packet(&bench, way, "05 41 00 02 00 00 =", "00 E5 00 00 =");
    expect_packet(&bench, way, "05 41 00 04 01 00 01 AB =", "00 E3 00 00 =");
    expect_packet(&bench, way, "05 41 00 04 00 00 02 AB =", "00 E4 00 00 =");
    expect_packet(&bench, way, "05 41 00 03 00 00 01 =", "00 E5 00 00 =");
    expect_packet(&bench, way, "05 41 00 08 00 00 01 01 02 03 04 05 =", "00 E5 00 00 =");
    expect_packet(&bench, way, "05 20 00 02 01 66 =", "00 E0 00 00 =");
    expect_packet(&bench, way, "05 30 00 02 00 02 =", "00 E0 00 00 =");
    check_number("a board store", store_by(way, &bench, 1, byte, sizeof byte), 0);
    memset(bench.reply, UNTOUCHED, bench.room);
    struct bsmp_outcome outcome = result_by(way, &bench, &result);
    check_outcome("a function's result", way, &bench, &outcome, NULL, "00 51 00 02 AB CD =");
    expect_block_1(&bench, way, "53 70");
    end(&bench);
}

/* ---- Several curves ---- */

static const struct bsmp_curve curves[] = {
    {BSMP_WRITABLE, 4, 7}, {BSMP_READ_ONLY, 5, 2}, {BSMP_WRITABLE, 1, 2}, {BSMP_WRITABLE, BSMP_MOST_BLOCK_SIZE, 2}};
enum { CURVES = sizeof curves / sizeof curves[0], BLOCKS = 7 + 2 + 2 + 2 };

/* Where the lengths of a curve's blocks start. */
static size_t place_of(size_t curve)
{
    size_t place = 0;
    while (curve > 0) place += curves[--curve].blocks;
    return place;
}

/* A board may lend any lengths in range, those of read-only curves too. */
static void start_short(struct bench *bench)
{
    static const uint16_t lengths[BLOCKS] = {4, 4, 1, 3, 4, 2, 4, 3, 1, 1, 1, BSMP_MOST_BLOCK_SIZE - 1, 1};
    start(bench);
    memcpy(bench->curves, curves, sizeof curves);
    bench->board.curve_count = CURVES;
    fit_to_curves(bench);
    for (size_t i = 0; i < bench->state.blocks_length; i++) bench->state.blocks[i] = (uint8_t)(7 * i);
    memcpy(bench->state.lengths, lengths, sizeof lengths);
}

/* 40 is answered with the block's bytes, as many as its length says. */
static void expect_read(struct bench *bench, int way, size_t curve, size_t block, const uint8_t *stored)
{
    static uint8_t expected[BSMP_REPLY_ROOM];
    size_t length = bench->state.lengths[place_of(curve) + block], size = 3 + length;
    uint8_t packet[8] = {5, 0x40, 0, 3, (uint8_t)curve, 0, (uint8_t)block, 0};
    uint8_t front[7] = {0, 0x41, (uint8_t)(size >> 8), (uint8_t)size, (uint8_t)curve, 0, (uint8_t)block};
    packet[7] = bsmp_checksum(packet, 7);
    memcpy(expected, front, 7);
    memcpy(expected + 7, stored, length);
    expected[7 + length] = bsmp_checksum(expected, 7 + length);
    memset(bench->reply, UNTOUCHED, bench->room);
    struct bsmp_outcome outcome = packet_by(way, bench, packet, sizeof packet);
    check_outcome("40", way, bench, &outcome, packet, text_of(expected, 8 + length).text);
    check_number("40: the reply's length", outcome.length, 8 + length);
    check(memcmp(bench->reply, expected, 8 + length) == 0, "40", "other bytes");
}

static void try_reads(int way)
{
    struct bench bench;
    start_short(&bench);
    uint64_t before = digest(&bench);
    const uint8_t *stored = bench.state.blocks;
    for (size_t i = 0; i < CURVES; i++)
        for (size_t k = 0; k < curves[i].blocks; k++, stored += curves[i].block_size) expect_read(&bench, way, i, k, stored);
    check(digest(&bench) == before, "40", "a store, a length, a sum or the group table changed");
    end(&bench);
}

/* A write of one byte sets the one length, and of a read-only curve none. */
static void try_places(int way)
{
    struct bench bench;
    start_short(&bench);
    for (size_t i = 0; i < CURVES; i++) {
        for (size_t k = 0; k < curves[i].blocks; k++) {
            uint16_t said[BLOCKS];
            char packet[64];
            bool writable = curves[i].writable == BSMP_WRITABLE;
            memcpy(said, bench.state.lengths, sizeof said);
            if (writable) said[place_of(i) + k] = 1;
            snprintf(packet, sizeof packet, "05 41 00 04 %02X 00 %02X EE =", (unsigned)i, (unsigned)k);
            expect_packet(&bench, way, packet, writable ? "00 E0 00 00 =" : "00 E6 00 00 =");
            check(memcmp(bench.state.lengths, said, sizeof said) == 0, packet, "other lengths");
        }
    }
    end(&bench);
}

/* 42 of each curve, and no other sum or length changes. */
static void renew_all(struct bench *bench, int way)
{
    for (size_t i = 0; i < CURVES; i++) {
        uint8_t said[CURVES * BSMP_SUM_SIZE];
        char packet[32];
        uint64_t before = digest_but_sums(bench);
        struct bsmp_sum sum = sum_of(bench, i);
        memcpy(said, bench->state.sums, sizeof said);
        memcpy(said + BSMP_SUM_SIZE * i, sum.bytes, BSMP_SUM_SIZE);
        snprintf(packet, sizeof packet, "05 42 00 01 %02X =", (unsigned)i);
        expect_packet(bench, way, packet, "00 E0 00 00 =");
        check(memcmp(bench->state.sums, said, sizeof said) == 0, packet, "other sums");
        check(digest_but_sums(bench) == before, packet, "a store, a length or the group table changed");
    }
}

/* What the board changes past the lengths is nothing to the sums. */
static void try_summed(int way)
{
    struct bench bench;
    uint8_t sums[CURVES * BSMP_SUM_SIZE];
    start_short(&bench);
    renew_all(&bench, way);
    memcpy(sums, bench.state.sums, sizeof sums);
    uint8_t *block = bench.state.blocks;
    for (size_t i = 0; i < CURVES; i++)
        for (size_t k = 0; k < curves[i].blocks; k++, block += curves[i].block_size)
            for (size_t at = bench.state.lengths[place_of(i) + k]; at < curves[i].block_size; at++) block[at] ^= 0xFF;
    renew_all(&bench, way);
    check(memcmp(bench.state.sums, sums, sizeof sums) == 0, "42", "a sum covers bytes past a length");
    end(&bench);
}

static void expect_full(struct bench *bench, int way, const char *name)
{
    uint64_t before = digest_of_stores(bench);
    check_number(name, fresh_by(way, bench), 0);
    check(digest_of_stores(bench) == before, name, "a store or the group table changed");
    const uint8_t *held = bench->state.blocks;
    for (size_t i = 0; i < CURVES; i++) {
        size_t bytes = (size_t)curves[i].block_size * curves[i].blocks;
        struct bsmp_sum sum = bsmp_md5(held, bytes);
        held += bytes;
        check(memcmp(bench->state.sums + BSMP_SUM_SIZE * i, sum.bytes, BSMP_SUM_SIZE) == 0, name, "another sum");
        for (size_t k = 0; k < curves[i].blocks; k++) check_number(name, bench->state.lengths[place_of(i) + k], curves[i].block_size);
    }
}

/* A fresh board asks for as many lengths as there are blocks, and not what they are. */
static void try_fresh(int way)
{
    static const uint16_t lent[] = {0, 1, 5, BSMP_MOST_BLOCK_SIZE + 1, UINT16_MAX};
    struct bench bench;
    start_short(&bench);
    expect_full(&bench, way, "a fresh board");
    for (size_t i = 0; i < sizeof lent / sizeof lent[0]; i++) {
        for (size_t k = 0; k < BLOCKS; k++) bench.state.lengths[k] = lent[i];
        expect_full(&bench, way, "a fresh board with any lengths");
    }
    end(&bench);
}

/* ---- Lengths out of range ---- */

/* With one wrong length the board is unusable, to a write too, which would set a length; with that length set right, it is usable. */
static void try_wrong(struct bench *bench, int way, size_t place, uint16_t wrong)
{
    uint16_t right = bench->state.lengths[place];
    char name[64];
    snprintf(name, sizeof name, "length %u is %u", (unsigned)place, wrong);
    bench->state.lengths[place] = wrong;
    expect_unusable(bench, way, name);
    expect_packet(bench, way, "05 41 00 04 00 00 00 AB =", "refused 1");
    expect_packet(bench, way, "05 40 00 03 00 00 00 =", "refused 1");
    bench->state.lengths[place] = right;
    expect_packet(bench, way, "05 00 00 00 =", "00 01 00 03 02 14 00 =");
}

/* Curves of these block sizes, two blocks each, up to a size of 0. */
static void start_sized(struct bench *bench, const uint32_t *sizes)
{
    size_t count = 0;
    start(bench);
    for (; count < BSMP_MOST_CURVES && sizes[count] > 0; count++) {
        struct bsmp_curve curve = {BSMP_WRITABLE, sizes[count], 2};
        bench->curves[count] = curve;
    }
    bench->board.curve_count = count;
    fit_to_curves(bench);
}

/* Every length, where all curves have blocks of one size, and where one or some have another. */
static void try_out_of_range(int way)
{
    static const uint32_t sizes[][BSMP_MOST_CURVES] = {
        {4}, {3, 3, 3}, {4, 4, 2}, {4, 2, 4}, {2, 4, 4}, {8, 7, 6, 5, 4, 3, 2, 1}, {1, 1, 1, 1, 1, 1, 1, BSMP_MOST_BLOCK_SIZE},
    };
    for (size_t i = 0; i < sizeof sizes / sizeof sizes[0]; i++) {
        struct bench bench;
        start_sized(&bench, sizes[i]);
        for (size_t k = 0; k < bench.state.length_count; k++) {
            uint16_t size = bench.state.lengths[k];
            try_wrong(&bench, way, k, 0);
            try_wrong(&bench, way, k, (uint16_t)(size + 1));
            try_wrong(&bench, way, k, UINT16_MAX);
        }
        end(&bench);
    }
}

/* As many lengths as there can be, of blocks of one byte each. */
static void try_most_blocks(int way)
{
    struct bench bench;
    start(&bench);
    bench.curves[0].block_size = 1;
    bench.curves[0].blocks = BSMP_MOST_BLOCKS;
    fit_to_curves(&bench);
    bench.state.lengths[BSMP_MOST_BLOCKS / 2] = UINT16_MAX;
    check_number("a fresh board of the most blocks", fresh_by(way, &bench), 0);
    expect_packet(&bench, way, "05 40 00 03 00 FF FF =", "00 41 00 04 00 FF FF AA =");
    expect_packet(&bench, way, "05 41 00 04 00 FF FF 77 =", "00 E0 00 00 =");
    expect_packet(&bench, way, "05 40 00 03 00 FF FF =", "00 41 00 04 00 FF FF 77 =");
    try_wrong(&bench, way, 0, 2);
    try_wrong(&bench, way, BSMP_MOST_BLOCKS / 2, 0);
    try_wrong(&bench, way, BSMP_MOST_BLOCKS - 1, 2);
    end(&bench);
}

void try_block_lengths(int way)
{
    try_writes(way);
    try_divided(way);
    try_multicast(way);
    try_others(way);
    try_reads(way);
    try_places(way);
    try_summed(way);
    try_fresh(way);
    try_out_of_range(way);
    try_most_blocks(way);
}
