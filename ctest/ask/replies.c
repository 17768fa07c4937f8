/* Replies heard with a table of board A: what fits each request and what doesn't, and refusals 1, 2, 4, 5 and 13 in their order. */
#include "subjects.h"

static const uint8_t byte[] = {0x77};

struct heard_try {
    struct bsmp_request request;
    const char *reply, *heard;
};

static void try_all(int way, const struct heard_try *tries, size_t count)
{
    for (size_t i = 0; i < count; i++) {
        struct bsmp_learned learned = board_a_known();
        expect_heard(tries[i].reply, way, &learned, tries[i].request, tries[i].reply, tries[i].heard);
    }
}

/* The settled examples' replies, those of 01's table that have no settled example, and each a little off. */
static void try_answers(int way)
{
    const struct heard_try tries[] = {
        {bsmp_request_version(), "00 01 00 03 02 14 00 E6", "version at 4, 3: 02 14 00"},
        {bsmp_request_version(), "00 01 00 03 02 14 01 =", "refused 13"},
        {bsmp_request_version(), "00 01 00 03 02 13 00 =", "refused 13"},
        {bsmp_request_version(), "00 01 00 03 03 14 00 =", "refused 13"},
        {bsmp_request_version(), "00 01 00 02 02 14 =", "refused 13"},
        {bsmp_request_version(), "00 01 00 04 02 14 00 00 =", "refused 13"},
        {bsmp_request_version(), "00 03 00 03 02 14 00 =", "refused 13"},

        {bsmp_request_read_variable(0), "00 11 00 04 FF FF FF FD F1", "values at 4, 4: FF FF FF FD"},
        {bsmp_request_read_variable(2), "00 11 00 02 34 12 =", "values at 4, 2: 34 12"},
        {bsmp_request_read_variable(2), "00 11 00 01 34 =", "refused 13"}, /* a short value */
        {bsmp_request_read_variable(2), "00 11 00 03 34 12 00 =", "refused 13"},
        {bsmp_request_read_variable(2), "00 11 00 00 =", "refused 13"},
        {bsmp_request_read_variable(2), "00 13 00 02 34 12 =", "refused 13"},
        {bsmp_request_read_variable(3), "00 11 00 01 00 =", "refused 13"},
        {bsmp_request_read_variable(3), "00 E3 00 00 =", "error E3"},
        {bsmp_request_read_variable(256), "00 11 00 04 FF FF FF FD F1", "refused 13"},
        {bsmp_request_read_variable(SIZE_MAX), "00 11 00 04 FF FF FF FD F1", "refused 13"},

        {bsmp_request_read_group(0), "00 13 00 07 FF FF FF FD 5A 34 12 =", "values at 4, 7: FF FF FF FD 5A 34 12"},
        {bsmp_request_read_group(1), "00 13 00 04 FF FF FF FD =", "values at 4, 4: FF FF FF FD"},
        {bsmp_request_read_group(2), "00 13 00 03 5A 34 12 =", "values at 4, 3: 5A 34 12"},
        {bsmp_request_read_group(3), "00 13 00 06 FF FF FF FD 34 12 A7", "values at 4, 6: FF FF FF FD 34 12"},
        {bsmp_request_read_group(4), "00 13 00 01 5A =", "values at 4, 1: 5A"},
        {bsmp_request_read_group(3), "00 13 00 05 FF FF FF FD 34 =", "refused 13"},
        {bsmp_request_read_group(3), "00 13 00 07 FF FF FF FD 34 12 00 =", "refused 13"},
        {bsmp_request_read_group(4), "00 11 00 01 5A =", "refused 13"},
        {bsmp_request_read_group(5), "00 13 00 01 5A =", "refused 13"},
        {bsmp_request_read_group(SIZE_MAX), "00 13 00 01 5A =", "refused 13"},
        {bsmp_request_read_group(5), "00 E3 00 00 =", "error E3"},

        {bsmp_request_write_read(1, 1, byte, 1), "00 11 00 01 77 77", "values at 4, 1: 77"},
        {bsmp_request_write_read(1, 2, byte, 1), "00 11 00 02 34 12 =", "values at 4, 2: 34 12"},
        {bsmp_request_write_read(9, 2, byte, 1), "00 11 00 02 34 12 =", "values at 4, 2: 34 12"},
        {bsmp_request_write_read(2, 1, byte, 1), "00 11 00 02 34 12 =", "refused 13"},
        {bsmp_request_write_read(1, 3, byte, 1), "00 11 00 02 34 12 =", "refused 13"},
        {bsmp_request_write_read(1, 2, byte, 1), "00 E0 00 00 =", "refused 13"},

        {bsmp_request_read_block(0, 1), "00 41 00 07 00 00 01 00 00 00 00 B7", "block at 7, 4: 00 00 00 00"},
        {bsmp_request_read_block(0, 1), "00 41 00 04 00 00 01 AB =", "block at 7, 1: AB"},
        {bsmp_request_read_block(0, 1), "00 41 00 03 00 00 01 =", "refused 13"},
        {bsmp_request_read_block(0, 1), "00 41 00 08 00 00 01 00 00 00 00 00 =", "refused 13"},
        {bsmp_request_read_block(0, 1), "00 41 00 07 00 00 00 00 00 00 00 =", "refused 13"},
        {bsmp_request_read_block(0, 1), "00 41 00 07 00 01 01 00 00 00 00 =", "refused 13"},
        {bsmp_request_read_block(0, 1), "00 41 00 07 01 00 01 00 00 00 00 =", "refused 13"},
        {bsmp_request_read_block(0, 1), "00 40 00 07 00 00 01 00 00 00 00 =", "refused 13"},
        {bsmp_request_read_block(0, 1), "00 41 00 00 =", "refused 13"},
        {bsmp_request_read_block(0, 7), "00 41 00 04 00 00 07 AB =", "block at 7, 1: AB"},
        {bsmp_request_read_block(0, 65535), "00 41 00 04 00 FF FF AB =", "block at 7, 1: AB"},
        {bsmp_request_read_block(0, 65536 + 1), "00 41 00 04 00 00 01 AB =", "refused 13"},
        {bsmp_request_read_block(1, 0), "00 41 00 04 01 00 00 AB =", "refused 13"},
        {bsmp_request_read_block(256, 0), "00 41 00 04 00 00 00 AB =", "refused 13"},
        {bsmp_request_read_block(0, 2), "00 E4 00 00 1C", "error E4"},

        {bsmp_request_read_sum(0), "00 0B 00 10 00 01 02 03 04 05 06 07 08 09 0A 0B 0C 0D 0E 0F =",
         "sum at 4, 16: 00 01 02 03 04 05 06 07 08 09 0A 0B 0C 0D 0E 0F"},
        {bsmp_request_read_sum(0), "00 0B 00 0F 00 01 02 03 04 05 06 07 08 09 0A 0B 0C 0D 0E =", "refused 13"},
        {bsmp_request_read_sum(0), "00 0B 00 11 00 01 02 03 04 05 06 07 08 09 0A 0B 0C 0D 0E 0F 10 =", "refused 13"},
        {bsmp_request_read_sum(0), "00 0D 00 10 00 01 02 03 04 05 06 07 08 09 0A 0B 0C 0D 0E 0F =", "refused 13"},
        {bsmp_request_read_sum(1), "00 0B 00 10 00 01 02 03 04 05 06 07 08 09 0A 0B 0C 0D 0E 0F =", "refused 13"},

        {bsmp_request_run_function(0, byte, 1), "00 51 00 02 AB CD =", "output at 4, 2: AB CD"},
        {bsmp_request_run_function(0, byte, 1), "00 51 00 01 AB =", "refused 13"},
        {bsmp_request_run_function(0, byte, 1), "00 51 00 03 AB CD EF =", "refused 13"},
        {bsmp_request_run_function(0, byte, 1), "00 53 00 01 00 =", "failed 00"},
        {bsmp_request_run_function(0, byte, 1), "00 53 00 01 E3 =", "failed E3"},
        {bsmp_request_run_function(0, byte, 1), "00 53 00 00 =", "refused 13"},
        {bsmp_request_run_function(0, byte, 1), "00 53 00 02 AB CD =", "refused 13"},
        {bsmp_request_run_function(0, byte, 1), "00 52 00 02 AB CD =", "refused 13"},
        {bsmp_request_run_function(0, byte, 1), "00 E0 00 00 =", "refused 13"},
        {bsmp_request_run_function(1, byte, 1), "00 51 00 02 AB CD =", "refused 13"},
        {bsmp_request_run_function(1, byte, 1), "00 53 00 01 AB =", "refused 13"},
        {bsmp_request_run_function(1, byte, 1), "00 E3 00 00 =", "error E3"},
    };
    try_all(way, tries, COUNT(tries));
}

/* What is answered by E0 takes E0 without a payload and no other answer. */
static void try_done(int way)
{
    static const uint8_t ids[] = {0};
    const struct bsmp_request requests[] = {
        bsmp_request_write_variable(1, byte, 1),
        bsmp_request_write_variable(200, byte, 1),
        bsmp_request_write_group(2, byte, 1),
        bsmp_request_mask_variable(1, BSMP_MASK_SET, byte, 1),
        bsmp_request_mask_group(2, BSMP_MASK_SET, byte, 1),
        bsmp_request_make_group(ids, 1),
        bsmp_request_remove_groups(),
        bsmp_request_write_block(0, 1, byte, 1),
        bsmp_request_renew_sum(0),
    };
    for (size_t i = 0; i < COUNT(requests); i++) {
        const struct heard_try tries[] = {
            {requests[i], "00 E0 00 00 20", "done"},
            {requests[i], "00 E0 00 01 00 =", "refused 13"},
            {requests[i], "00 11 00 01 77 =", "refused 13"},
            {requests[i], "00 DF 00 00 =", "refused 13"},
        };
        try_all(way, tries, COUNT(tries));
    }
}

/* After any request, E1 to E8 without a payload is the error; with one, or at another code, it is none. */
static void try_errors(int way)
{
    const struct bsmp_request requests[] = {
        bsmp_request_version(),          bsmp_request_list_variables(),  bsmp_request_show_group(0),
        bsmp_request_read_variable(0),   bsmp_request_read_variable(9),  bsmp_request_read_group(1),
        bsmp_request_remove_groups(),    bsmp_request_read_block(0, 0),  bsmp_request_read_sum(5),
        bsmp_request_write_variable(1, byte, 1),  bsmp_request_run_function(0, byte, 1),
    };
    for (size_t i = 0; i < COUNT(requests); i++) {
        for (unsigned code = 0xE1; code <= 0xEA; code++) {
            char reply[32], heard[16];
            struct bsmp_learned learned = board_a_known();
            snprintf(reply, sizeof reply, "00 %02X 00 00 =", code);
            snprintf(heard, sizeof heard, code <= BSMP_WIRE_BUSY ? "error %02X" : "refused 13", code);
            expect_heard(reply, way, &learned, requests[i], reply, heard);
            snprintf(reply, sizeof reply, "00 %02X 00 01 00 =", code);
            expect_heard(reply, way, &learned, requests[i], reply, "refused 13");
        }
    }
}

/* What is no reply at all, whatever the request. */
static void try_frames(int way)
{
    const struct heard_try tries[] = {
        {bsmp_request_read_variable(1), "", "refused 4"},
        {bsmp_request_read_variable(1), "00", "refused 4"},
        {bsmp_request_read_variable(1), "01", "refused 4"},
        {bsmp_request_read_variable(1), "00 00", "refused 13"},
        {bsmp_request_read_variable(1), "00 01", "refused 5"},
        {bsmp_request_read_variable(1), "00 E1 1F", "refused 13"},
        {bsmp_request_read_variable(1), "00 E1 00 1F", "refused 13"},
        {bsmp_request_read_variable(1), "00 E1 00 00 1F", "error E1"},
        {bsmp_request_read_variable(1), "00 E1 00 00 20", "refused 5"},
        {bsmp_request_read_variable(1), "00 11 00 01 5A 94", "values at 4, 1: 5A"},
        {bsmp_request_read_variable(1), "00 11 00 01 5A 95", "refused 5"},
        {bsmp_request_read_variable(1), "05 11 00 01 5A =", "refused 13"}, /* for a node */
        {bsmp_request_read_variable(1), "FF 11 00 01 5A =", "refused 13"},
        {bsmp_request_read_variable(1), "00 11 00 02 5A =", "refused 13"}, /* SIZE */
        {bsmp_request_read_variable(1), "00 11 00 00 5A =", "refused 13"},
        {bsmp_request_read_variable(1), "00 11 01 01 5A =", "refused 13"},
        {bsmp_request_read_variable(1), "00 E1 00 01 =", "refused 13"},
        {bsmp_request_read_variable(1), "05 10 00 01 01 =", "refused 13"}, /* the request itself */
    };
    try_all(way, tries, COUNT(tries));
}

/* The longest reply, and one that is longer. */
static void try_longest(int way)
{
    static uint8_t reply[BSMP_MOST_PACKET + 1];
    const struct bsmp_request request = bsmp_request_read_block(3, 0x0102);
    for (size_t size = BSMP_MOST_BLOCK_SIZE - 1; size <= BSMP_MOST_BLOCK_SIZE; size++) {
        struct bsmp_learned learned = board_a_known();
        struct bsmp_curve curve = {BSMP_READ_ONLY, (uint32_t)size, 4};
        learned.curve_count = 4;
        learned.curves[1] = learned.curves[2] = learned.curves[3] = curve;
        memset(reply, 0, sizeof reply);
        reply[1] = 0x41;
        reply[2] = BSMP_MOST_PAYLOAD >> 8;
        reply[3] = BSMP_MOST_PAYLOAD & 0xFF;
        reply[4] = 3;
        reply[5] = 1;
        reply[6] = 2;
        reply[BSMP_MOST_PACKET - 1] = bsmp_checksum(reply, BSMP_MOST_PACKET - 1);
        struct bsmp_heard heard = hear_by(way, &learned, NODE, request, reply, BSMP_MOST_PACKET);
        bool fits = size == BSMP_MOST_BLOCK_SIZE;
        check_number("the longest reply", heard.kind, fits ? BSMP_HEARD_BLOCK : BSMP_HEARD_REFUSED);
        check_number("the longest reply: refusal", heard.refusal, fits ? BSMP_NOT_REFUSED : BSMP_REPLY_UNFIT);
        check_number("the longest reply: place", heard.place, fits ? 7 : 0);
        check_number("the longest reply: length", heard.length, fits ? BSMP_MOST_BLOCK_SIZE : 0);
        heard = hear_by(way, &learned, NODE, request, reply, BSMP_MOST_PACKET + 1);
        check_number("a longer reply", heard.refusal, BSMP_PACKET_LENGTH);
    }
}

/* Where the request went counts for nothing but this: nobody answers for many, and nobody is at other addresses. */
static void try_destinations(int way)
{
    static const uint8_t good[] = {0x00, 0x11, 0x00, 0x01, 0x5A, 0x94}, error[] = {0x00, 0xE8, 0x00, 0x00, 0x18};
    for (unsigned to = 0; to < 256; to++) {
        struct bsmp_learned learned = board_a_known();
        bool one = to >= 1 && to <= 31, many = to >= 248;
        const struct bsmp_request request = bsmp_request_read_variable(1);
        expect_heard_bytes("a reply from a destination", way, &learned, (uint8_t)to, request, good, sizeof good,
                           one ? "values at 4, 1: 5A" : many ? "refused 13" : "refused 2");
        expect_heard_bytes("an error from a destination", way, &learned, (uint8_t)to, request, error, sizeof error,
                           one ? "error E8" : many ? "refused 13" : "refused 2");
        expect_heard_bytes("no reply from a destination", way, &learned, (uint8_t)to, request, NULL, 0,
                           one || many ? "refused 4" : "refused 2");
        expect_heard_bytes("half a reply from a destination", way, &learned, (uint8_t)to, request, good, 5,
                           one || many ? "refused 5" : "refused 2");
    }
}

/* Codes and operations that there are none of: nothing fits, and the other refusals come before that. No table counts for them. */
static void try_no_request(int way)
{
    static const uint8_t done[] = {0x00, 0xE0, 0x00, 0x00, 0x20}, error[] = {0x00, 0xE2, 0x00, 0x00, 0x1E};
    for (unsigned n = 0; n < 256; n++) {
        struct bsmp_learned learned = n % 2 == 0 ? board_a_known() : nothing_known();
        struct bsmp_request request = {BSMP_COMMAND_MASK_GROUP, (uint8_t)n, 0, 0, 0, byte, 1};
        bool known = n == 0x53 || n == 0x4F || n == 0x43 || n == 0x54 || n == 0x58 || n == 0x41;
        expect_heard_bytes("an operation", way, &learned, NODE, request, done, sizeof done, known ? "done" : "refused 13");
        expect_heard_bytes("an operation", way, &learned, NODE, request, error, sizeof error, known ? "error E2" : "refused 13");
    }
    struct bsmp_learned learned = nothing_known();
    struct bsmp_request none = {0x7F, 0, 0, 0, 0, NULL, 0};
    expect_heard_bytes("no such request", way, &learned, NODE, none, error, sizeof error, "refused 13");
    expect_heard_bytes("no such request", way, &learned, NODE, none, error, 4, "refused 5");
    expect_heard_bytes("no such request", way, &learned, NODE, none, NULL, 0, "refused 4");
    expect_heard_bytes("no such request", way, &learned, 0, none, NULL, 0, "refused 2");
}

void try_replies(int way)
{
    try_answers(way);
    try_done(way);
    try_errors(way);
    try_frames(way);
    try_longest(way);
    try_destinations(way);
    try_no_request(way);
}

/* ---- Whether the table is usable: refusal 1, where it counts ---- */

/* What breaks a table of board A, or is at its limit. */
struct table_try {
    const char *name;
    void (*change)(struct bsmp_learned *);
    bool usable;
};

static void no_variable(struct bsmp_learned *x) { x->variable_count = 0; }
static void all_variables(struct bsmp_learned *x) { x->variable_count = 64; memset(x->sizes + 3, 1, 61); }
static void variables_65(struct bsmp_learned *x) { all_variables(x); x->variable_count = 65; }
static void variables_most(struct bsmp_learned *x) { x->variable_count = UINT64_MAX; }
static void variables_around(struct bsmp_learned *x) { x->variable_count = (UINT64_C(1) << 32) + 3; }
static void size_0(struct bsmp_learned *x) { x->sizes[2] = 0; }
static void size_127(struct bsmp_learned *x) { x->sizes[2] = 127; }
static void size_128(struct bsmp_learned *x) { x->sizes[2] = 128; }
static void size_255(struct bsmp_learned *x) { x->sizes[2] = 255; }
static void place_255(struct bsmp_learned *x) { x->sizes[3] = 255; }
static void bytes_4096(struct bsmp_learned *x)
{
    all_variables(x);
    memset(x->sizes, 68, 60); /* 4,080 */
    memset(x->sizes + 60, 4, 4);
    x->sets[0] = UINT64_C(1) << 63;
}
static void bytes_4097(struct bsmp_learned *x) { bytes_4096(x); x->sizes[63] = 5; }
static void all_marks(struct bsmp_learned *x) { x->writable = UINT64_MAX; }
static void groups_5(struct bsmp_learned *x) { x->group_count = 5; for (int i = 0; i < 5; i++) x->sets[i] = 7; }
static void groups_6(struct bsmp_learned *x) { groups_5(x); x->group_count = 6; }
static void groups_most(struct bsmp_learned *x) { groups_5(x); x->group_count = UINT64_MAX; }
static void set_empty(struct bsmp_learned *x) { x->sets[1] = 0; }
static void set_wide(struct bsmp_learned *x) { x->sets[1] = 8; }
static void set_top(struct bsmp_learned *x) { x->sets[0] = (UINT64_C(1) << 63) + 1; }
static void set_past(struct bsmp_learned *x) { x->sets[2] = UINT64_MAX; }
static void no_curve(struct bsmp_learned *x) { x->curve_count = 0; }
static void curves_8(struct bsmp_learned *x) { x->curve_count = 8; for (int i = 0; i < 8; i++) x->curves[i] = board_a_curves[0]; }
static void curves_9(struct bsmp_learned *x) { curves_8(x); x->curve_count = 9; }
static void curves_most(struct bsmp_learned *x) { curves_8(x); x->curve_count = UINT64_MAX; }
static void type_2(struct bsmp_learned *x) { x->curves[0].writable = 2; }
static void block_0(struct bsmp_learned *x) { x->curves[0].block_size = 0; }
static void block_4096(struct bsmp_learned *x) { x->curves[0].block_size = 4096; }
static void block_4097(struct bsmp_learned *x) { x->curves[0].block_size = 4097; }
static void blocks_0(struct bsmp_learned *x) { x->curves[0].blocks = 0; }
static void blocks_65536(struct bsmp_learned *x) { x->curves[0].block_size = 1; x->curves[0].blocks = 65536; }
static void blocks_65537(struct bsmp_learned *x) { x->curves[0].block_size = 1; x->curves[0].blocks = 65537; }
static void blocks_most(struct bsmp_learned *x) { x->curves[0].block_size = 1; x->curves[0].blocks = UINT32_MAX; }
static void curve_bytes_too_many(struct bsmp_learned *x) { blocks_65536(x); x->curve_count = 2; x->curves[1] = board_a_curves[0]; }
static void curve_bytes_far_too_many(struct bsmp_learned *x)
{
    curves_8(x);
    for (int i = 0; i < 8; i++) { x->curves[i].block_size = 4096; x->curves[i].blocks = 65536; }
}
static void functions_0(struct bsmp_learned *x) { x->function_count = 0; }
static void functions_16(struct bsmp_learned *x) { x->function_count = 16; }
static void functions_17(struct bsmp_learned *x) { x->function_count = 17; }
static void functions_most(struct bsmp_learned *x) { x->function_count = UINT64_MAX; }
static void input_15(struct bsmp_learned *x) { x->functions[0].input = 15; }
static void input_16(struct bsmp_learned *x) { x->functions[0].input = 16; }
static void output_16(struct bsmp_learned *x) { x->functions[0].output = 16; }
static void function_past(struct bsmp_learned *x) { x->functions[1].output = 16; }

static const struct table_try tables[] = {
    {"no variable", no_variable, false},        {"64 variables", all_variables, true},   {"65 variables", variables_65, false},
    {"most variables", variables_most, false},  {"2^32 + 3 variables", variables_around, false},
    {"a size of 0", size_0, false},             {"a size of 127", size_127, true},       {"a size of 128", size_128, false},
    {"a size of 255", size_255, false},         {"a size past them", place_255, true},   {"4,096 bytes", bytes_4096, true},
    {"4,097 bytes", bytes_4097, false},         {"all marks", all_marks, true},          {"5 groups", groups_5, true},
    {"6 groups", groups_6, false},              {"most groups", groups_most, false},     {"an empty set", set_empty, false},
    {"a wide set", set_wide, false},            {"a set with the top bit", set_top, false}, {"a set past them", set_past, true},
    {"no curve", no_curve, true},               {"8 curves", curves_8, true},            {"9 curves", curves_9, false},
    {"most curves", curves_most, false},        {"type 2", type_2, false},               {"a block of 0", block_0, false},
    {"a block of 4,096", block_4096, true},     {"a block of 4,097", block_4097, false}, {"0 blocks", blocks_0, false},
    {"65,536 blocks", blocks_65536, true},      {"65,537 blocks", blocks_65537, false},  {"most blocks", blocks_most, false},
    {"65,544 bytes", curve_bytes_too_many, false}, {"2^31 bytes", curve_bytes_far_too_many, false},
    {"no function", functions_0, true},         {"16 functions", functions_16, true},    {"17 functions", functions_17, false},
    {"most functions", functions_most, false},  {"an input of 15", input_15, true},      {"an input of 16", input_16, false},
    {"an output of 16", output_16, false},      {"an output past them", function_past, true},
};

void try_usable(int way)
{
    static const uint8_t error[] = {0x00, 0xE8, 0x00, 0x00, 0x18};
    const struct bsmp_request sized[] = {
        bsmp_request_read_sum(0),       bsmp_request_read_variable(0),   bsmp_request_read_group(0),
        bsmp_request_read_block(0, 0),  bsmp_request_run_function(0, byte, 1), bsmp_request_write_read(1, 0, byte, 1),
    };
    const struct bsmp_request others[] = {
        bsmp_request_version(),        bsmp_request_list_variables(), bsmp_request_list_groups(),
        bsmp_request_show_group(3),    bsmp_request_list_curves(),    bsmp_request_list_functions(),
        bsmp_request_write_variable(1, byte, 1), bsmp_request_write_group(2, byte, 1),
        bsmp_request_mask_variable(1, BSMP_MASK_OR, byte, 1), bsmp_request_mask_group(2, BSMP_MASK_OR, byte, 1),
        bsmp_request_make_group(byte, 1), bsmp_request_remove_groups(), bsmp_request_write_block(0, 0, byte, 1),
        bsmp_request_renew_sum(0),
    };
    check_number("requests", COUNT(sized) + COUNT(others), 20);
    for (size_t i = 0; i < COUNT(tables); i++) {
        struct bsmp_learned learned = board_a_known();
        tables[i].change(&learned);
        const char *name = tables[i].name, *not_1 = tables[i].usable ? "error E8" : "refused 1";
        for (size_t r = 0; r < COUNT(sized); r++) {
            expect_heard_bytes(name, way, &learned, NODE, sized[r], error, sizeof error, not_1);
            /* it comes before all others */
            expect_heard_bytes(name, way, &learned, 0, sized[r], NULL, 0, tables[i].usable ? "refused 2" : "refused 1");
        }
        for (size_t r = 0; r < COUNT(others); r++)
            expect_heard_bytes(name, way, &learned, NODE, others[r], error, sizeof error, "error E8");
        check_number(name, bsmp_hear_place(&learned, 0, 0).refusal, tables[i].usable ? BSMP_NOT_REFUSED : BSMP_BOARD_UNUSABLE);
        check_number(name, bsmp_hear_place(&learned, 9, 99).refusal, tables[i].usable ? BSMP_NO_SUCH_VARIABLE : BSMP_BOARD_UNUSABLE);
    }
}
