/* What a table learns: board A from its lists, lists at their limits, and the groups followed. */
#include "subjects.h"

/* ---- A node that is asked: board A, by all that can be asked of it ---- */

struct line {
    int way;
    struct bench bench;
    struct bsmp_learned learned;
};

static void start_line(struct line *line, int way)
{
    line->way = way;
    start(&line->bench);
    line->learned = nothing_known();
}

/* Asks, lets the node answer (a function gives AB CD, or fails with 07 for an input of FF), and hears. */
static void expect_told(struct line *line, const char *name, struct bsmp_request request, const char *expected)
{
    static const struct result gave = {0, true, false, 0, "AB CD"}, did_not = {0, true, true, 7, ""};
    uint8_t *packet = heap(BSMP_REQUEST_ROOM);
    struct bsmp_asked asked = ask_by(line->way, NODE, request, packet, BSMP_REQUEST_ROOM);
    check_number(name, asked.refusal, BSMP_NOT_REFUSED);
    struct bsmp_outcome outcome = packet_by(INLINE, &line->bench, packet, asked.length);
    if (outcome.kind == BSMP_RUN)
        outcome = result_by(INLINE, &line->bench, outcome.length > 0 && packet[outcome.input] == 0xFF ? &did_not : &gave);
    check_number(name, outcome.kind, BSMP_REPLY);
    expect_heard_bytes(name, line->way, &line->learned, NODE, request, line->bench.reply, outcome.length, expected);
    free(packet);
}

static void learn(struct line *line)
{
    expect_told(line, "02", bsmp_request_list_variables(), "variables at 4, 3: 04 81 82");
    expect_table("02", line->way, &line->learned, "4r 1w 2w");
    expect_told(line, "04", bsmp_request_list_groups(), "groups at 4, 3: 03 01 82");
    expect_told(line, "08", bsmp_request_list_curves(), "curves at 4, 1: 01 00 04 00 02");
    expect_table("08", line->way, &line->learned, "4r 1w 2w; 4wx2");
    expect_told(line, "0C", bsmp_request_list_functions(), "functions at 4, 1: 12");
    expect_table("0C", line->way, &line->learned, "4r 1w 2w; 4wx2; 1>2");
}

static void ask_values(struct line *line)
{
    static const uint8_t values[] = {0x77, 0xCD, 0xAB}, mask[] = {0x0F, 0xFF, 0x00}, zeros[4] = {0};
    expect_told(line, "10", bsmp_request_read_variable(0), "values at 4, 4: FF FF FF FD");
    expect_told(line, "10", bsmp_request_read_variable(3), "error E3");
    expect_told(line, "20", bsmp_request_write_variable(0, zeros, 4), "error E6");
    expect_told(line, "20", bsmp_request_write_variable(1, values, 1), "done");
    expect_told(line, "20", bsmp_request_write_variable(1, values, 2), "error E5");
    expect_told(line, "12", bsmp_request_read_group(2), "values at 4, 3: 77 34 12");
    expect_told(line, "22", bsmp_request_write_group(2, values, 3), "done");
    expect_told(line, "12", bsmp_request_read_group(0), "values at 4, 7: FF FF FF FD 77 CD AB");
    expect_told(line, "24", bsmp_request_mask_variable(1, BSMP_MASK_CLEAR, mask, 1), "done");
    expect_told(line, "10", bsmp_request_read_variable(1), "values at 4, 1: 70");
    expect_told(line, "26", bsmp_request_mask_group(2, BSMP_MASK_TOGGLE, mask, 3), "done");
    expect_told(line, "12", bsmp_request_read_group(2), "values at 4, 3: 7F 32 AB");
    expect_told(line, "28", bsmp_request_write_read(1, 1, values, 1), "values at 4, 1: 77");
    expect_told(line, "28", bsmp_request_write_read(1, 0, mask, 1), "values at 4, 4: FF FF FF FD");
    line->bench.busy = 2;
    expect_told(line, "busy", bsmp_request_read_variable(1), "error E8");
    line->bench.busy = 0;
}

static void ask_groups(struct line *line)
{
    static const uint8_t ids[] = {2, 0}, twice[] = {1, 1}, one[] = {1}, unknown[] = {3};
    expect_told(line, "30", bsmp_request_make_group(ids, 2), "done");
    expect_table("30", line->way, &line->learned, "4r 1w 2w; 3 is 5; 4wx2; 1>2");
    expect_told(line, "12", bsmp_request_read_group(3), "values at 4, 6: FF FF FF FD 32 AB");
    expect_told(line, "06", bsmp_request_show_group(3), "members at 4, 2: 00 02");
    expect_told(line, "06", bsmp_request_show_group(1), "members at 4, 1: 00");
    expect_told(line, "06", bsmp_request_show_group(4), "error E3");
    expect_told(line, "30", bsmp_request_make_group(twice, 2), "error E4");
    expect_told(line, "30", bsmp_request_make_group(unknown, 1), "error E3");
    expect_told(line, "30", bsmp_request_make_group(NULL, 0), "error E5");
    for (int i = 0; i < 4; i++) expect_told(line, "30", bsmp_request_make_group(one, 1), "done");
    expect_told(line, "30", bsmp_request_make_group(one, 1), "error E7");
    expect_table("30", line->way, &line->learned, "4r 1w 2w; 3 is 5; 4 is 2; 5 is 2; 6 is 2; 7 is 2; 4wx2; 1>2");
    expect_told(line, "04", bsmp_request_list_groups(), "groups at 4, 8: 03 01 82 02 81 81 81 81");
    expect_told(line, "12", bsmp_request_read_group(7), "values at 4, 1: 0F");
    expect_told(line, "32", bsmp_request_remove_groups(), "done");
    expect_table("32", line->way, &line->learned, "4r 1w 2w; 4wx2; 1>2");
    expect_told(line, "12", bsmp_request_read_group(3), "error E3");
    expect_told(line, "30", bsmp_request_make_group(one, 1), "done");
    expect_table("30", line->way, &line->learned, "4r 1w 2w; 3 is 2; 4wx2; 1>2");
}

static void ask_curves_and_functions(struct line *line)
{
    static const uint8_t data[] = {0xAB, 0xCD, 0xEF}, input[] = {0x07}, wrong[] = {0xFF};
    uint8_t held[] = {0, 0, 0, 0, 0xAB, 0xCD, 0xEF};
    char expected[96];
    expect_told(line, "40", bsmp_request_read_block(0, 1), "block at 7, 4: 00 00 00 00");
    expect_told(line, "41", bsmp_request_write_block(0, 1, data, 3), "done");
    expect_told(line, "40", bsmp_request_read_block(0, 1), "block at 7, 3: AB CD EF");
    expect_told(line, "40", bsmp_request_read_block(0, 2), "error E4");
    expect_told(line, "40", bsmp_request_read_block(1, 0), "error E3");
    expect_told(line, "42", bsmp_request_renew_sum(0), "done");
    struct bsmp_sum sum = bsmp_md5(held, sizeof held);
    snprintf(expected, sizeof expected, "sum at 4, 16: %.48s", text_of(sum.bytes, sizeof sum.bytes).text);
    expect_told(line, "0A", bsmp_request_read_sum(0), expected);
    expect_told(line, "50", bsmp_request_run_function(0, input, 1), "output at 4, 2: AB CD");
    expect_told(line, "50", bsmp_request_run_function(0, wrong, 1), "failed 07");
    expect_told(line, "50", bsmp_request_run_function(0, NULL, 0), "error E5");
    expect_told(line, "50", bsmp_request_run_function(1, input, 1), "error E3");
}

/* Somebody else made groups: 04 and 06 learn them, in order. */
static void learn_groups(struct line *line)
{
    line->bench.state.groups.count = 3;
    line->bench.state.groups.sets[0] = 1;
    line->bench.state.groups.sets[1] = 6;
    line->bench.state.groups.sets[2] = 7;
    expect_told(line, "04", bsmp_request_list_groups(), "groups at 4, 6: 03 01 82 01 82 03");
    expect_table("04", line->way, &line->learned, "4r 1w 2w; 3 is 2; 4wx2; 1>2");
    expect_told(line, "06", bsmp_request_show_group(5), "members at 4, 3: 00 01 02"); /* too soon */
    expect_told(line, "06", bsmp_request_show_group(3), "members at 4, 1: 00");
    expect_table("06", line->way, &line->learned, "4r 1w 2w; 3 is 1; 4wx2; 1>2");
    expect_told(line, "06", bsmp_request_show_group(4), "members at 4, 2: 01 02");
    expect_told(line, "06", bsmp_request_show_group(5), "members at 4, 3: 00 01 02");
    expect_table("06", line->way, &line->learned, "4r 1w 2w; 3 is 1; 4 is 6; 5 is 7; 4wx2; 1>2");
    line->bench.state.groups.count = 1;
    expect_told(line, "04", bsmp_request_list_groups(), "groups at 4, 4: 03 01 82 01");
    expect_table("04", line->way, &line->learned, "4r 1w 2w; 3 is 1; 4wx2; 1>2");
    expect_told(line, "02", bsmp_request_list_variables(), "variables at 4, 3: 04 81 82");
    expect_table("02", line->way, &line->learned, "4r 1w 2w; 4wx2; 1>2");
}

void try_board_a(int way)
{
    struct line line;
    start_line(&line, way);
    expect_told(&line, "00", bsmp_request_version(), "version at 4, 3: 02 14 00");
    expect_told(&line, "10, too soon", bsmp_request_read_variable(0), "refused 1");
    learn(&line);
    ask_values(&line);
    ask_groups(&line);
    ask_curves_and_functions(&line);
    learn_groups(&line);
    end(&line.bench);
}

/* ---- Lists, at their limits ---- */

/* A list of so many times this record, in a reply. */
static size_t list_of(uint8_t code, const uint8_t *record, size_t size, size_t count, uint8_t *reply)
{
    size_t length = size * count + 5;
    reply[0] = 0;
    reply[1] = code;
    reply[2] = (uint8_t)(size * count >> 8);
    reply[3] = (uint8_t)(size * count);
    for (size_t i = 0; i < count; i++) memcpy(reply + 4 + size * i, record, size);
    reply[length - 1] = bsmp_checksum(reply, length - 1);
    return length;
}

static void expect_list(int way, struct bsmp_request request, uint8_t code, const char *record, size_t count, bool fits)
{
    static uint8_t reply[BSMP_MOST_PACKET];
    struct bsmp_learned learned = board_a_known(), before = learned;
    uint8_t bytes[32];
    size_t size = bytes_of(record, bytes), length = list_of(code, bytes, size, count, reply);
    struct bsmp_heard heard = hear_by(way, &learned, NODE, request, reply, length);
    check_number(record, heard.refusal, fits ? BSMP_NOT_REFUSED : BSMP_REPLY_UNFIT);
    check_number(record, heard.length, fits ? count : 0);
    check_number(record, heard.place, fits ? 4 : 0);
    check(fits || memcmp(&before, &learned, sizeof before) == 0, record, "the table changed");
    if (!fits) return;
    uint64_t told = code == 0x03 ? learned.variable_count : code == 0x09 ? learned.curve_count : learned.function_count;
    check_number(record, told, count);
}

static void try_whole_lists(int way)
{
    const struct bsmp_request variables = bsmp_request_list_variables(), curves = bsmp_request_list_curves(),
                              functions = bsmp_request_list_functions();
    expect_list(way, variables, 0x03, "01", 0, false);
    expect_list(way, variables, 0x03, "01", 1, true);
    expect_list(way, variables, 0x03, "81", 64, true);
    expect_list(way, variables, 0x03, "01", 65, false);
    expect_list(way, variables, 0x03, "40", 64, true); /* 4,096 bytes */
    expect_list(way, variables, 0x03, "41", 63, true); /* 4,095 */
    expect_list(way, variables, 0x03, "41", 64, false);
    expect_list(way, variables, 0x03, "7F", 32, true);
    expect_list(way, variables, 0x03, "FF", 33, false);
    expect_list(way, variables, 0x03, "00", 1, false);
    expect_list(way, variables, 0x03, "80", 1, false);
    expect_list(way, variables, 0x03, "01", 4099, false);
    expect_list(way, curves, 0x09, "01 00 04 00 02", 0, true);
    expect_list(way, curves, 0x09, "01 00 04 00 02", 8, true);
    expect_list(way, curves, 0x09, "01 00 04 00 02", 9, false);
    expect_list(way, curves, 0x09, "00 10 00 00 02", 8, true); /* 65,536 bytes */
    expect_list(way, curves, 0x09, "00 10 00 00 03", 8, false);
    expect_list(way, curves, 0x09, "00 10 00 00 10", 1, true);
    expect_list(way, curves, 0x09, "00 10 00 00 11", 1, false);
    expect_list(way, curves, 0x09, "00 10 01 00 01", 1, false);
    expect_list(way, curves, 0x09, "00 00 00 00 01", 1, false);
    expect_list(way, curves, 0x09, "02 00 04 00 02", 1, false);
    expect_list(way, curves, 0x09, "FF 00 04 00 02", 1, false);
    expect_list(way, curves, 0x09, "01 00 01 00 00", 1, true); /* 65,536 blocks */
    expect_list(way, curves, 0x09, "01 00 02 00 00", 1, false);
    expect_list(way, curves, 0x09, "01 10 00 00 00", 8, false); /* 2^31 bytes */
    expect_list(way, curves, 0x09, "01", 1, false);
    expect_list(way, curves, 0x09, "01 00 01 01", 1, false);
    expect_list(way, curves, 0x09, "01 00 01 00 01 01", 1, false);
    expect_list(way, functions, 0x0D, "FF", 0, true);
    expect_list(way, functions, 0x0D, "FF", 16, true);
    expect_list(way, functions, 0x0D, "00", 16, true);
    expect_list(way, functions, 0x0D, "00", 17, false);
    expect_list(way, functions, 0x03, "00", 1, false);
    expect_list(way, curves, 0x0D, "01 00 04 00 02", 1, false);
    expect_list(way, variables, 0x05, "01", 3, false);
}

/* The most blocks, which are sent as 0, and the most bytes of two curves. */
static void try_largest_curves(int way)
{
    struct bsmp_learned learned = nothing_known();
    const struct bsmp_request request = bsmp_request_list_curves();
    expect_heard("65,536 blocks", way, &learned, request, "00 09 00 05 01 00 01 00 00 =", "curves at 4, 1: 01 00 01 00 00");
    expect_table("65,536 blocks", way, &learned, "; 1wx65536");
    expect_heard("65,536 bytes", way, &learned, request, "00 09 00 0A 01 00 01 FF FF 00 00 01 00 01 =",
                 "curves at 4, 2: 01 00 01 FF FF 00 00 01 00 01");
    expect_table("65,536 bytes", way, &learned, "; 1wx65535; 1rx1");
    expect_heard("65,537 bytes", way, &learned, request, "00 09 00 0A 01 00 01 00 00 00 00 01 00 01 =", "refused 13");
    expect_table("65,537 bytes", way, &learned, "; 1wx65535; 1rx1");
}

/* Full lists, each record in its place. */
static void try_full_lists(int way)
{
    static uint8_t reply[BSMP_MOST_PACKET];
    uint8_t bytes[64], curves[40], functions[16];
    struct bsmp_learned learned;
    memset(&learned, 0xFF, sizeof learned); /* nothing of it may count */
    for (size_t i = 0; i < 64; i++) bytes[i] = (uint8_t)(i + 1 + (i % 3 == 0 ? 0x80 : 0));
    struct bsmp_heard heard = hear_by(way, &learned, NODE, bsmp_request_list_variables(), reply, list_of(0x03, bytes, 64, 1, reply));
    check_number("a full list of variables", heard.length, 64);
    check_number("a full list of variables: count", learned.variable_count, 64);
    check_number("a full list of variables: groups", learned.group_count, 0);
    for (size_t i = 0; i < 64; i++) {
        check_number("a full list of variables: size", learned.sizes[i], i + 1);
        check_number("a full list of variables: type", learned.writable >> i & 1, i % 3 == 0);
    }
    for (size_t i = 0; i < 8; i++) {
        const uint8_t record[] = {(uint8_t)(i % 2), (uint8_t)i, (uint8_t)(i + 1), 0, (uint8_t)(i + 2)};
        memcpy(curves + 5 * i, record, 5);
    }
    heard = hear_by(way, &learned, NODE, bsmp_request_list_curves(), reply, list_of(0x09, curves, 40, 1, reply));
    check_number("a full list of curves", heard.length, 8);
    check_number("a full list of curves: count", learned.curve_count, 8);
    for (size_t i = 0; i < 8; i++) {
        check_number("a full list of curves: type", learned.curves[i].writable, i % 2);
        check_number("a full list of curves: block size", learned.curves[i].block_size, 256 * i + i + 1);
        check_number("a full list of curves: blocks", learned.curves[i].blocks, i + 2);
    }
    for (size_t i = 0; i < 16; i++) functions[i] = (uint8_t)(16 * i + (15 - i));
    heard = hear_by(way, &learned, NODE, bsmp_request_list_functions(), reply, list_of(0x0D, functions, 16, 1, reply));
    check_number("a full list of functions", heard.length, 16);
    check_number("a full list of functions: count", learned.function_count, 16);
    for (size_t i = 0; i < 16; i++) {
        check_number("a full list of functions: input", learned.functions[i].input, i);
        check_number("a full list of functions: output", learned.functions[i].output, 15 - i);
    }
    const uint8_t shown[] = {0x00, 0x07, 0x00, 0x03, 0x00, 0x20, 0x3F, 0x97};
    heard = hear_by(way, &learned, NODE, bsmp_request_show_group(3), shown, sizeof shown);
    check_number("group 3", heard.length, 3);
    check_number("group 3: count", learned.group_count, 1);
    check(learned.sets[0] == ((UINT64_C(1) << 63) | (UINT64_C(1) << 32) | 1), "group 3", "another set");
    check(learned.sets[1] == UINT64_MAX && learned.sets[4] == UINT64_MAX, "group 3", "another place was written");
    struct bsmp_place place = bsmp_hear_place(&learned, 3, 63);
    check_number("a member's place", place.offset, 4 + 1 + 33);
    check_number("a member's size", place.size, 64);
}

static void try_group_lists(int way)
{
    static const struct { const char *reply, *heard; } lists[] = {
        {"00 05 00 03 03 01 82 72", "groups at 4, 3: 03 01 82"},
        {"00 05 00 03 01 00 80 =", "groups at 4, 3: 01 00 80"},
        {"00 05 00 03 40 40 C0 =", "groups at 4, 3: 40 40 C0"},
        {"00 05 00 08 03 01 82 01 82 03 C0 40 =", "groups at 4, 8: 03 01 82 01 82 03 C0 40"},
        {"00 05 00 02 03 01 =", "refused 13"},
        {"00 05 00 00 =", "refused 13"},
        {"00 05 00 09 03 01 82 01 01 01 01 01 01 =", "refused 13"},
        {"00 05 00 03 00 01 82 =", "refused 13"},
        {"00 05 00 03 80 01 82 =", "refused 13"},
        {"00 05 00 03 41 01 82 =", "refused 13"},
        {"00 05 00 03 03 41 82 =", "refused 13"},
        {"00 05 00 03 03 01 C1 =", "refused 13"},
        {"00 05 00 04 03 01 82 00 =", "refused 13"},
        {"00 05 00 04 03 01 82 80 =", "refused 13"},
        {"00 05 00 04 03 01 82 41 =", "refused 13"},
        {"00 07 00 03 03 01 82 =", "refused 13"},
    };
    static const struct { size_t group; const char *reply, *heard; } members[] = {
        {0, "00 07 00 03 00 01 02 =", "members at 4, 3: 00 01 02"},
        {0, "00 07 00 00 =", "refused 13"},
        {1, "00 07 00 00 =", "members at 4, 0: "},
        {2, "00 07 00 00 =", "members at 4, 0: "},
        {3, "00 07 00 00 =", "refused 13"},
        {9, "00 07 00 00 =", "refused 13"},
        {9, "00 07 00 01 05 =", "members at 4, 1: 05"},
        {3, "00 07 00 02 00 3F =", "members at 4, 2: 00 3F"},
        {3, "00 07 00 01 40 =", "refused 13"},
        {3, "00 07 00 01 FF =", "refused 13"},
        {3, "00 07 00 02 00 00 =", "refused 13"},
        {3, "00 07 00 02 02 00 =", "refused 13"},
        {3, "00 07 00 03 00 02 01 =", "refused 13"},
        {3, "00 07 00 02 3F 3F =", "refused 13"},
        {3, "00 05 00 01 00 =", "refused 13"},
    };
    for (size_t i = 0; i < COUNT(lists); i++) {
        struct bsmp_learned learned = nothing_known();
        expect_heard(lists[i].reply, way, &learned, bsmp_request_list_groups(), lists[i].reply, lists[i].heard);
        expect_table(lists[i].reply, way, &learned, "");
    }
    for (size_t i = 0; i < COUNT(members); i++) {
        struct bsmp_learned learned = nothing_known();
        expect_heard(members[i].reply, way, &learned, bsmp_request_show_group(members[i].group), members[i].reply, members[i].heard);
        expect_table(members[i].reply, way, &learned, "");
    }
    /* all 64, and the first of them again */
    static uint8_t reply[80];
    uint8_t all[65];
    struct bsmp_learned learned = nothing_known();
    for (size_t i = 0; i < 65; i++) all[i] = (uint8_t)(i % 64);
    learned.variable_count = 64;
    struct bsmp_heard heard = hear_by(way, &learned, NODE, bsmp_request_show_group(3), reply, list_of(0x07, all, 64, 1, reply));
    check_number("64 members", heard.length, 64);
    check(learned.group_count == 1 && learned.sets[0] == UINT64_MAX, "64 members", "another set");
    heard = hear_by(way, &learned, NODE, bsmp_request_show_group(4), reply, list_of(0x07, all, 65, 1, reply));
    check_number("65 members", heard.refusal, BSMP_REPLY_UNFIT);
}

void try_lists(int way)
{
    try_whole_lists(way);
    try_largest_curves(way);
    try_full_lists(way);
    try_group_lists(way);
}

/* ---- Groups followed, from the table of board A with its groups 3 and 4 ---- */

void try_following(int way)
{
    static const uint8_t ids[] = {1, 0}, wide[] = {0, 3}, far[] = {200}, twice[] = {2, 2};
    const struct { struct bsmp_request request; const char *reply, *groups; } tries[] = {
        {bsmp_request_make_group(ids, 2), "00 E0 00 00 20", "; 3 is 5; 4 is 2; 5 is 3"},
        {bsmp_request_make_group(twice, 2), "00 E0 00 00 20", "; 3 is 5; 4 is 2; 5 is 4"},
        {bsmp_request_make_group(ids, 2), "00 E7 00 00 =", "; 3 is 5; 4 is 2"},
        {bsmp_request_make_group(ids, 2), "00 E1 00 00 =", "; 3 is 5; 4 is 2"},
        {bsmp_request_make_group(ids, 2), "00 E0 00 00 21", "; 3 is 5; 4 is 2"}, /* checksum */
        {bsmp_request_make_group(ids, 2), "05 E0 00 00 1B", "; 3 is 5; 4 is 2"}, /* not for the gateway */
        {bsmp_request_make_group(wide, 2), "00 E0 00 00 20", "; 3 is 5; 4 is 2"}, /* no variable 3 */
        {bsmp_request_make_group(far, 1), "00 E0 00 00 20", "; 3 is 5; 4 is 2"},
        {bsmp_request_make_group(ids, 0), "00 E0 00 00 20", "; 3 is 5; 4 is 2"},
        {bsmp_request_remove_groups(), "00 E0 00 00 20", ""},
        {bsmp_request_remove_groups(), "00 E2 00 00 =", "; 3 is 5; 4 is 2"},
        {bsmp_request_write_variable(1, ids, 1), "00 E0 00 00 20", "; 3 is 5; 4 is 2"},
        {bsmp_request_write_block(0, 0, ids, 1), "00 E0 00 00 20", "; 3 is 5; 4 is 2"},
        {bsmp_request_renew_sum(0), "00 E0 00 00 20", "; 3 is 5; 4 is 2"},
        {bsmp_request_version(), "00 01 00 03 02 14 00 =", "; 3 is 5; 4 is 2"},
        {bsmp_request_read_variable(1), "00 11 00 01 00 =", "; 3 is 5; 4 is 2"},
        {bsmp_request_run_function(0, ids, 1), "00 51 00 02 00 00 =", "; 3 is 5; 4 is 2"},
        {bsmp_request_run_function(0, ids, 1), "00 53 00 01 00 =", "; 3 is 5; 4 is 2"},
        {bsmp_request_list_groups(), "00 05 00 03 03 01 82 =", ""},
        {bsmp_request_list_groups(), "00 05 00 04 03 01 82 02 =", "; 3 is 5"},
        {bsmp_request_list_groups(), "00 05 00 05 03 01 82 02 01 =", "; 3 is 5; 4 is 2"},
        {bsmp_request_list_groups(), "00 05 00 08 03 01 82 02 01 01 01 01 =", "; 3 is 5; 4 is 2"},
        {bsmp_request_list_groups(), "00 05 00 02 03 01 =", "; 3 is 5; 4 is 2"},
        {bsmp_request_show_group(0), "00 07 00 01 00 =", "; 3 is 5; 4 is 2"},
        {bsmp_request_show_group(2), "00 07 00 01 00 =", "; 3 is 5; 4 is 2"},
        {bsmp_request_show_group(3), "00 07 00 01 00 =", "; 3 is 1; 4 is 2"},
        {bsmp_request_show_group(4), "00 07 00 03 00 01 02 =", "; 3 is 5; 4 is 7"},
        {bsmp_request_show_group(5), "00 07 00 03 00 01 02 =", "; 3 is 5; 4 is 2; 5 is 7"},
        {bsmp_request_show_group(6), "00 07 00 03 00 01 02 =", "; 3 is 5; 4 is 2"}, /* not the next one */
        {bsmp_request_show_group(8), "00 07 00 03 00 01 02 =", "; 3 is 5; 4 is 2"},
        {bsmp_request_show_group(SIZE_MAX), "00 07 00 01 00 =", "; 3 is 5; 4 is 2"},
        {bsmp_request_show_group(3), "00 07 00 02 00 03 =", "; 3 is 5; 4 is 2"}, /* no variable 3 */
        {bsmp_request_show_group(3), "00 E3 00 00 =", "; 3 is 5; 4 is 2"},
        {bsmp_request_list_variables(), "00 03 00 03 04 81 82 F3", ""},
        {bsmp_request_list_variables(), "00 03 00 01 80 =", "; 3 is 5; 4 is 2"},
        {bsmp_request_list_curves(), "00 09 00 05 01 00 04 00 02 =", "; 3 is 5; 4 is 2"},
        {bsmp_request_list_functions(), "00 0D 00 01 12 =", "; 3 is 5; 4 is 2"},
    };
    for (size_t i = 0; i < COUNT(tries); i++) {
        struct bsmp_learned learned = board_a_known();
        uint8_t reply[32];
        char expected[96];
        size_t length = bytes_of(tries[i].reply, reply);
        hear_by(way, &learned, NODE, tries[i].request, reply, length);
        snprintf(expected, sizeof expected, "4r 1w 2w%s; 4wx2; 1>2", tries[i].groups);
        expect_table(tries[i].reply, way, &learned, expected);
        learned = board_a_known(); /* to many, nobody answers */
        hear_by(way, &learned, 255, tries[i].request, reply, length);
        expect_table("a reply for many", way, &learned, "4r 1w 2w; 3 is 5; 4 is 2; 4wx2; 1>2");
    }
    struct bsmp_learned full = board_a_known();
    full.group_count = 5;
    for (size_t i = 0; i < 5; i++) full.sets[i] = 1;
    expect_heard("a sixth group", way, &full, bsmp_request_make_group(ids, 2), "00 E0 00 00 20", "done");
    expect_table("a sixth group", way, &full, "4r 1w 2w; 3 is 1; 4 is 1; 5 is 1; 6 is 1; 7 is 1; 4wx2; 1>2");
    expect_heard("group 8", way, &full, bsmp_request_show_group(8), "00 07 00 01 01 =", "members at 4, 1: 01");
    expect_table("group 8", way, &full, "4r 1w 2w; 3 is 1; 4 is 1; 5 is 1; 6 is 1; 7 is 1; 4wx2; 1>2");
    expect_heard("group 7", way, &full, bsmp_request_show_group(7), "00 07 00 01 01 =", "members at 4, 1: 01");
    expect_table("group 7", way, &full, "4r 1w 2w; 3 is 1; 4 is 1; 5 is 1; 6 is 1; 7 is 2; 4wx2; 1>2");
}
