/* How much stack each call needs, on the largest board: every command, every wire error, every refusal, every entry. Calls that work
 * out sums have a limit of their own. With ASKING defined, and libbsmp_ask.a linked too, the asking side's calls are measured likewise, with
 * the largest table, and have a limit of their own too.
 *
 * Each call runs on a stack of its own that was painted before; the deepest byte that lost its paint says how far the call went.
 * The same call is also made to a function that returns at once. What that takes is the caller's: the arguments that it pushes,
 * and the return address. (On x86-64 a packet's 22 arguments and the place for the outcome are 23 words; six go in registers, 17
 * are pushed, which with the return address is 144 bytes.) The difference is what the library needs beyond that, with memcpy and
 * memset. For x86-64, aarch64 and 32-bit ARM. */
#include "bsmp.h"
#ifdef ASKING
#include "bsmp_ask.h"
#endif

#include <stdio.h>
#include <string.h>

#ifndef MOST_STACK
#define MOST_STACK 640
#endif
#ifndef MOST_SUM_STACK
#define MOST_SUM_STACK 1280
#endif
#ifndef MOST_ASKING_STACK
#define MOST_ASKING_STACK 1024
#endif

/* ---- The board: 64 variables of 4,096 bytes, 8 curves of 65,536 in 16 full blocks, 16 functions, five groups of all 64 ---- */

enum { SIGNED, UNSIGNED, SHORT_SIGNED, SHORT_UNSIGNED, LAST_VARIABLE = 63, LAST_SIZE = 66 };
enum { READ_ONLY_CURVE = 0, LAST_CURVE = 7, BLOCKS = 2 * BSMP_MOST_CURVES, LAST_FUNCTION = 15 };

static struct bsmp_variable variables[BSMP_MOST_VARIABLES];
static struct bsmp_curve curves[BSMP_MOST_CURVES];
static struct bsmp_function functions[BSMP_MOST_FUNCTIONS];
static uint8_t values[BSMP_MOST_VALUE_BYTES];
static uint8_t blocks[BSMP_MOST_CURVE_BYTES];
static uint16_t lengths[BSMP_MOST_BLOCKS];
static uint8_t sums[BSMP_MOST_CURVES * BSMP_SUM_SIZE];
static struct bsmp_board board = {variables, BSMP_MOST_VARIABLES, curves, BSMP_MOST_CURVES, functions, BSMP_MOST_FUNCTIONS, 5, 1};
static struct bsmp_state state = {values, sizeof values, blocks, sizeof blocks, lengths, BLOCKS, sums, sizeof sums, {0, {0}}};

static uint8_t packet[BSMP_MOST_PACKET + 1];
static size_t packet_length;
static uint64_t busy;
static uint8_t reply[BSMP_REPLY_ROOM];
static size_t room;
static uint8_t bytes[BSMP_MOST_VARIABLE_SIZE];
static const uint8_t zeros[BSMP_MOST_CURVE_BYTES];

static void make_board(void)
{
    for (size_t i = 0; i < BSMP_MOST_VARIABLES; i++) variables[i] = (struct bsmp_variable){BSMP_WRITABLE, 68, BSMP_PLAIN};
    variables[SIGNED] = (struct bsmp_variable){BSMP_WRITABLE, 8, BSMP_SIGNED_BIG};
    variables[UNSIGNED] = (struct bsmp_variable){BSMP_WRITABLE, 8, BSMP_UNSIGNED_LITTLE};
    variables[SHORT_SIGNED] = (struct bsmp_variable){BSMP_WRITABLE, 1, BSMP_SIGNED_LITTLE};
    variables[SHORT_UNSIGNED] = (struct bsmp_variable){BSMP_WRITABLE, 1, BSMP_UNSIGNED_BIG};
    variables[LAST_VARIABLE].size = LAST_SIZE;
    for (size_t i = 0; i < BSMP_MOST_CURVES; i++) curves[i] = (struct bsmp_curve){BSMP_WRITABLE, BSMP_MOST_BLOCK_SIZE, 2};
    curves[READ_ONLY_CURVE].writable = BSMP_READ_ONLY;
    for (size_t i = 0; i < BSMP_MOST_FUNCTIONS; i++) functions[i] = (struct bsmp_function){BSMP_MOST_INPUT, BSMP_MOST_OUTPUT};
}

/* Of so many blocks of this size, each full. */
static void fill_lengths(size_t count, uint16_t size)
{
    state.length_count = count;
    for (size_t i = 0; i < count; i++) lengths[i] = size;
}

static void make_one_curve(uint16_t size)
{
    curves[0].block_size = size;
    curves[0].blocks = BSMP_MOST_CURVE_BYTES / size;
    board.curve_count = 1;
    fill_lengths(curves[0].blocks, size);
    state.sums_length = BSMP_SUM_SIZE;
}

/* ---- A call ---- */

struct call {
    const char *name;
    unsigned ends;         /* in what it must end: see `ended` */
    void (*change)(void);  /* what is unlike the largest good call; NULL for nothing */
    uint8_t command;       /* packets: command, front, and so many bytes more */
    uint8_t front[3];
    size_t front_length;
    size_t rest;
    size_t number;         /* the others: function or variable, bytes handed in or lent, the number to be written */
    size_t length;
    int64_t value;
    bool failed;
    bool hears;            /* the packet is a reply, to a request of this code, with `number` */
    uint8_t asked;
};

/* A reply is told by its command code, a sum by its first byte, a request by its code, what is heard by its kind or the error's code. */
enum { SILENT = 0x100, RUN = 0x101, DONE = 0x102, REFUSED = 0x200, HEARD = 0x300 };

static struct bsmp_outcome outcome;
static uint64_t refusal;
static struct bsmp_sum sum;

static unsigned outcome_ended(void)
{
    switch (outcome.kind) {
    case BSMP_REPLY: return reply[1];
    case BSMP_SILENCE: return SILENT;
    case BSMP_RUN: return RUN;
    default: return REFUSED + outcome.refusal;
    }
}

static unsigned refusal_ended(void)
{
    return refusal == BSMP_NOT_REFUSED ? DONE : REFUSED + (unsigned)refusal;
}

static unsigned sum_ended(void) { return sum.bytes[0]; }

/* `at_once` gives back the place for the outcome and does nothing else. `on_stack` runs a function on another stack, from its top down. */
#define FUNCTION(name, ...) __asm__(".text\n.globl " #name "\n.type " #name ", %function\n" #name ":\n" __VA_ARGS__)
#if defined(__x86_64__)
FUNCTION(at_once, "movq %rdi, %rax\n ret\n");
FUNCTION(on_stack, "pushq %rbp\n movq %rsp, %rbp\n movq %rdi, %rsp\n call *%rsi\n movq %rbp, %rsp\n popq %rbp\n ret\n");
#elif defined(__aarch64__)
FUNCTION(at_once, "ret\n");
FUNCTION(on_stack, "stp x29, x30, [sp, -16]!\n mov x29, sp\n mov sp, x0\n blr x1\n mov sp, x29\n ldp x29, x30, [sp], 16\n ret\n");
#elif defined(__thumb__)
FUNCTION(at_once, "bx lr\n");
FUNCTION(on_stack, "push {r4, lr}\n mov r4, sp\n mov sp, r0\n blx r1\n mov sp, r4\n pop {r4, pc}\n");
#endif
void at_once(void);
void on_stack(uint8_t *top, void (*function)(void));

/* Where a call goes: to the library, or to `at_once`. */
static void (*entry)(void);
static const struct call *current;

#define ENTRY(function) ((__typeof__(&function))entry)
#define RECORDS \
    variables, board.variable_count, bsmp_node_curve_numbers(&board), 3 * board.curve_count, bsmp_node_function_numbers(&board), \
        2 * board.function_count
#define STORES values, sizeof values, blocks, sizeof blocks, lengths, state.length_count, sums, state.sums_length

static void call_packet(void)
{
    outcome = ENTRY(bsmp_packet)(RECORDS, &state.groups, board.own, board.multicast, busy, STORES, packet, packet_length,
                                 reply, room);
}

static void call_function_result(void)
{
    outcome = ENTRY(bsmp_function_result)(RECORDS, &state.groups, STORES, current->number, true, current->failed, 1, bytes,
                                          current->length, reply, room);
}

static void call_board_store(void)
{
    refusal = ENTRY(bsmp_board_store)(RECORDS, &state.groups, STORES, current->number, bytes, current->length);
}

static void call_fresh_board(void)
{
    refusal = ENTRY(bsmp_fresh_board)(RECORDS, &state.groups, STORES);
}

static void call_md5(void)
{
    sum = ENTRY(bsmp_md5)(zeros, current->length);
}

static void call_read_signed(void)
{
    refusal = ENTRY(bsmp_read_signed)(variables, board.variable_count, current->number, bytes, current->length).refusal;
}

static void call_read_unsigned(void)
{
    refusal = ENTRY(bsmp_read_unsigned)(variables, board.variable_count, current->number, bytes, current->length).refusal;
}

static void call_write_signed(void)
{
    refusal = ENTRY(bsmp_write_signed)(variables, board.variable_count, current->number, current->value, bytes,
                                       current->length);
}

static void call_write_unsigned(void)
{
    refusal = ENTRY(bsmp_write_unsigned)(variables, board.variable_count, current->number, (uint64_t)current->value, bytes,
                                         current->length);
}

/* ---- What can be unlike the largest good call ---- */

static void add_to_packet(size_t place, uint8_t number)
{
    packet[place] = (uint8_t)(packet[place] + number);
    packet[packet_length - 1] = (uint8_t)(packet[packet_length - 1] - number);
}

static void four_groups(void) { state.groups.count = 4; }
static void gaps(void) { state.groups.sets[BSMP_MOST_MADE_GROUPS - 1] = 0x5555555555555555; } /* every other variable in the last group */
static void all_busy(void) { busy = UINT64_MAX; }
static void to_all(void) { add_to_packet(0, 0xFF - 5); }
static void size_wrong(void) { add_to_packet(3, 1); }
static void six_groups(void) { state.groups.count = 6; }
static void no_variables(void) { board.variable_count = 0; }
static void length_0(void) { lengths[state.length_count - 1] = 0; }
static void length_too_few(void) { state.length_count--; }
static void no_sums(void) { state.sums_length = 0; }
static void no_address(void) { board.own = 0; }
static void room_short(void) { room = BSMP_REPLY_ROOM - 1; }
static void packet_long(void) { packet_length = sizeof packet; }
static void sum_wrong(void) { packet[packet_length - 1]++; }
static void to_another(void) { add_to_packet(0, 1); }

static void one_byte_short(void)
{
    for (size_t i = 0; i < state.length_count; i++) lengths[i]--;
}

/* All bytes in one curve, which is the largest that there can be. */
static void one_curve(void)
{
    make_one_curve(BSMP_MOST_BLOCK_SIZE);
}

static void one_curve_to_all(void)
{
    one_curve();
    to_all();
}

static void one_curve_short(void)
{
    one_curve();
    one_byte_short();
}

static void most_blocks(void)
{
    make_one_curve(1);
}

/* ---- The calls ---- */

#define ON(...) .front = {__VA_ARGS__}, .front_length = sizeof((uint8_t[]){__VA_ARGS__})
#define WHOLE_BLOCK 0x41, ON(LAST_CURVE, 0, 1), .rest = BSMP_MOST_BLOCK_SIZE
enum { GROUP = BSMP_FIRST_MADE_GROUP + BSMP_MOST_MADE_GROUPS - 1, GAPS_BYTES = 8 + 1 + 30 * 68 };

static const struct call packets[] = {
    {"00 version", 0x01, .command = 0x00},
    {"02 list of variables", 0x03, .command = 0x02},
    {"04 list of groups", 0x05, .command = 0x04},
    {"06 group", 0x07, NULL, 0x06, ON(GROUP)},
    {"08 list of curves", 0x09, .command = 0x08},
    {"0A read sum", 0x0B, NULL, 0x0A, ON(LAST_CURVE)},
    {"0C list of functions", 0x0D, .command = 0x0C},
    {"10 read variable", 0x11, NULL, 0x10, ON(LAST_VARIABLE)},
    {"12 read group", 0x13, NULL, 0x12, ON(GROUP)},
    {"20 write variable", 0xE0, NULL, 0x20, ON(LAST_VARIABLE), .rest = LAST_SIZE},
    {"22 write group", 0xE0, NULL, 0x22, ON(GROUP), .rest = BSMP_MOST_VALUE_BYTES},
    {"12 read group with gaps", 0x13, gaps, 0x12, ON(GROUP)},
    {"22 write group with gaps", 0xE0, gaps, 0x22, ON(GROUP), .rest = GAPS_BYTES},
    {"26 mask group with gaps", 0xE0, gaps, 0x26, ON(GROUP, 'X'), .rest = GAPS_BYTES},
    {"24 mask variable", 0xE0, NULL, 0x24, ON(LAST_VARIABLE, 'X'), .rest = LAST_SIZE},
    {"26 mask group", 0xE0, NULL, 0x26, ON(GROUP, 'X'), .rest = BSMP_MOST_VALUE_BYTES},
    {"28 write and read", 0x11, NULL, 0x28, ON(LAST_VARIABLE, LAST_VARIABLE - 1), .rest = LAST_SIZE},
    {"30 make group", 0xE0, four_groups, 0x30, .rest = BSMP_MOST_VARIABLES},
    {"32 remove groups", 0xE0, .command = 0x32},
    {"40 read block", 0x41, NULL, 0x40, ON(LAST_CURVE, 0, 1)},
    {"40 read block that isn't full", 0x41, one_byte_short, 0x40, ON(LAST_CURVE, 0, 1)},
    {"40 read the last of the most blocks", 0x41, most_blocks, 0x40, ON(0, 0xFF, 0xFF)},
    {"41 write block", 0xE0, NULL, WHOLE_BLOCK},
    {"41 write a byte of a block", 0xE0, NULL, 0x41, ON(LAST_CURVE, 0, 1), .rest = 1},
    {"50 run function", RUN, NULL, 0x50, ON(LAST_FUNCTION), .rest = BSMP_MOST_INPUT},
    {"0A to all", SILENT, to_all, 0x0A, ON(LAST_CURVE)},
    {"22 to all", SILENT, to_all, 0x22, ON(GROUP), .rest = BSMP_MOST_VALUE_BYTES},
    {"error E1", 0xE1, size_wrong, 0x22, ON(GROUP), .rest = BSMP_MOST_VALUE_BYTES},
    {"error E2", 0xE2, NULL, 0x26, ON(GROUP, 'Y'), .rest = BSMP_MOST_VALUE_BYTES},
    {"error E3", 0xE3, NULL, 0x22, ON(GROUP + 1), .rest = BSMP_MOST_VALUE_BYTES},
    {"error E3 to 0A", 0xE3, NULL, 0x0A, ON(LAST_CURVE + 1)},
    {"error E3 to 42", 0xE3, NULL, 0x42, ON(LAST_CURVE + 1)},
    {"error E4", 0xE4, NULL, 0x41, ON(LAST_CURVE, 0, 2), .rest = BSMP_MOST_BLOCK_SIZE},
    {"error E5", 0xE5, NULL, 0x26, ON(GROUP, 'X'), .rest = BSMP_MOST_VALUE_BYTES - 1},
    {"error E5 to 0A", 0xE5, NULL, 0x0A, .rest = BSMP_MOST_BLOCK_SIZE},
    {"error E5 to 42", 0xE5, NULL, 0x42, .rest = BSMP_MOST_BLOCK_SIZE},
    {"error E6", 0xE6, NULL, 0x41, ON(READ_ONLY_CURVE, 0, 1), .rest = BSMP_MOST_BLOCK_SIZE},
    {"error E7", 0xE7, NULL, 0x30, .rest = BSMP_MOST_VARIABLES},
    {"error E8", 0xE8, all_busy, 0x26, ON(GROUP, 'X'), .rest = BSMP_MOST_VALUE_BYTES},
    {"error E8 to a read", 0xE8, all_busy, 0x12, ON(GROUP)},
    {"refusal 1", REFUSED + 1, six_groups, WHOLE_BLOCK},
    {"refusal 1 for a length", REFUSED + 1, length_0, WHOLE_BLOCK},
    {"refusal 1 for a length too few", REFUSED + 1, length_too_few, WHOLE_BLOCK},
    {"refusal 1 for the sums", REFUSED + 1, no_sums, WHOLE_BLOCK},
    {"refusal 2", REFUSED + 2, no_address, WHOLE_BLOCK},
    {"refusal 3", REFUSED + 3, room_short, WHOLE_BLOCK},
    {"refusal 4", REFUSED + 4, packet_long, WHOLE_BLOCK},
    {"refusal 5", REFUSED + 5, sum_wrong, WHOLE_BLOCK},
    {"refusal 6", REFUSED + 6, to_another, WHOLE_BLOCK},
};

static const struct call renewals[] = {
    {"the last curve", 0xE0, NULL, 0x42, ON(LAST_CURVE)},
    {"a read-only curve", 0xE0, NULL, 0x42, ON(READ_ONLY_CURVE)},
    {"blocks that aren't full", 0xE0, one_byte_short, 0x42, ON(LAST_CURVE)},
    {"the largest curve", 0xE0, one_curve, 0x42, ON(0)},
    {"the largest curve, of blocks that aren't full", 0xE0, one_curve_short, 0x42, ON(0)},
    {"the largest curve, to all", SILENT, one_curve_to_all, 0x42, ON(0)},
    {"the most blocks", 0xE0, most_blocks, 0x42, ON(0)},
};

static const struct call fresh_boards[] = {
    {.name = "done", .ends = DONE},
    {.name = "blocks that aren't full", .ends = DONE, .change = one_byte_short},
    {.name = "the largest curve", .ends = DONE, .change = one_curve},
    {.name = "the most blocks", .ends = DONE, .change = most_blocks},
};

static const struct call refused_fresh_boards[] = {
    {.name = "refusal 1", .ends = REFUSED + 1, .change = six_groups},
    {.name = "refusal 1 for a length too few", .ends = REFUSED + 1, .change = length_too_few},
    {.name = "refusal 1 for the sums", .ends = REFUSED + 1, .change = no_sums},
};

/* As many bytes as leave room for the length in the last chunk, one more, a whole chunk, and all of a curve. */
static const struct call messages[] = {
    {"no bytes", 0xD4, .length = 0},
    {"55 bytes", 0xC9, .length = 55},
    {"56 bytes", 0xE3, .length = 56},
    {"64 bytes", 0x3B, .length = 64},
    {"65,536 bytes", 0xFC, .length = BSMP_MOST_CURVE_BYTES},
};

static const struct call results[] = {
    {"reply 51", 0x51, .number = LAST_FUNCTION, .length = BSMP_MOST_OUTPUT},
    {"reply 53", 0x53, .number = LAST_FUNCTION, .failed = true},
    {"refusal 1", REFUSED + 1, six_groups, .number = LAST_FUNCTION, .length = BSMP_MOST_OUTPUT},
    {"refusal 1 for a length", REFUSED + 1, length_0, .number = LAST_FUNCTION, .length = BSMP_MOST_OUTPUT},
    {"refusal 3", REFUSED + 3, room_short, .number = LAST_FUNCTION, .length = BSMP_MOST_OUTPUT},
    {"refusal 7", REFUSED + 7, .number = LAST_FUNCTION + 1, .length = BSMP_MOST_OUTPUT},
    {"refusal 8", REFUSED + 8, .number = LAST_FUNCTION, .length = BSMP_MOST_OUTPUT - 1},
};

static const struct call stores[] = {
    {"done", DONE, .number = LAST_VARIABLE, .length = LAST_SIZE},
    {"refusal 1", REFUSED + 1, six_groups, .number = LAST_VARIABLE, .length = LAST_SIZE},
    {"refusal 1 for a length", REFUSED + 1, length_0, .number = LAST_VARIABLE, .length = LAST_SIZE},
    {"refusal 9", REFUSED + 9, .number = LAST_VARIABLE + 1, .length = LAST_SIZE},
    {"refusal 10", REFUSED + 10, .number = LAST_VARIABLE, .length = LAST_SIZE + 1},
};

#define READINGS(own, other) \
    {"done", DONE, .number = own, .length = 8}, {"refusal 1", REFUSED + 1, no_variables, .number = own, .length = 8}, \
        {"refusal 9", REFUSED + 9, .number = LAST_VARIABLE + 1, .length = 8}, \
        {"refusal 10", REFUSED + 10, .number = own, .length = 7}, {"refusal 11", REFUSED + 11, .number = other, .length = 8}

static const struct call signed_readings[] = {READINGS(SIGNED, UNSIGNED)};
static const struct call unsigned_readings[] = {READINGS(UNSIGNED, SIGNED)};
static const struct call signed_writings[] = {
    READINGS(SIGNED, UNSIGNED),
    {"refusal 12", REFUSED + 12, .number = SHORT_SIGNED, .length = 1, .value = 128},
};
static const struct call unsigned_writings[] = {
    READINGS(UNSIGNED, SIGNED),
    {"refusal 12", REFUSED + 12, .number = SHORT_UNSIGNED, .length = 1, .value = 256},
};

/* ---- The asking side: a table of the largest board, which every call is lent ---- */

#ifdef ASKING
static struct bsmp_learned learned;
static uint8_t kinds_supplied[BSMP_MOST_VARIABLES];
static uint8_t destination;
static struct bsmp_asked asked;
static struct bsmp_heard heard;

static void make_learned(void)
{
    memset(&learned, 0xFF, sizeof learned); /* the sets and marks of all */
    learned.variable_count = BSMP_MOST_VARIABLES;
    learned.group_count = BSMP_MOST_MADE_GROUPS;
    learned.curve_count = BSMP_MOST_CURVES;
    learned.function_count = BSMP_MOST_FUNCTIONS;
    memcpy(learned.curves, curves, sizeof curves);
    memcpy(learned.functions, functions, sizeof functions);
    for (size_t i = 0; i < BSMP_MOST_VARIABLES; i++) learned.sizes[i] = variables[i].size;
    for (size_t i = 0; i < BSMP_MOST_VARIABLES; i++) kinds_supplied[i] = variables[i].kind;
    destination = 5;
}

static unsigned asked_ended(void)
{
    return asked.refusal == BSMP_NOT_REFUSED ? reply[1] : REFUSED + asked.refusal;
}

static unsigned heard_ended(void)
{
    if (heard.kind == BSMP_HEARD_REFUSED) return REFUSED + heard.refusal;
    return heard.kind == BSMP_HEARD_ERROR ? heard.error : HEARD + heard.kind;
}

static void call_ask_packet(void)
{
    asked = ENTRY(bsmp_ask_packet)(destination, current->command, 'X', current->number, LAST_VARIABLE - 1, 1, zeros,
                                   current->length, reply, room);
}

static void call_hear_reply(void)
{
    heard = ENTRY(bsmp_hear_reply)(&learned, destination, current->asked, 'X', current->number, LAST_VARIABLE, 1, zeros,
                                   BSMP_MOST_VARIABLES, packet, packet_length);
}

static void call_hear_place(void)
{
    refusal = ENTRY(bsmp_hear_place)(&learned, current->length, current->number).refusal;
}

static void call_hear_signed(void)
{
    refusal = ENTRY(bsmp_hear_signed)(&learned, kinds_supplied, BSMP_MOST_VARIABLES, current->number, bytes, current->length).refusal;
}

static void call_hear_unsigned(void)
{
    refusal = ENTRY(bsmp_hear_unsigned)(&learned, kinds_supplied, BSMP_MOST_VARIABLES, current->number, bytes, current->length).refusal;
}

static void call_ask_signed(void)
{
    refusal = ENTRY(bsmp_ask_signed)(&learned, kinds_supplied, BSMP_MOST_VARIABLES, current->number, current->value, bytes,
                                     current->length);
}

static void call_ask_unsigned(void)
{
    refusal = ENTRY(bsmp_ask_unsigned)(&learned, kinds_supplied, BSMP_MOST_VARIABLES, current->number, (uint64_t)current->value,
                                       bytes, current->length);
}

/* What can be unlike the largest good call, and the lists, whose records are not any bytes. */

static void to_nobody(void) { destination = 0; }
static void to_many(void) { destination = 255; }
static void four_known(void) { learned.group_count = 4; }
static void six_known(void) { learned.group_count = 6; }
static void none_known(void) { learned.variable_count = 0; }

static void list_as(const void *record, size_t size)
{
    for (size_t place = 4; place < packet_length - 1; place += size) memcpy(packet + place, record, size);
    packet[packet_length - 1] = bsmp_checksum(packet, packet_length - 1);
}

static void variables_of_64(void) { list_as("\xC0", 1); }
static void groups_of_64(void) { list_as("\xC0", 1); }
static void curves_of_8192(void) { list_as("\x01\x10\x00\x00\x02", 5); }

static const struct call asks[] = {
    {"00 version", 0x00, .command = 0x00},
    {"02 list of variables", 0x02, .command = 0x02},
    {"04 list of groups", 0x04, .command = 0x04},
    {"06 group", 0x06, .command = 0x06, .number = GROUP},
    {"08 list of curves", 0x08, .command = 0x08},
    {"0A read sum", 0x0A, .command = 0x0A, .number = LAST_CURVE},
    {"0C list of functions", 0x0C, .command = 0x0C},
    {"10 read variable", 0x10, .command = 0x10, .number = LAST_VARIABLE},
    {"12 read group", 0x12, .command = 0x12, .number = GROUP},
    {"20 write variable", 0x20, .command = 0x20, .number = LAST_VARIABLE, .length = LAST_SIZE},
    {"22 write group", 0x22, .command = 0x22, .number = GROUP, .length = BSMP_MOST_VALUE_BYTES},
    {"24 mask variable", 0x24, .command = 0x24, .number = LAST_VARIABLE, .length = LAST_SIZE},
    {"26 mask group", 0x26, .command = 0x26, .number = GROUP, .length = BSMP_MOST_VALUE_BYTES},
    {"28 write and read", 0x28, .command = 0x28, .number = LAST_VARIABLE, .length = LAST_SIZE},
    {"30 make group", 0x30, .command = 0x30, .length = BSMP_MOST_VARIABLES},
    {"30 make group, of the longest", 0x30, .command = 0x30, .length = BSMP_MOST_PAYLOAD},
    {"32 remove groups", 0x32, .command = 0x32},
    {"40 read block", 0x40, .command = 0x40, .number = LAST_CURVE},
    {"41 write block", 0x41, .command = 0x41, .number = LAST_CURVE, .length = BSMP_MOST_BLOCK_SIZE},
    {"42 renew sum", 0x42, .command = 0x42, .number = LAST_CURVE},
    {"50 run function", 0x50, .command = 0x50, .number = LAST_FUNCTION, .length = BSMP_MOST_INPUT},
    {"22 to many", 0x22, to_many, .command = 0x22, .number = GROUP, .length = BSMP_MOST_VALUE_BYTES},
    {"refusal 2", REFUSED + 2, to_nobody, .command = 0x41, .number = LAST_CURVE, .length = BSMP_MOST_BLOCK_SIZE},
    {"refusal 3", REFUSED + 3, room_short, .command = 0x41, .number = LAST_CURVE, .length = BSMP_MOST_BLOCK_SIZE},
    {"refusal 14 for a number", REFUSED + 14, .command = 0x41, .number = 256, .length = BSMP_MOST_BLOCK_SIZE},
    {"refusal 14 for a payload", REFUSED + 14, .command = 0x41, .number = LAST_CURVE, .length = BSMP_MOST_BLOCK_SIZE + 1},
    {"refusal 14 for a code", REFUSED + 14, .command = 0x7F},
};

#define TO(code) .hears = true, .asked = code
#define BLOCK_TO_40 0x41, ON(LAST_CURVE, 0, 1), .rest = BSMP_MOST_BLOCK_SIZE, TO(0x40), .number = LAST_CURVE
static const struct call hearings[] = {
    {"01 to 00", HEARD + BSMP_HEARD_VERSION, NULL, 0x01, ON(2, 20, 0), TO(0x00)},
    {"03 to 02", HEARD + BSMP_HEARD_VARIABLES, variables_of_64, 0x03, .rest = BSMP_MOST_VARIABLES, TO(0x02)},
    {"05 to 04", HEARD + BSMP_HEARD_GROUPS, groups_of_64, 0x05, .rest = GROUP + 1, TO(0x04)},
    {"07 to 06", HEARD + BSMP_HEARD_MEMBERS, NULL, 0x07, .rest = BSMP_MOST_VARIABLES, TO(0x06), .number = GROUP},
    {"07 to 06 of the next group", HEARD + BSMP_HEARD_MEMBERS, four_known, 0x07, .rest = BSMP_MOST_VARIABLES, TO(0x06), .number = GROUP},
    {"09 to 08", HEARD + BSMP_HEARD_CURVES, curves_of_8192, 0x09, .rest = 5 * BSMP_MOST_CURVES, TO(0x08)},
    {"0B to 0A", HEARD + BSMP_HEARD_SUM, NULL, 0x0B, .rest = BSMP_SUM_SIZE, TO(0x0A), .number = LAST_CURVE},
    {"0D to 0C", HEARD + BSMP_HEARD_FUNCTIONS, NULL, 0x0D, .rest = BSMP_MOST_FUNCTIONS, TO(0x0C)},
    {"11 to 10", HEARD + BSMP_HEARD_VALUES, NULL, 0x11, .rest = LAST_SIZE, TO(0x10), .number = LAST_VARIABLE},
    {"13 to 12", HEARD + BSMP_HEARD_VALUES, NULL, 0x13, .rest = BSMP_MOST_VALUE_BYTES, TO(0x12), .number = GROUP},
    {"13 to 12 of all", HEARD + BSMP_HEARD_VALUES, NULL, 0x13, .rest = BSMP_MOST_VALUE_BYTES, TO(0x12), .number = 0},
    {"E0 to 20", HEARD + BSMP_HEARD_DONE, NULL, 0xE0, TO(0x20)},
    {"E0 to 22", HEARD + BSMP_HEARD_DONE, NULL, 0xE0, TO(0x22)},
    {"E0 to 24", HEARD + BSMP_HEARD_DONE, NULL, 0xE0, TO(0x24)},
    {"E0 to 26", HEARD + BSMP_HEARD_DONE, NULL, 0xE0, TO(0x26)},
    {"11 to 28", HEARD + BSMP_HEARD_VALUES, NULL, 0x11, .rest = LAST_SIZE, TO(0x28), .number = LAST_VARIABLE},
    {"E0 to 30", HEARD + BSMP_HEARD_DONE, four_known, 0xE0, TO(0x30)},
    {"E0 to 32", HEARD + BSMP_HEARD_DONE, NULL, 0xE0, TO(0x32)},
    {"41 to 40", HEARD + BSMP_HEARD_BLOCK, NULL, BLOCK_TO_40},
    {"E0 to 41", HEARD + BSMP_HEARD_DONE, NULL, 0xE0, TO(0x41)},
    {"E0 to 42", HEARD + BSMP_HEARD_DONE, NULL, 0xE0, TO(0x42)},
    {"51 to 50", HEARD + BSMP_HEARD_OUTPUT, NULL, 0x51, .rest = BSMP_MOST_OUTPUT, TO(0x50), .number = LAST_FUNCTION},
    {"53 to 50", HEARD + BSMP_HEARD_FAILED, NULL, 0x53, ON(7), TO(0x50), .number = LAST_FUNCTION},
    {"error E8 to 12", 0xE8, NULL, 0xE8, TO(0x12), .number = GROUP},
    {"refusal 1", REFUSED + 1, six_known, BLOCK_TO_40},
    {"refusal 2", REFUSED + 2, to_nobody, BLOCK_TO_40},
    {"refusal 4", REFUSED + 4, packet_long, BLOCK_TO_40},
    {"refusal 5", REFUSED + 5, sum_wrong, BLOCK_TO_40},
    {"refusal 13", REFUSED + 13, size_wrong, BLOCK_TO_40},
    {"refusal 13 for a request to many", REFUSED + 13, to_many, BLOCK_TO_40},
    {"refusal 13 for a code", REFUSED + 13, NULL, 0xE0, TO(0x7F)},
};

/* `length` is the group. */
static const struct call places[] = {
    {"done", DONE, .number = LAST_VARIABLE, .length = GROUP},
    {"done, of all", DONE, .number = LAST_VARIABLE, .length = 0},
    {"refusal 1", REFUSED + 1, six_known, .number = LAST_VARIABLE, .length = GROUP},
    {"refusal 9", REFUSED + 9, .number = LAST_VARIABLE + 1, .length = GROUP},
    {"refusal 9 for a group", REFUSED + 9, .number = LAST_VARIABLE, .length = GROUP + 1},
};

#define HEARINGS(own, other) \
    {"done", DONE, .number = own, .length = 8}, {"refusal 1", REFUSED + 1, none_known, .number = own, .length = 8}, \
        {"refusal 9", REFUSED + 9, .number = LAST_VARIABLE + 1, .length = 8}, \
        {"refusal 10", REFUSED + 10, .number = own, .length = 7}, {"refusal 11", REFUSED + 11, .number = other, .length = 8}

static const struct call signed_hearings[] = {HEARINGS(SIGNED, UNSIGNED)};
static const struct call unsigned_hearings[] = {HEARINGS(UNSIGNED, SIGNED)};
static const struct call signed_asks[] = {
    HEARINGS(SIGNED, UNSIGNED),
    {"refusal 12", REFUSED + 12, .number = SHORT_SIGNED, .length = 1, .value = 128},
};
static const struct call unsigned_asks[] = {
    HEARINGS(UNSIGNED, SIGNED),
    {"refusal 12", REFUSED + 12, .number = SHORT_UNSIGNED, .length = 1, .value = 256},
};
#endif

/* ---- Painting ---- */

static uint8_t area[64 * 1024] __attribute__((aligned(64)));

static void prepare(const struct call *call)
{
    current = call;
    make_board();
    board.variable_count = BSMP_MOST_VARIABLES;
    board.curve_count = BSMP_MOST_CURVES;
    board.own = 5;
    fill_lengths(BLOCKS, BSMP_MOST_BLOCK_SIZE);
    state.sums_length = sizeof sums;
    state.groups.count = BSMP_MOST_MADE_GROUPS;
    memset(state.groups.sets, 0xFF, sizeof state.groups.sets);
    busy = 0;
    room = sizeof reply;
#ifdef ASKING
    make_learned();
#endif

    size_t size = call->front_length + call->rest;
    packet_length = size + 5;
    packet[0] = call->hears ? 0 : board.own;
    packet[1] = call->command;
    packet[2] = (uint8_t)(size >> 8);
    packet[3] = (uint8_t)size;
    memcpy(packet + 4, call->front, call->front_length);
    for (size_t i = 0; i < call->rest; i++) packet[4 + call->front_length + i] = (uint8_t)i;
    packet[packet_length - 1] = bsmp_checksum(packet, packet_length - 1);
    if (call->change) call->change();
}

static size_t touched(void (*make)(void), uint8_t paint)
{
    size_t untouched = 0;
    memset(area, paint, sizeof area);
    on_stack(area + sizeof area, make);
    while (untouched < sizeof area && area[untouched] == paint) untouched++;
    return sizeof area - untouched;
}

/* A byte that is written with the paint's own colour is not seen, so there are two colours. */
static size_t deepest(void (*make)(void), const struct call *call, void (*function)(void))
{
    size_t most = 0;
    entry = function;
    for (int paint = 0x5A; paint <= 0xA5; paint += 0xA5 - 0x5A) {
        prepare(call);
        size_t depth = touched(make, (uint8_t)paint);
        if (depth > most) most = depth;
    }
    return most;
}

/* ---- Figures ---- */

/* Sorts of calls, each with a limit: those that work out no sums, those that do, and the asking side's. */
enum sort { NO_SUMS, SUMS, ASKS, SORTS };

struct kind {
    const char *name;
    void (*make)(void);
    void (*function)(void);
    unsigned (*ended)(void);
    enum sort sort;
    const struct call *calls;
    size_t count;
};

#define CALLS(array) array, sizeof array / sizeof array[0]
static const struct kind kinds[] = {
    {"bsmp_packet", call_packet, (void (*)(void))bsmp_packet, outcome_ended, NO_SUMS, CALLS(packets)},
    {"bsmp_packet with 42", call_packet, (void (*)(void))bsmp_packet, outcome_ended, SUMS, CALLS(renewals)},
    {"bsmp_function_result", call_function_result, (void (*)(void))bsmp_function_result, outcome_ended, NO_SUMS, CALLS(results)},
    {"bsmp_board_store", call_board_store, (void (*)(void))bsmp_board_store, refusal_ended, NO_SUMS, CALLS(stores)},
    {"bsmp_fresh_board", call_fresh_board, (void (*)(void))bsmp_fresh_board, refusal_ended, SUMS, CALLS(fresh_boards)},
    {"bsmp_fresh_board refused", call_fresh_board, (void (*)(void))bsmp_fresh_board, refusal_ended, NO_SUMS, CALLS(refused_fresh_boards)},
    {"bsmp_md5", call_md5, (void (*)(void))bsmp_md5, sum_ended, SUMS, CALLS(messages)},
    {"bsmp_read_signed", call_read_signed, (void (*)(void))bsmp_read_signed, refusal_ended, NO_SUMS, CALLS(signed_readings)},
    {"bsmp_read_unsigned", call_read_unsigned, (void (*)(void))bsmp_read_unsigned, refusal_ended, NO_SUMS, CALLS(unsigned_readings)},
    {"bsmp_write_signed", call_write_signed, (void (*)(void))bsmp_write_signed, refusal_ended, NO_SUMS, CALLS(signed_writings)},
    {"bsmp_write_unsigned", call_write_unsigned, (void (*)(void))bsmp_write_unsigned, refusal_ended, NO_SUMS, CALLS(unsigned_writings)},
#ifdef ASKING
    {"bsmp_ask_packet", call_ask_packet, (void (*)(void))bsmp_ask_packet, asked_ended, ASKS, CALLS(asks)},
    {"bsmp_hear_reply", call_hear_reply, (void (*)(void))bsmp_hear_reply, heard_ended, ASKS, CALLS(hearings)},
    {"bsmp_hear_place", call_hear_place, (void (*)(void))bsmp_hear_place, refusal_ended, ASKS, CALLS(places)},
    {"bsmp_hear_signed", call_hear_signed, (void (*)(void))bsmp_hear_signed, refusal_ended, ASKS, CALLS(signed_hearings)},
    {"bsmp_hear_unsigned", call_hear_unsigned, (void (*)(void))bsmp_hear_unsigned, refusal_ended, ASKS, CALLS(unsigned_hearings)},
    {"bsmp_ask_signed", call_ask_signed, (void (*)(void))bsmp_ask_signed, refusal_ended, ASKS, CALLS(signed_asks)},
    {"bsmp_ask_unsigned", call_ask_unsigned, (void (*)(void))bsmp_ask_unsigned, refusal_ended, ASKS, CALLS(unsigned_asks)},
#endif
};

static int failures;

static size_t need(const struct kind *kind, const struct call *call)
{
    size_t callers = deepest(kind->make, call, at_once);
    deepest(kind->make, call, kind->function); /* the first call may have to find memcpy, which is the loader's work */
    size_t whole = deepest(kind->make, call, kind->function);
    unsigned ended = kind->ended();
    if (ended != call->ends) {
        printf("FAILED: %s, %s: ended in %03X and not in %03X\n", kind->name, call->name, ended, call->ends);
        failures++;
    }
    return whole - callers;
}

static size_t worst_of(const struct kind *kind)
{
    size_t worst = 0;
    for (size_t i = 0; i < kind->count; i++) {
        size_t bytes_needed = need(kind, &kind->calls[i]);
        printf("%5u  %s, %s\n", (unsigned)bytes_needed, kind->name, kind->calls[i].name);
        if (bytes_needed > worst) worst = bytes_needed;
    }
    return worst;
}

int main(void)
{
    static const unsigned limits[SORTS] = {MOST_STACK, MOST_SUM_STACK, MOST_ASKING_STACK};
    static const char *const sorts[SORTS] = {"a call that works out no sums", "a call that works out sums", "an asking call"};
    size_t worst[sizeof kinds / sizeof kinds[0]];
    unsigned most[SORTS] = {0};
    for (size_t i = 0; i < sizeof kinds / sizeof kinds[0]; i++) worst[i] = worst_of(&kinds[i]);
    puts("Bytes of stack at most, beyond the arguments and the return address:");
    for (size_t i = 0; i < sizeof kinds / sizeof kinds[0]; i++) {
        unsigned *of_its_sort = &most[kinds[i].sort];
        printf("%5u  %s\n", (unsigned)worst[i], kinds[i].name);
        if (worst[i] > *of_its_sort) *of_its_sort = (unsigned)worst[i];
    }
    for (int sort = 0; sort < SORTS; sort++) {
        if (most[sort] <= limits[sort]) continue;
        printf("FAILED: %s needs %u bytes of stack; the limit is %u\n", sorts[sort], most[sort], limits[sort]);
        failures++;
    }
    printf("%u bytes of stack in the worst case, %u where sums are worked out, ", most[NO_SUMS], most[SUMS]);
    if (most[ASKS] > 0) printf("%u to ask, ", most[ASKS]);
    printf("%d failed\n", failures);
    return failures != 0;
}
