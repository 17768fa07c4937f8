/* bsmp_ask.h: the asking side of the Basic Small Messages Protocol (BSMP) 2.20, for C11 and C++11: what a gateway needs to ask
 * nodes. bsmp.h, which it includes, is the node.
 *
 * It writes any request of the protocol from its meaning, reads the reply to it, and keeps what a node's lists tell in a table:
 * the node's variables, made groups, curves and functions. While that table is the node's, each answer is read as what the node
 * holds, or as the error that it names. What comes of every input is stated once and proved.
 * The gateway keeps all memory and lends it to each call. The library allocates nothing and remembers nothing. Sending, waiting
 * for a reply, and how often it is asked again are the gateway's own affair.
 *
 * There are two layers:
 *   - struct bsmp_request says what is asked for; bsmp_request_.. make it, and one struct serves bsmp_ask, which writes the
 *     packet, and bsmp_hear, which reads the reply. These functions are inline; every judgement in them is the library's.
 *   - bsmp_ask_packet and bsmp_hear_reply of the library do the same over bare numbers. They come after, with who needs them.
 * Five functions of the library belong to both: bsmp_hear_place, for the values of a group, and bsmp_hear_signed,
 * bsmp_hear_unsigned, bsmp_ask_signed and bsmp_ask_unsigned, for numbers. The bsmp_listed_.., which are inline too, read single
 * records of a list. examples/first_ask.c is the shortest program.
 *
 * Link with libbsmp_ask.a. It needs nothing of libbsmp_c.a, the node's library, and that nothing of it: who only asks links the
 * one, who only answers the other, who does both links both. Like the node's it is there as the proved archive, for x86-64, and
 * as the portable edition; bsmp.h says of both what they are, and what they call. No call takes over 1,024 bytes of stack beyond
 * its arguments (ctest/stack.c measures it).
 *
 * Duties of the caller. Nothing can check them, and a call that breaks one may do anything:
 *   - Every pointer is valid for its length, which counts elements, and is aligned as its type asks.
 *   - All that is lent is initialised; so are buffers that are only written.
 *   - What a call writes (every pointer without const) overlaps nothing else that is lent to it. What it only reads may overlap.
 *   - While a call runs, nobody else writes what is lent or reads what the call writes: no interrupt, no other thread.
 * NULL is fine for every slice (a pointer with its length) of length 0. A learned table and a request are never NULL. A request
 * holds a pointer to its bytes and no copy, so they are lent to bsmp_ask and again to bsmp_hear.
 *
 * Duties that keep the answers true. Who breaks one gets a refusal or a wrong answer, and nothing worse:
 *   - There is a table for each node. It is handed in with replies of that node only.
 *   - A reply is heard with the request and the destination that it answers, and with the same bytes. Nothing in a reply tells
 *     what it answers or whose it is: a late reply to one read may fit the next. So at most one request is under way on a line,
 *     and before the next is sent, what may still come is waited for and dropped.
 *
 * Nothing else is asked. Wrong numbers, lengths, tables and replies get a refusal by number, and a refused call changes no byte
 * of any table or buffer.
 *
 * How a gateway learns a node. Nothing is known at first: the table is zeros. Then these are sent, in this order, and each reply
 * is heard with the table:
 *   1. bsmp_request_list_variables (02). It comes first, since it forgets the made groups, which are sets of variables.
 *   2. bsmp_request_list_groups (04). heard.length is the number of groups, the three that always exist among them.
 *   3. bsmp_request_show_group (06) of each made group: 3, 4 and so on, below that number.
 *   4. bsmp_request_list_curves (08).
 *   5. bsmp_request_list_functions (0C).
 * Until the first was heard, the table is refused where it counts. The others can be left out: 4 and 5 if curves or functions are
 * not read, 2 and 3 if made groups are neither read nor made. After these steps the table is the node's, and any request can be
 * asked. When a 30 or a 32 is answered by E0 and that is heard, the table follows it: the new group is added, or the made groups
 * are forgotten. The table can't follow what is not heard: a 30 or 32 to many nodes, which nobody answers, one whose reply was
 * lost, or another master's, and a node that started anew. After these, steps 2 and 3 are done again; if the node itself may be
 * another one, all five are. */
#ifndef BSMP_ASK_H
#define BSMP_ASK_H

#include "bsmp.h"

#ifdef __cplusplus
#define BSMP_ASSERT(condition) static_assert(condition, #condition)
extern "C" {
#else
#define BSMP_ASSERT(condition) _Static_assert(condition, #condition)
#endif

/* ---- Limits ---- */

enum {
    BSMP_LEAST_MULTICAST = 248,    /* 248 to 255 address many nodes; they carry a request out and don't answer */
    BSMP_MOST_ASKED_NUMBER = 255,  /* of a variable, group, curve or function: a byte of a request */
    BSMP_MOST_ASKED_BLOCK = 65535, /* two bytes */
    BSMP_MOST_PAYLOAD = 4099,      /* bytes of a request between its SIZE and its checksum */
    BSMP_REQUEST_ROOM = 4104       /* the least length of a buffer for requests */
};

/* ---- Codes ---- */

/* The requests. */
enum bsmp_command {
    BSMP_COMMAND_VERSION = 0x00,
    BSMP_COMMAND_LIST_VARIABLES = 0x02,
    BSMP_COMMAND_LIST_GROUPS = 0x04,
    BSMP_COMMAND_SHOW_GROUP = 0x06,
    BSMP_COMMAND_LIST_CURVES = 0x08,
    BSMP_COMMAND_READ_SUM = 0x0A,
    BSMP_COMMAND_LIST_FUNCTIONS = 0x0C,
    BSMP_COMMAND_READ_VARIABLE = 0x10,
    BSMP_COMMAND_READ_GROUP = 0x12,
    BSMP_COMMAND_WRITE_VARIABLE = 0x20,
    BSMP_COMMAND_WRITE_GROUP = 0x22,
    BSMP_COMMAND_MASK_VARIABLE = 0x24,
    BSMP_COMMAND_MASK_GROUP = 0x26,
    BSMP_COMMAND_WRITE_READ = 0x28,
    BSMP_COMMAND_MAKE_GROUP = 0x30,
    BSMP_COMMAND_REMOVE_GROUPS = 0x32,
    BSMP_COMMAND_READ_BLOCK = 0x40,
    BSMP_COMMAND_WRITE_BLOCK = 0x41,
    BSMP_COMMAND_RENEW_SUM = 0x42,
    BSMP_COMMAND_RUN_FUNCTION = 0x50
};

/* What a mask does to the bits that it has: it turns them on (set and or are the same), turns them off, inverts them (toggle and
 * xor are the same), or keeps only them. */
enum bsmp_mask {
    BSMP_MASK_SET = 0x53,
    BSMP_MASK_OR = 0x4F,
    BSMP_MASK_CLEAR = 0x43,
    BSMP_MASK_TOGGLE = 0x54,
    BSMP_MASK_XOR = 0x58,
    BSMP_MASK_AND = 0x41
};

/* What a reply says. 3 to 12 are answers with bytes to be read in the reply. */
enum bsmp_heard_kind {
    BSMP_HEARD_REFUSED = 0,    /* a local refusal: nothing was heard, and the table is as it was */
    BSMP_HEARD_ERROR = 1,      /* one of the wire codes E1 to E8; the table is as it was */
    BSMP_HEARD_DONE = 2,       /* E0: it is done */
    BSMP_HEARD_VERSION = 3,    /* 01: three bytes, 02 14 00; no other version fits */
    BSMP_HEARD_VARIABLES = 4,  /* 03: a record of one byte for each variable */
    BSMP_HEARD_GROUPS = 5,     /* 05: a record of one byte for each group */
    BSMP_HEARD_MEMBERS = 6,    /* 07: a group's variables, a byte each, ascending */
    BSMP_HEARD_CURVES = 7,     /* 09: a record of BSMP_CURVE_RECORD bytes for each curve */
    BSMP_HEARD_FUNCTIONS = 8,  /* 0D: a record of one byte for each function */
    BSMP_HEARD_VALUES = 9,     /* 11 or 13: the bytes of a variable, or of the members of a group, ascending */
    BSMP_HEARD_BLOCK = 10,     /* 41: the bytes of the block, as many as it has */
    BSMP_HEARD_SUM = 11,       /* 0B: BSMP_SUM_SIZE bytes */
    BSMP_HEARD_OUTPUT = 12,    /* 51: a function's output */
    BSMP_HEARD_FAILED = 13     /* 53: a function failed, with its error byte */
};

/* ---- What is lent ---- */

/* What is learned of one node. All zeros is the table of which nothing is known yet. Records are numbered from 0, in their order.
 * Nothing counts of the places from a count on, nor of the bits in `writable` from variable_count on. A gateway may also fill it
 * by itself, from a file say: any numbers are taken, and a table that breaks the limits, by a count, a record or a set, is
 * refused where it counts. */
struct bsmp_learned {
    uint64_t variable_count;              /* 1 to 64 */
    uint64_t writable;                    /* bit n is set if variable n is writable */
    uint64_t group_count;                 /* made groups, 0 to 5 */
    uint64_t curve_count;                 /* 0 to 8 */
    uint64_t function_count;              /* 0 to 16 */
    uint64_t sets[BSMP_MOST_MADE_GROUPS]; /* group 3 + g is sets[g], with bit n for variable n */
    struct bsmp_curve curves[BSMP_MOST_CURVES];
    uint8_t sizes[BSMP_MOST_VARIABLES]; /* of the variables, 1 to 127 bytes each */
    struct bsmp_function functions[BSMP_MOST_FUNCTIONS];
};

/* What is asked for. bsmp_request_.. make it; what a request has no use for counts for nothing, and is 0. */
struct bsmp_request {
    uint8_t code;         /* enum bsmp_command */
    uint8_t operation;    /* 24, 26: enum bsmp_mask */
    size_t number;        /* the variable, group, curve or function that it names; 28: the variable written */
    size_t other;         /* 28: the variable read */
    size_t block;         /* 40, 41 */
    const uint8_t *bytes; /* 20, 22, 28: values.  24, 26: masks.  30: variables.  41: the block's bytes.  50: input */
    size_t length;
};

/* ---- What comes back ---- */

/* Refusal BSMP_NOT_REFUSED and the length of the packet, or a refusal and 0. */
struct bsmp_asked {
    uint8_t refusal; /* enum bsmp_refusal */
    size_t length;   /* bytes at the start of the buffer */
};

/* What a kind has no use for is 0. */
struct bsmp_heard {
    uint8_t kind;    /* enum bsmp_heard_kind */
    uint8_t refusal; /* BSMP_HEARD_REFUSED: enum bsmp_refusal */
    uint8_t error;   /* BSMP_HEARD_ERROR: enum bsmp_wire_code, E1 to E8.  BSMP_HEARD_FAILED: the function's error byte */
    size_t place;    /* answers but E0 and 53: the place in the reply from which on it stands */
    size_t length;   /* the same: its bytes; of a list, its records */
};

/* A byte of list 03 or 05. */
struct bsmp_listed {
    bool writable;
    uint8_t size; /* 03: the variable's bytes.  05: the group's members */
};

/* ---- What can be asked for ----
 *
 * These only put together what they are given, without a look at it. A number of each sort counts on its own: variable 2 is
 * nothing to group 2. Beside each stands its code, and the kind of its answer if it is no error. */

static inline struct bsmp_request bsmp_request_version(void);            /* 00; BSMP_HEARD_VERSION */
static inline struct bsmp_request bsmp_request_list_variables(void);     /* 02; BSMP_HEARD_VARIABLES */
static inline struct bsmp_request bsmp_request_list_groups(void);        /* 04; BSMP_HEARD_GROUPS */
static inline struct bsmp_request bsmp_request_show_group(size_t group); /* 06; BSMP_HEARD_MEMBERS */
static inline struct bsmp_request bsmp_request_list_curves(void);        /* 08; BSMP_HEARD_CURVES */
static inline struct bsmp_request bsmp_request_list_functions(void);     /* 0C; BSMP_HEARD_FUNCTIONS */

/* 10, 12; BSMP_HEARD_VALUES. */
static inline struct bsmp_request bsmp_request_read_variable(size_t variable);
static inline struct bsmp_request bsmp_request_read_group(size_t group);

/* 20, 22; BSMP_HEARD_DONE. The bytes are the value, or the values of all members in order of number, one right after the other. */
static inline struct bsmp_request bsmp_request_write_variable(size_t variable, const uint8_t *bytes, size_t length);
static inline struct bsmp_request bsmp_request_write_group(size_t group, const uint8_t *bytes, size_t length);

/* 24, 26; BSMP_HEARD_DONE. The mask has as many bytes as the value, or as the values of all members. */
static inline struct bsmp_request bsmp_request_mask_variable(size_t variable, enum bsmp_mask operation, const uint8_t *mask,
                                                             size_t length);
static inline struct bsmp_request bsmp_request_mask_group(size_t group, enum bsmp_mask operation, const uint8_t *mask,
                                                          size_t length);

/* 28; BSMP_HEARD_VALUES: the value of the second variable, after the first was written. They may be the same. */
static inline struct bsmp_request bsmp_request_write_read(size_t written, size_t read, const uint8_t *bytes, size_t length);

/* 30; BSMP_HEARD_DONE. The variables of the new group, a byte each, in any order: the packet has them sorted. It gets the number
 * after the last group's. A variable that is named twice gets E4 from the node. */
static inline struct bsmp_request bsmp_request_make_group(const uint8_t *variables, size_t count);

/* 32; BSMP_HEARD_DONE. Removes all made groups. */
static inline struct bsmp_request bsmp_request_remove_groups(void);

/* 40; BSMP_HEARD_BLOCK: as many bytes as the block has, 1 to the block size. */
static inline struct bsmp_request bsmp_request_read_block(size_t curve, size_t block);

/* 41; BSMP_HEARD_DONE. 1 to the block size of bytes; the block has as many then. */
static inline struct bsmp_request bsmp_request_write_block(size_t curve, size_t block, const uint8_t *bytes, size_t length);

/* 0A; BSMP_HEARD_SUM: the sum of a curve as it was last worked out.  42; BSMP_HEARD_DONE: it is worked out anew, which may take
 * the node a while. bsmp_node_fresh in bsmp.h has more about sums, and bsmp_md5 there works out one to compare with. */
static inline struct bsmp_request bsmp_request_read_sum(size_t curve);
static inline struct bsmp_request bsmp_request_renew_sum(size_t curve);

/* 50; BSMP_HEARD_OUTPUT, or BSMP_HEARD_FAILED if the function failed. */
static inline struct bsmp_request bsmp_request_run_function(size_t function, const uint8_t *input, size_t length);

/* ---- Asking and hearing ---- */

/* Writes the packet of a request, all its bytes from the destination to the checksum, at the start of the buffer.
 *   destination  a node, 1 to 31; or many, 248 to 255, which don't answer
 *   buffer       of BSMP_REQUEST_ROOM bytes at least
 * Refusals, in this order, which write nothing:
 *   2   the destination is neither 1 to 31 nor 248 to 255
 *   3   the buffer is under BSMP_REQUEST_ROOM bytes, however short the request is
 *   14  it can't be written: a number over 255, a block over 65,535, or a payload over BSMP_MOST_PAYLOAD bytes, the numbers and
 *       the operation before its bytes included. So is a struct made by hand whose code is none of enum bsmp_command, or a 24 or
 *       26 whose operation is none of enum bsmp_mask.
 * Else the packet's own bytes are written and no others, and it is to be sent.
 * No table is asked: a request that names what the node hasn't got, or has a wrong number of bytes, is written, and gets the
 * node's error. */
static inline struct bsmp_asked bsmp_ask(uint8_t destination, const struct bsmp_request *request, uint8_t *buffer, size_t room);

/* Reads the reply to a request, and learns from it.
 *   learned      the node's table
 *   destination  where the request went
 *   request      the request, as it was written
 *   reply        what the line brought, all its bytes from the destination to the checksum
 * Refusals, in this order, which leave the table as it was:
 *   1   the table breaks the limits: a count, size, curve, function or set, or the bytes of all variables or curves. Only where
 *       it counts for the answer: after 0A, 10, 12, 28, 40 and 50.
 *   2   the destination is neither 1 to 31 nor 248 to 255
 *   4   the reply is under 2 or over 4,104 bytes
 *   5   its bytes' sum modulo 256 isn't 0
 *   13  it doesn't fit the request
 * A reply fits if the request did not go to many, the reply's destination is 0, its SIZE is the number of bytes that follow, and
 * it is
 *   - an error, E1 to E8, without a payload, whatever the request; or
 *   - the answer to this request, with its code and payload:
 *       after 00       01: 02 14 00
 *       after 02       03: 1 to 64 records, within the limits
 *       after 04       05: 3 to 8 records of 1 to 64 members, or of none for groups 1 and 2
 *       after 06       07: 1 to 64 numbers, or none for groups 1 and 2, ascending and below 64
 *       after 08       09: up to 8 whole records, within the limits
 *       after 0A       0B: 16 bytes
 *       after 0C       0D: up to 16 records
 *       after 10, 28   11: as many bytes as the variable read has by the table
 *       after 12       13: as many bytes as all members have by the table
 *       after 40       41: the same curve and block, and 1 to as many bytes as a block has by the table
 *       after 50       51: as many bytes as the function gives by the table; or 53: one byte
 *       after others   E0: nothing
 *     After 0A, 10, 12, 28, 40 and 50 the table must have what was named: of 28 the variable read, of 40 the curve, not the block.
 * A request that bsmp_ask refuses has no reply; with a code or operation that there is none of, no reply fits.
 *
 * What is learned. A refusal and an error teach nothing. An answer teaches
 *   03  all variables: count, sizes and which are writable. The made groups are forgotten.
 *   05  that made groups past its end are gone. Those up to there stay as they are known; their members come by 06.
 *   07  of group 3 to 7: its members, if it is a known group or the next one after them, if it has a member, and if all of them
 *       are known variables; else nothing. Groups 0 to 2 are known by the variables.
 *   09  all curves.
 *   0D  all functions.
 *   E0  after 30: the new group, as the next one; nothing if five are known, or if its variables are none or not all known.
 *       After 32: that there are no made groups.
 * and the others nothing. Only the table is written: the counts, and the places of what was learned. */
static inline struct bsmp_heard bsmp_hear(struct bsmp_learned *learned, uint8_t destination, const struct bsmp_request *request,
                                          const uint8_t *reply, size_t length);

/* Where the bytes of a variable stand in a reply to a read of its group (12) that was heard as BSMP_HEARD_VALUES with this table:
 * the place.size bytes from reply + place.offset on. In the bytes of a write or a mask of the group (22, 26) they stand 4 places
 * earlier. After 10 and 28 there is one value, and it stands at heard.place.
 * Refusals, in this order:
 *   1  the table breaks the limits
 *   9  the table has no such variable or no such group, or the variable is not a member of it */
struct bsmp_place bsmp_hear_place(const struct bsmp_learned *learned, size_t group, size_t variable);

/* Bytes to number, and number to bytes, by the reading rule of bsmp_node_read_signed and bsmp_node_write_signed: for signed kinds
 * the sign is the top bit of the most significant byte. Kinds don't travel on the wire, so the gateway supplies them:
 *   kinds  enum bsmp_kind of each variable, in order of number. As many variables count as there are kinds, at most those of the
 *          table; further kinds count for nothing.
 * Of the table, only the number and sizes of the variables count, as far as there are kinds.
 * Refusals, in this order:
 *   1   there is no variable with a kind, or there are over 64; one of them has a size that is not 1 to 127, a kind that is none,
 *       or a size other than 1, 2, 4 and 8 for a number; or they have over 4,096 bytes together
 *   9   the variable is none of them
 *   11  it is plain, or signed is asked of unsigned, or the reverse
 *   10  the bytes, or the buffer, are not the variable's size
 *   12  writing: the number is outside the variable's range
 * bsmp_ask_signed and bsmp_ask_unsigned give 0 or the refusal; a refusal leaves the buffer as it was, else all of it is written.
 * It then is what bsmp_request_write_variable takes. */
struct bsmp_signed_reading bsmp_hear_signed(const struct bsmp_learned *learned, const uint8_t *kinds, size_t kind_count,
                                            size_t variable, const uint8_t *bytes, size_t byte_count);
struct bsmp_unsigned_reading bsmp_hear_unsigned(const struct bsmp_learned *learned, const uint8_t *kinds, size_t kind_count,
                                                size_t variable, const uint8_t *bytes, size_t byte_count);
uint8_t bsmp_ask_signed(const struct bsmp_learned *learned, const uint8_t *kinds, size_t kind_count, size_t variable,
                        int64_t number, uint8_t *buffer, size_t buffer_length);
uint8_t bsmp_ask_unsigned(const struct bsmp_learned *learned, const uint8_t *kinds, size_t kind_count, size_t variable,
                          uint64_t number, uint8_t *buffer, size_t buffer_length);

/* ---- Records of a list ----
 *
 * As they stand in a reply that was heard, from reply + heard.place on: to show a list without a table. Any bytes are taken. */

enum { BSMP_CURVE_RECORD = 5 }; /* bytes of a curve in list 09 */

/* Of lists 03 and 05: the top bit is set if it is writable, the low seven are the size, or the number of members. */
static inline struct bsmp_listed bsmp_listed_variable(uint8_t record);
static inline struct bsmp_listed bsmp_listed_group(uint8_t record);

/* Of list 09: type, block size and blocks, of which 65,536 are sent as 0. Record n starts at
 * reply + heard.place + BSMP_CURVE_RECORD * n. */
static inline struct bsmp_curve bsmp_listed_curve(const uint8_t *record);

/* Of list 0D: the high four bits are the bytes that go in, the low four those that come out. */
static inline struct bsmp_function bsmp_listed_function(uint8_t record);

/* ---- The library: the same over bare numbers ----
 *
 * For who has no struct bsmp_request: the face of another language, as rust/ is. bsmp_ask_packet does what bsmp_ask does and
 * bsmp_hear_reply what bsmp_hear does, and the fields of the request are handed in one by one; duties, refusals, what comes back
 * and what is written are the same. A code that is none of enum bsmp_command, or an operation of 24 or 26 that is none of
 * enum bsmp_mask, is refused: by 14 after 2 and 3, and by 13 after 2, 4 and 5. */

struct bsmp_asked bsmp_ask_packet(uint8_t destination, uint8_t code, uint8_t operation, size_t number, size_t other, size_t block,
                                  const uint8_t *bytes, size_t byte_count, uint8_t *packet, size_t room);

struct bsmp_heard bsmp_hear_reply(struct bsmp_learned *learned, uint8_t destination, uint8_t code, uint8_t operation,
                                  size_t number, size_t other, size_t block, const uint8_t *bytes, size_t byte_count,
                                  const uint8_t *reply, size_t reply_length);

/* The layouts that the library takes. */
BSMP_ASSERT(sizeof(struct bsmp_learned) == 272);
BSMP_ASSERT(offsetof(struct bsmp_learned, writable) == 8 && offsetof(struct bsmp_learned, group_count) == 16);
BSMP_ASSERT(offsetof(struct bsmp_learned, curve_count) == 24 && offsetof(struct bsmp_learned, function_count) == 32);
BSMP_ASSERT(offsetof(struct bsmp_learned, sets) == 40 && offsetof(struct bsmp_learned, curves) == 80);
BSMP_ASSERT(offsetof(struct bsmp_learned, sizes) == 176 && offsetof(struct bsmp_learned, functions) == 240);
BSMP_ASSERT(sizeof(struct bsmp_asked) == 2 * sizeof(size_t) && offsetof(struct bsmp_asked, length) == sizeof(size_t));
BSMP_ASSERT(sizeof(struct bsmp_heard) == 3 * sizeof(size_t));
BSMP_ASSERT(offsetof(struct bsmp_heard, refusal) == 1 && offsetof(struct bsmp_heard, error) == 2);
BSMP_ASSERT(offsetof(struct bsmp_heard, place) == sizeof(size_t) && offsetof(struct bsmp_heard, length) == 2 * sizeof(size_t));
BSMP_ASSERT(sizeof(struct bsmp_place) == 3 * sizeof(size_t));
BSMP_ASSERT(offsetof(struct bsmp_place, offset) == sizeof(size_t) && offsetof(struct bsmp_place, size) == 2 * sizeof(size_t));

/* ---- How the inline functions do it ---- */

#define BSMP_REQUEST(code, operation, number, other, block, bytes, length)                                                   \
    struct bsmp_request request = {(uint8_t)(code), (uint8_t)(operation), number, other, block, bytes, length};              \
    return request

static inline struct bsmp_request bsmp_request_version(void)
{
    BSMP_REQUEST(BSMP_COMMAND_VERSION, 0, 0, 0, 0, NULL, 0);
}

static inline struct bsmp_request bsmp_request_list_variables(void)
{
    BSMP_REQUEST(BSMP_COMMAND_LIST_VARIABLES, 0, 0, 0, 0, NULL, 0);
}

static inline struct bsmp_request bsmp_request_list_groups(void)
{
    BSMP_REQUEST(BSMP_COMMAND_LIST_GROUPS, 0, 0, 0, 0, NULL, 0);
}

static inline struct bsmp_request bsmp_request_show_group(size_t group)
{
    BSMP_REQUEST(BSMP_COMMAND_SHOW_GROUP, 0, group, 0, 0, NULL, 0);
}

static inline struct bsmp_request bsmp_request_list_curves(void)
{
    BSMP_REQUEST(BSMP_COMMAND_LIST_CURVES, 0, 0, 0, 0, NULL, 0);
}

static inline struct bsmp_request bsmp_request_read_sum(size_t curve)
{
    BSMP_REQUEST(BSMP_COMMAND_READ_SUM, 0, curve, 0, 0, NULL, 0);
}

static inline struct bsmp_request bsmp_request_list_functions(void)
{
    BSMP_REQUEST(BSMP_COMMAND_LIST_FUNCTIONS, 0, 0, 0, 0, NULL, 0);
}

static inline struct bsmp_request bsmp_request_read_variable(size_t variable)
{
    BSMP_REQUEST(BSMP_COMMAND_READ_VARIABLE, 0, variable, 0, 0, NULL, 0);
}

static inline struct bsmp_request bsmp_request_read_group(size_t group)
{
    BSMP_REQUEST(BSMP_COMMAND_READ_GROUP, 0, group, 0, 0, NULL, 0);
}

static inline struct bsmp_request bsmp_request_write_variable(size_t variable, const uint8_t *bytes, size_t length)
{
    BSMP_REQUEST(BSMP_COMMAND_WRITE_VARIABLE, 0, variable, 0, 0, bytes, length);
}

static inline struct bsmp_request bsmp_request_write_group(size_t group, const uint8_t *bytes, size_t length)
{
    BSMP_REQUEST(BSMP_COMMAND_WRITE_GROUP, 0, group, 0, 0, bytes, length);
}

static inline struct bsmp_request bsmp_request_mask_variable(size_t variable, enum bsmp_mask operation, const uint8_t *mask,
                                                             size_t length)
{
    BSMP_REQUEST(BSMP_COMMAND_MASK_VARIABLE, operation, variable, 0, 0, mask, length);
}

static inline struct bsmp_request bsmp_request_mask_group(size_t group, enum bsmp_mask operation, const uint8_t *mask,
                                                          size_t length)
{
    BSMP_REQUEST(BSMP_COMMAND_MASK_GROUP, operation, group, 0, 0, mask, length);
}

static inline struct bsmp_request bsmp_request_write_read(size_t written, size_t read, const uint8_t *bytes, size_t length)
{
    BSMP_REQUEST(BSMP_COMMAND_WRITE_READ, 0, written, read, 0, bytes, length);
}

static inline struct bsmp_request bsmp_request_make_group(const uint8_t *variables, size_t count)
{
    BSMP_REQUEST(BSMP_COMMAND_MAKE_GROUP, 0, 0, 0, 0, variables, count);
}

static inline struct bsmp_request bsmp_request_remove_groups(void)
{
    BSMP_REQUEST(BSMP_COMMAND_REMOVE_GROUPS, 0, 0, 0, 0, NULL, 0);
}

static inline struct bsmp_request bsmp_request_read_block(size_t curve, size_t block)
{
    BSMP_REQUEST(BSMP_COMMAND_READ_BLOCK, 0, curve, 0, block, NULL, 0);
}

static inline struct bsmp_request bsmp_request_write_block(size_t curve, size_t block, const uint8_t *bytes, size_t length)
{
    BSMP_REQUEST(BSMP_COMMAND_WRITE_BLOCK, 0, curve, 0, block, bytes, length);
}

static inline struct bsmp_request bsmp_request_renew_sum(size_t curve)
{
    BSMP_REQUEST(BSMP_COMMAND_RENEW_SUM, 0, curve, 0, 0, NULL, 0);
}

static inline struct bsmp_request bsmp_request_run_function(size_t function, const uint8_t *input, size_t length)
{
    BSMP_REQUEST(BSMP_COMMAND_RUN_FUNCTION, 0, function, 0, 0, input, length);
}

#define BSMP_FIELDS                                                                                                          \
    request->code, request->operation, request->number, request->other, request->block, request->bytes, request->length

static inline struct bsmp_asked bsmp_ask(uint8_t destination, const struct bsmp_request *request, uint8_t *buffer, size_t room)
{
    return bsmp_ask_packet(destination, BSMP_FIELDS, buffer, room);
}

static inline struct bsmp_heard bsmp_hear(struct bsmp_learned *learned, uint8_t destination, const struct bsmp_request *request,
                                          const uint8_t *reply, size_t length)
{
    return bsmp_hear_reply(learned, destination, BSMP_FIELDS, reply, length);
}

static inline struct bsmp_listed bsmp_listed_variable(uint8_t record)
{
    struct bsmp_listed listed = {(record & 0x80) != 0, (uint8_t)(record & 0x7F)};
    return listed;
}

static inline struct bsmp_listed bsmp_listed_group(uint8_t record)
{
    return bsmp_listed_variable(record);
}

static inline struct bsmp_curve bsmp_listed_curve(const uint8_t *record)
{
    struct bsmp_curve curve = {record[0], 256u * record[1] + record[2], 256u * record[3] + record[4]};
    if (curve.blocks == 0) curve.blocks = BSMP_MOST_BLOCKS;
    return curve;
}

static inline struct bsmp_function bsmp_listed_function(uint8_t record)
{
    struct bsmp_function function = {(uint8_t)(record >> 4), (uint8_t)(record & 0x0F)};
    return function;
}

#ifdef __cplusplus
}
#endif
#undef BSMP_REQUEST
#undef BSMP_FIELDS
#undef BSMP_ASSERT

#endif
