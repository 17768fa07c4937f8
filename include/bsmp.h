/* bsmp.h: the node of one board in the Basic Small Messages Protocol (BSMP) 2.20, for C11 and C++11. The other side of the line,
 * which asks nodes and reads what they answer, is bsmp_ask.h.
 *
 * A packet and the board's state give one outcome and the next state; what comes of every input is stated once and proved.
 * The board keeps all memory and lends it to each call. The library allocates nothing and remembers nothing.
 * Line silence, baud rate and what a function does inside are the board's own affair.
 *
 * There are two layers, and a function's name tells its layer:
 *   - bsmp_node_.. takes a board and its state as two structs. It is what a board needs and comes first. These functions are
 *     inline; every judgement in them is the library's.
 *   - The nine functions of the library itself have no such prefix and take bare slices. They come after, with who needs them.
 * Three helpers belong to both: bsmp_checksum, bsmp_refusal_words and the library's bsmp_md5. examples/first_packet.c is the
 * shortest program.
 *
 * Link with libbsmp_c.a. There are two:
 *   - The proved archive is x86-64 code with the System V calling convention, and uses the SSE registers. It calls memcpy,
 *     memmove and memset at most.
 *   - The portable edition is the proved source, compiled elsewhere and tested, for any target whose size_t has 32 or 64 bits;
 *     docs/BOARDS.md says what it calls, and what one trusts besides the proofs.
 *
 * Duties of the caller. Nothing can check them, and a call that breaks one may do anything:
 *   - Every pointer is valid for its length, which counts elements, and is aligned as its type asks.
 *   - All that is lent is initialised; so are buffers that are only written.
 *   - What a call writes (every pointer without const) overlaps nothing else that is lent to it. What it only reads may overlap.
 *   - While a call runs, nobody else writes what is lent or reads what the call writes: no interrupt, no other thread.
 *   - A bool is 0 or 1.
 * NULL is fine for every slice (a pointer with its length) of length 0. A group table, a board and a state are never NULL.
 *
 * Nothing else is asked. Wrong records, lengths, numbers and packets get a refusal by number, and a refused call changes no
 * byte of any store, length, sum, group table or buffer. */
#ifndef BSMP_H
#define BSMP_H

#include <stdbool.h>
#include <stddef.h>
#include <stdint.h>

/* The version of this header with its library; .ci/checks/version holds the Rust face's and the suite's to it. And the version of
 * the protocol, as the node answers it to command 00. */
#define BSMP_VERSION_MAJOR 0
#define BSMP_VERSION_MINOR 6
#define BSMP_VERSION_PATCH 0
#define BSMP_VERSION (10000 * BSMP_VERSION_MAJOR + 100 * BSMP_VERSION_MINOR + BSMP_VERSION_PATCH) /* for #if */
#define BSMP_PROTOCOL_MAJOR 2
#define BSMP_PROTOCOL_MINOR 20
#define BSMP_PROTOCOL_REVISION 0

#if defined(_WIN32) && !defined(BSMP_PORTABLE)
#error "the proved libbsmp_c.a has the System V calling convention; for the portable edition, define BSMP_PORTABLE"
#endif

#ifdef __cplusplus
#define BSMP_ASSERT(condition) static_assert(condition, #condition)
extern "C" {
#else
#define BSMP_ASSERT(condition) _Static_assert(condition, #condition)
#endif

/* ---- Limits ---- */

enum {
    BSMP_MOST_VARIABLES = 64,
    BSMP_MOST_VARIABLE_SIZE = 127,  /* bytes of one variable; at least 1 */
    BSMP_MOST_VALUE_BYTES = 4096,   /* bytes of all variables together */
    BSMP_MOST_CURVES = 8,
    BSMP_MOST_BLOCK_SIZE = 4096,    /* at least 1 */
    BSMP_MOST_BLOCKS = 65536,       /* of one curve, at least 1; of all curves together too, each with a length */
    BSMP_MOST_CURVE_BYTES = 65536,  /* bytes of all curves together */
    BSMP_SUM_SIZE = 16,             /* bytes of the sum of one curve */
    BSMP_MOST_FUNCTIONS = 16,
    BSMP_MOST_INPUT = 15,           /* bytes that go into a function */
    BSMP_MOST_OUTPUT = 15,          /* bytes that come out */
    BSMP_MOST_MADE_GROUPS = 5,
    BSMP_FIRST_MADE_GROUP = 3,      /* 0, 1 and 2 always exist: all variables, the read-only ones, the writable ones */
    BSMP_LEAST_ADDRESS = 1,
    BSMP_MOST_ADDRESS = 31,
    BSMP_LEAST_PACKET = 2,
    BSMP_MOST_PACKET = 4104,
    BSMP_REPLY_ROOM = 4104          /* the least length of a reply buffer */
};

/* ---- Codes ---- */

/* Type of a variable or a curve. */
enum { BSMP_READ_ONLY = 0, BSMP_WRITABLE = 1 };

/* What a variable's bytes mean. A number has size 1, 2, 4 or 8. */
enum bsmp_kind {
    BSMP_PLAIN = 0,
    BSMP_UNSIGNED_BIG = 1, /* endian */
    BSMP_UNSIGNED_LITTLE = 2,
    BSMP_SIGNED_BIG = 3,
    BSMP_SIGNED_LITTLE = 4
};

/* How a call ends. */
enum bsmp_outcome_kind { BSMP_REPLY = 0, BSMP_SILENCE = 1, BSMP_RUN = 2, BSMP_REFUSED = 3 };

/* Local refusals. Where several are due, the smallest number is given, except that 11 comes before 10. The last two are the asking
 * side's; what 1 to 3 mean there, bsmp_ask.h says. */
enum bsmp_refusal {
    BSMP_NOT_REFUSED = 0,
    BSMP_BOARD_UNUSABLE = 1,      /* a record, length or group, or the size of a store, of the lengths or sums breaks the limits */
    BSMP_BAD_ADDRESS = 2,         /* own address not 1 to 31, or the multicast byte's least bit not set */
    BSMP_REPLY_BUFFER_SHORT = 3,  /* under 4,104 bytes */
    BSMP_PACKET_LENGTH = 4,       /* under 2 or over 4,104 bytes */
    BSMP_CHECKSUM = 5,            /* the bytes' sum modulo 256 isn't 0 */
    BSMP_NOT_FOR_THIS_BOARD = 6,  /* destination is neither own nor a joined multicast */
    BSMP_NO_SUCH_FUNCTION = 7,    /* when a function's result is handed in */
    BSMP_OUTPUT_LENGTH = 8,       /* successful result is not the declared length */
    BSMP_NO_SUCH_VARIABLE = 9,    /* board store or reading */
    BSMP_WRONG_BYTE_COUNT = 10,   /* value or buffer is not the variable's size */
    BSMP_WRONG_KIND = 11,         /* plain, or signed asked of unsigned, or the reverse */
    BSMP_DOES_NOT_FIT = 12,       /* number outside the variable's range */
    BSMP_REPLY_UNFIT = 13,        /* reply doesn't fit the request */
    BSMP_REQUEST_UNWRITABLE = 14  /* number over 255, block over 65,535 or payload over 4,099 bytes */
};

/* Wire codes that a master finds at place 1 of a reply in which there is nothing to read. */
enum bsmp_wire_code {
    BSMP_WIRE_OK = 0xE0,
    BSMP_WIRE_MALFORMED = 0xE1,   /* message under 3 bytes, or SIZE not the number of bytes that follow */
    BSMP_WIRE_UNSUPPORTED = 0xE2, /* no such command, or no such operation */
    BSMP_WIRE_BAD_ID = 0xE3,      /* no such variable, group, curve or function */
    BSMP_WIRE_BAD_VALUE = 0xE4,   /* no such block, or IDs of a new group not strictly ascending */
    BSMP_WIRE_BAD_SIZE = 0xE5,    /* payload of a wrong size */
    BSMP_WIRE_READ_ONLY = 0xE6,   /* the thing to be written is read-only */
    BSMP_WIRE_FULL = 0xE7,        /* five groups made already */
    BSMP_WIRE_BUSY = 0xE8         /* a variable to be read or written is busy */
};

/* ---- What a board lends ---- */

struct bsmp_variable {
    uint8_t writable; /* BSMP_READ_ONLY or BSMP_WRITABLE */
    uint8_t size;     /* 1 to 127 bytes */
    uint8_t kind;     /* enum bsmp_kind */
};

struct bsmp_curve {
    uint32_t writable; /* BSMP_READ_ONLY or BSMP_WRITABLE */
    uint32_t block_size;
    uint32_t blocks;
};

struct bsmp_function {
    uint8_t input;  /* 0 to 15 bytes */
    uint8_t output; /* 0 to 15 bytes */
};

/* The groups made by message. All zeros is the table of a fresh board. Group 3 + g is sets[g], with bit n for variable n; it has
 * a member, and declared ones only. Of the places from count on, nothing counts. Making a group writes one place and the count,
 * removing them all the count only. */
struct bsmp_groups {
    uint64_t count;
    uint64_t sets[BSMP_MOST_MADE_GROUPS];
};

/* What stays as it is while the board runs; it can be const, in ROM. Records are numbered from 0, in their order. */
struct bsmp_board {
    const struct bsmp_variable *variables;
    size_t variable_count; /* 1 to 64 */
    const struct bsmp_curve *curves;
    size_t curve_count; /* 0 to 8 */
    const struct bsmp_function *functions;
    size_t function_count; /* 0 to 16 */
    uint8_t own;           /* address 1 to 31 */
    uint8_t multicast;     /* most significant bit is address 248, least is 255; the least is always set */
};

/* What changes. Each store has exactly the length that the records add up to, there is exactly one of the blocks' lengths for each
 * block, and the sums have BSMP_SUM_SIZE for each curve. */
struct bsmp_state {
    uint8_t *values; /* in order of number, each variable's value starts where the one before it ends */
    size_t values_length;
    uint8_t *blocks; /* the curves likewise, block after block; a block takes up its block size here, full or not */
    size_t blocks_length;
    uint16_t *lengths; /* the blocks' lengths likewise, each 1 to its curve's block size; bsmp_node_fresh fills them */
    size_t length_count; /* the blocks of all curves */
    uint8_t *sums; /* the curves' sums likewise; bsmp_node_fresh fills them. Any bytes are taken: a sum may be stale */
    size_t sums_length;
    struct bsmp_groups groups;
};

/* ---- What comes back ---- */

/* What a kind has no use for is 0. */
struct bsmp_outcome {
    uint8_t kind;    /* enum bsmp_outcome_kind */
    uint8_t refusal; /* BSMP_REFUSED: enum bsmp_refusal */
    bool due;        /* BSMP_RUN: whether an answer is due; hand it to the function's result */
    size_t function; /* BSMP_RUN: which function */
    size_t input;    /* BSMP_RUN: the place in the packet from which its input stands */
    size_t length;   /* BSMP_REPLY: bytes at the start of the reply buffer.  BSMP_RUN: bytes of input */
};

/* Refusal BSMP_NOT_REFUSED and the number, or a refusal and 0. */
struct bsmp_signed_reading {
    uint64_t refusal;
    int64_t number;
};

struct bsmp_unsigned_reading {
    uint64_t refusal;
    uint64_t number;
};

/* Refusal BSMP_NOT_REFUSED and where a variable's bytes stand, in the store of values or in a reply, or a refusal and 0. */
struct bsmp_place {
    uint8_t refusal;
    size_t offset;
    size_t size;
};

/* An MD5 by RFC 1321, its bytes in the order in which the RFC prints them. */
struct bsmp_sum {
    uint8_t bytes[BSMP_SUM_SIZE];
};

/* ---- A board and its state: what a board calls ----
 *
 * Refusal 1 looks at all that both structs hold; in the last four, which take no state, at the variable records only. */

/* Makes every block full: its length becomes its curve's block size. Then it works out the sum of every curve: the MD5 of all its
 * bytes. To be called once before the first packet. Only lengths and sums are written. It asks that there is one length for each
 * block, and not what stands there: any numbers are taken, as they are for the sums.
 * Gives 0 or refusal 1, which changes nothing; so an unusable board shows here, before its first packet.
 *
 * A length says how many bytes a block has: the first so many of its place in the store. Command 41 sets it to the number of bytes
 * that it carries, so a shorter write makes the block shorter and a longer one makes it longer; command 40 answers with that many
 * bytes, and a sum covers that many of each block, in block order. The bytes past a length stay in the store as they were, and are
 * never sent. No list tells a length: a master learns it from the size of the answer to 40.
 *
 * A sum tells what its curve held when it was last worked out: by this call or, for one curve, read-only or not, by command 42.
 * What changes the curve after that, command 41 or the board, leaves the sum as it was: stale. No call looks whether it is, and
 * command 0A answers it as it stands. So a master that has sent a curve by 41 sends 42, then 0A, and compares the answer with
 * the bsmp_md5 of what it sent.
 *
 * A board that itself writes a block also sets its length, 1 to the block size, and then has the sum renewed: by a 42, which it can
 * hand to bsmp_node_packet itself, or by this call, which makes every block full again.
 *
 * This call and 42 go through the bytes that a sum covers: some 2 ns each on a PC; on a Cortex-M3 some 70 instructions each, or 10
 * if the library is built at opt-level 3. The reply to 42 waits for it. They take at most 1,280 bytes of stack beyond their
 * arguments; all calls that work out no sum take at most 640, or 704 on a Cortex-M3. (ctest/stack.c measures both.) And every call
 * with a state looks at all lengths, so on a board with many blocks every call takes longer. */
static inline uint8_t bsmp_node_fresh(const struct bsmp_board *board, struct bsmp_state *state);

/* One packet, all its bytes from the destination to the checksum.
 *   busy  bit n is set while messages may neither read nor write variable n, as long as the board renews it in several goes:
 *         a read or write of it, or of a group with it, gets BSMP_WIRE_BUSY, so half a value is never sent. Higher bits count
 *         for nothing. The calls below go by no mark.
 * Refusals, in this order: 1 to 6. They change nothing.
 * Outcomes:
 *   BSMP_REPLY    to be sent. Of the reply buffer, only the reply's own bytes were written. If it is a wire error, no value,
 *                 block, length, sum or group changed.
 *   BSMP_SILENCE  a multicast packet was carried out, or was in error; nothing is to be sent.
 *   BSMP_RUN      the board is to run a function and say what came of it by one of the next three. Nothing was written, and
 *                 the library doesn't wait for it: other packets may come first. */
static inline struct bsmp_outcome bsmp_node_packet(const struct bsmp_board *board, struct bsmp_state *state, uint64_t busy,
                                                   const uint8_t *packet, size_t length, uint8_t *reply, size_t room);

/* A function that a packet asked for succeeded and gave its output, or failed with an error byte.
 *   due  as the outcome BSMP_RUN had it.
 * Refusals, in this order: 1, 3, 7, 8 (8 only if it succeeded); also if no answer is due. They change nothing.
 * Outcomes: BSMP_REPLY if an answer is due, else BSMP_SILENCE. Nothing but the reply's own bytes is written. */
static inline struct bsmp_outcome bsmp_node_function_gave(const struct bsmp_board *board, const struct bsmp_state *state,
                                                          size_t function, bool due, const uint8_t *output, size_t length,
                                                          uint8_t *reply, size_t room);
static inline struct bsmp_outcome bsmp_node_function_failed(const struct bsmp_board *board, const struct bsmp_state *state,
                                                            size_t function, bool due, uint8_t error, uint8_t *reply,
                                                            size_t room);

/* Both in one: if it failed, output counts for nothing, and if it succeeded, error. */
static inline struct bsmp_outcome bsmp_node_function_result(const struct bsmp_board *board, const struct bsmp_state *state,
                                                            size_t function, bool due, bool failed, uint8_t error,
                                                            const uint8_t *output, size_t length, uint8_t *reply, size_t room);

/* The board stores a new value into any variable, read-only or busy too. Only those bytes change.
 * Gives 0 or a refusal, in this order: 1, 9, 10. They change nothing. */
static inline uint8_t bsmp_node_store(const struct bsmp_board *board, struct bsmp_state *state, size_t variable,
                                      const uint8_t *bytes, size_t count);

/* The same of a number, as the only bytes that read as it by the variable's kind.
 * Gives 0 or a refusal, in this order: 1, 9, 11, 12. They change nothing. */
static inline uint8_t bsmp_node_store_signed(const struct bsmp_board *board, struct bsmp_state *state, size_t variable,
                                             int64_t number);
static inline uint8_t bsmp_node_store_unsigned(const struct bsmp_board *board, struct bsmp_state *state, size_t variable,
                                               uint64_t number);

/* The current value of a variable as a number. Refusals, in this order: 1, 9, 11. */
static inline struct bsmp_signed_reading bsmp_node_value_signed(const struct bsmp_board *board, const struct bsmp_state *state,
                                                                size_t variable);
static inline struct bsmp_unsigned_reading bsmp_node_value_unsigned(const struct bsmp_board *board,
                                                                    const struct bsmp_state *state, size_t variable);

/* A variable's place: its current value is the place.size bytes from state->values + place.offset on, whatever its kind.
 * Refusals, in this order: 1, 9. */
static inline struct bsmp_place bsmp_node_place(const struct bsmp_board *board, const struct bsmp_state *state, size_t variable);

/* Bytes to number, by the variable's kind: of bytes that stand elsewhere, as in a reply.
 * Refusals, in this order: 1, 9, 11, 10. */
static inline struct bsmp_signed_reading bsmp_node_read_signed(const struct bsmp_board *board, size_t variable,
                                                               const uint8_t *bytes, size_t count);
static inline struct bsmp_unsigned_reading bsmp_node_read_unsigned(const struct bsmp_board *board, size_t variable,
                                                                   const uint8_t *bytes, size_t count);

/* Number to bytes: the only bytes that read as it. Gives 0 or a refusal, in this order: 1, 9, 11, 10, 12. They leave the buffer
 * as it was. */
static inline uint8_t bsmp_node_write_signed(const struct bsmp_board *board, size_t variable, int64_t number, uint8_t *buffer,
                                             size_t length);
static inline uint8_t bsmp_node_write_unsigned(const struct bsmp_board *board, size_t variable, uint64_t number,
                                               uint8_t *buffer, size_t length);

/* ---- Helpers of both layers ---- */

/* The byte that closes a packet: behind these bytes, it makes the sum of all 0 modulo 256. Of a packet that is closed, it is 0.
 * Replies are closed already; who sends requests, a master or a test, does packet[length] = bsmp_checksum(packet, length). */
static inline uint8_t bsmp_checksum(const uint8_t *bytes, size_t length);

/* A refusal in words, for a log. */
static inline const char *bsmp_refusal_words(uint64_t refusal);

/* The MD5 of a message of any length: of a download before it is sent, say. In time and stack it is like bsmp_node_fresh. */
struct bsmp_sum bsmp_md5(const uint8_t *message, size_t length);

/* ---- The library: the same over bare slices ----
 *
 * For who has no such structs: the face of another language, as rust/ is, or a program that keeps its records otherwise.
 * Each does what the function of its name above does, bsmp_board_store what bsmp_node_store does and bsmp_fresh_board what
 * bsmp_node_fresh does; duties, outcomes and refusals are the same. In place of the structs are lent:
 *   variables  records, as above.
 *   curves     three numbers to a record, so curve_numbers is 3 times the curves; a record that is cut off breaks the limits.
 *   functions  two numbers to a record, likewise.
 *   values, blocks, lengths, sums, groups, own, multicast   as above. */

struct bsmp_outcome bsmp_packet(const struct bsmp_variable *variables, size_t variable_count,
                                const uint32_t *curves, size_t curve_numbers,
                                const uint8_t *functions, size_t function_numbers,
                                struct bsmp_groups *groups, uint8_t own, uint8_t multicast, uint64_t busy,
                                uint8_t *values, size_t values_length, uint8_t *blocks, size_t blocks_length,
                                uint16_t *lengths, size_t length_count, uint8_t *sums, size_t sums_length,
                                const uint8_t *packet, size_t packet_length, uint8_t *reply, size_t reply_room);

struct bsmp_outcome bsmp_function_result(const struct bsmp_variable *variables, size_t variable_count,
                                         const uint32_t *curves, size_t curve_numbers,
                                         const uint8_t *functions, size_t function_numbers,
                                         const struct bsmp_groups *groups, const uint8_t *values, size_t values_length,
                                         const uint8_t *blocks, size_t blocks_length,
                                         const uint16_t *lengths, size_t length_count,
                                         const uint8_t *sums, size_t sums_length, size_t function, bool due,
                                         bool failed, uint8_t error, const uint8_t *output, size_t output_length,
                                         uint8_t *reply, size_t reply_room);

uint8_t bsmp_board_store(const struct bsmp_variable *variables, size_t variable_count,
                         const uint32_t *curves, size_t curve_numbers,
                         const uint8_t *functions, size_t function_numbers,
                         const struct bsmp_groups *groups, uint8_t *values, size_t values_length,
                         const uint8_t *blocks, size_t blocks_length, const uint16_t *lengths, size_t length_count,
                         const uint8_t *sums, size_t sums_length, size_t variable,
                         const uint8_t *bytes, size_t byte_count);

uint8_t bsmp_fresh_board(const struct bsmp_variable *variables, size_t variable_count,
                         const uint32_t *curves, size_t curve_numbers,
                         const uint8_t *functions, size_t function_numbers,
                         const struct bsmp_groups *groups, const uint8_t *values, size_t values_length,
                         const uint8_t *blocks, size_t blocks_length, uint16_t *lengths, size_t length_count,
                         uint8_t *sums, size_t sums_length);

struct bsmp_signed_reading bsmp_read_signed(const struct bsmp_variable *variables, size_t variable_count, size_t variable,
                                            const uint8_t *bytes, size_t byte_count);

struct bsmp_unsigned_reading bsmp_read_unsigned(const struct bsmp_variable *variables, size_t variable_count, size_t variable,
                                                const uint8_t *bytes, size_t byte_count);

uint8_t bsmp_write_signed(const struct bsmp_variable *variables, size_t variable_count, size_t variable, int64_t number,
                          uint8_t *buffer, size_t buffer_length);

uint8_t bsmp_write_unsigned(const struct bsmp_variable *variables, size_t variable_count, size_t variable, uint64_t number,
                            uint8_t *buffer, size_t buffer_length);

/* The layouts that the library takes. */
BSMP_ASSERT(sizeof(size_t) == 4 || sizeof(size_t) == 8);
BSMP_ASSERT(sizeof(bool) == 1);
BSMP_ASSERT(sizeof(struct bsmp_variable) == 3);
BSMP_ASSERT(offsetof(struct bsmp_variable, size) == 1 && offsetof(struct bsmp_variable, kind) == 2);
BSMP_ASSERT(sizeof(struct bsmp_curve) == 3 * sizeof(uint32_t));
BSMP_ASSERT(offsetof(struct bsmp_curve, block_size) == 4 && offsetof(struct bsmp_curve, blocks) == 8);
BSMP_ASSERT(sizeof(struct bsmp_function) == 2 && offsetof(struct bsmp_function, output) == 1);
BSMP_ASSERT(sizeof(struct bsmp_groups) == 48 && offsetof(struct bsmp_groups, sets) == 8);
BSMP_ASSERT(sizeof(struct bsmp_outcome) == 4 * sizeof(size_t));
BSMP_ASSERT(offsetof(struct bsmp_outcome, refusal) == 1 && offsetof(struct bsmp_outcome, due) == 2);
BSMP_ASSERT(offsetof(struct bsmp_outcome, function) == sizeof(size_t));
BSMP_ASSERT(offsetof(struct bsmp_outcome, input) == 2 * sizeof(size_t));
BSMP_ASSERT(offsetof(struct bsmp_outcome, length) == 3 * sizeof(size_t));
BSMP_ASSERT(sizeof(struct bsmp_signed_reading) == 16 && offsetof(struct bsmp_signed_reading, number) == 8);
BSMP_ASSERT(sizeof(struct bsmp_unsigned_reading) == 16 && offsetof(struct bsmp_unsigned_reading, number) == 8);
BSMP_ASSERT(sizeof(struct bsmp_sum) == 16);

/* ---- How the inline functions do it ---- */

/* An array of records is the flat list of numbers that the library takes; the layouts above are asserted for this. */
static inline const uint32_t *bsmp_node_curve_numbers(const struct bsmp_board *board)
{
    return (const uint32_t *)(const void *)board->curves;
}

static inline const uint8_t *bsmp_node_function_numbers(const struct bsmp_board *board)
{
    return (const uint8_t *)(const void *)board->functions;
}

#define BSMP_RECORDS                                                                                                        \
    board->variables, board->variable_count, bsmp_node_curve_numbers(board), 3 * board->curve_count,                        \
        bsmp_node_function_numbers(board), 2 * board->function_count
#define BSMP_STORES                                                                                                         \
    state->values, state->values_length, state->blocks, state->blocks_length, state->lengths, state->length_count,          \
        state->sums, state->sums_length

static inline uint8_t bsmp_node_fresh(const struct bsmp_board *board, struct bsmp_state *state)
{
    return bsmp_fresh_board(BSMP_RECORDS, &state->groups, BSMP_STORES);
}

static inline struct bsmp_outcome bsmp_node_packet(const struct bsmp_board *board, struct bsmp_state *state, uint64_t busy,
                                                   const uint8_t *packet, size_t length, uint8_t *reply, size_t room)
{
    return bsmp_packet(BSMP_RECORDS, &state->groups, board->own, board->multicast, busy, BSMP_STORES, packet, length, reply,
                       room);
}

static inline struct bsmp_outcome bsmp_node_function_result(const struct bsmp_board *board, const struct bsmp_state *state,
                                                            size_t function, bool due, bool failed, uint8_t error,
                                                            const uint8_t *output, size_t length, uint8_t *reply, size_t room)
{
    return bsmp_function_result(BSMP_RECORDS, &state->groups, BSMP_STORES, function, due, failed, error, output, length, reply,
                                room);
}

static inline struct bsmp_outcome bsmp_node_function_gave(const struct bsmp_board *board, const struct bsmp_state *state,
                                                          size_t function, bool due, const uint8_t *output, size_t length,
                                                          uint8_t *reply, size_t room)
{
    return bsmp_node_function_result(board, state, function, due, false, 0, output, length, reply, room);
}

static inline struct bsmp_outcome bsmp_node_function_failed(const struct bsmp_board *board, const struct bsmp_state *state,
                                                            size_t function, bool due, uint8_t error, uint8_t *reply,
                                                            size_t room)
{
    return bsmp_node_function_result(board, state, function, due, true, error, NULL, 0, reply, room);
}

static inline uint8_t bsmp_node_store(const struct bsmp_board *board, struct bsmp_state *state, size_t variable,
                                      const uint8_t *bytes, size_t count)
{
    return bsmp_board_store(BSMP_RECORDS, &state->groups, BSMP_STORES, variable, bytes, count);
}

/* A store of no bytes is always refused, as no variable has size 0, and so changes nothing. If 10 is all that is wrong with it,
 * the board is usable and has the variable. */
static inline struct bsmp_place bsmp_node_place(const struct bsmp_board *board, const struct bsmp_state *state, size_t variable)
{
    struct bsmp_place place = {BSMP_NOT_REFUSED, 0, 0};
    uint8_t refusal = bsmp_board_store(BSMP_RECORDS, &state->groups, BSMP_STORES, variable, NULL, 0);
    if (refusal != BSMP_WRONG_BYTE_COUNT) {
        place.refusal = refusal;
        return place;
    }
    for (size_t i = 0; i < variable; i++) place.offset += board->variables[i].size;
    place.size = board->variables[variable].size;
    return place;
}

/* The number is written where it is to stand; that is a store, as a refused writing leaves its buffer as it was. */
static inline uint8_t bsmp_node_store_signed(const struct bsmp_board *board, struct bsmp_state *state, size_t variable,
                                             int64_t number)
{
    struct bsmp_place place = bsmp_node_place(board, state, variable);
    if (place.refusal != BSMP_NOT_REFUSED) return place.refusal;
    return bsmp_node_write_signed(board, variable, number, state->values + place.offset, place.size);
}

static inline uint8_t bsmp_node_store_unsigned(const struct bsmp_board *board, struct bsmp_state *state, size_t variable,
                                               uint64_t number)
{
    struct bsmp_place place = bsmp_node_place(board, state, variable);
    if (place.refusal != BSMP_NOT_REFUSED) return place.refusal;
    return bsmp_node_write_unsigned(board, variable, number, state->values + place.offset, place.size);
}

static inline struct bsmp_signed_reading bsmp_node_value_signed(const struct bsmp_board *board, const struct bsmp_state *state,
                                                                size_t variable)
{
    struct bsmp_place place = bsmp_node_place(board, state, variable);
    struct bsmp_signed_reading refused = {place.refusal, 0};
    if (place.refusal != BSMP_NOT_REFUSED) return refused;
    return bsmp_node_read_signed(board, variable, state->values + place.offset, place.size);
}

static inline struct bsmp_unsigned_reading bsmp_node_value_unsigned(const struct bsmp_board *board,
                                                                    const struct bsmp_state *state, size_t variable)
{
    struct bsmp_place place = bsmp_node_place(board, state, variable);
    struct bsmp_unsigned_reading refused = {place.refusal, 0};
    if (place.refusal != BSMP_NOT_REFUSED) return refused;
    return bsmp_node_read_unsigned(board, variable, state->values + place.offset, place.size);
}

static inline struct bsmp_signed_reading bsmp_node_read_signed(const struct bsmp_board *board, size_t variable,
                                                               const uint8_t *bytes, size_t count)
{
    return bsmp_read_signed(board->variables, board->variable_count, variable, bytes, count);
}

static inline struct bsmp_unsigned_reading bsmp_node_read_unsigned(const struct bsmp_board *board, size_t variable,
                                                                   const uint8_t *bytes, size_t count)
{
    return bsmp_read_unsigned(board->variables, board->variable_count, variable, bytes, count);
}

static inline uint8_t bsmp_node_write_signed(const struct bsmp_board *board, size_t variable, int64_t number, uint8_t *buffer,
                                             size_t length)
{
    return bsmp_write_signed(board->variables, board->variable_count, variable, number, buffer, length);
}

static inline uint8_t bsmp_node_write_unsigned(const struct bsmp_board *board, size_t variable, uint64_t number,
                                               uint8_t *buffer, size_t length)
{
    return bsmp_write_unsigned(board->variables, board->variable_count, variable, number, buffer, length);
}

static inline uint8_t bsmp_checksum(const uint8_t *bytes, size_t length)
{
    uint8_t rest = 0;
    for (size_t i = 0; i < length; i++) rest = (uint8_t)(rest - bytes[i]);
    return rest;
}

static inline const char *bsmp_refusal_words(uint64_t refusal)
{
    switch (refusal) {
    case BSMP_NOT_REFUSED: return "not refused";
    case BSMP_BOARD_UNUSABLE: return "board unusable";
    case BSMP_BAD_ADDRESS: return "bad address";
    case BSMP_REPLY_BUFFER_SHORT: return "reply buffer short";
    case BSMP_PACKET_LENGTH: return "packet length";
    case BSMP_CHECKSUM: return "checksum";
    case BSMP_NOT_FOR_THIS_BOARD: return "not for this board";
    case BSMP_NO_SUCH_FUNCTION: return "no such function";
    case BSMP_OUTPUT_LENGTH: return "output length";
    case BSMP_NO_SUCH_VARIABLE: return "no such variable";
    case BSMP_WRONG_BYTE_COUNT: return "wrong byte count";
    case BSMP_WRONG_KIND: return "wrong kind";
    case BSMP_DOES_NOT_FIT: return "doesn't fit";
    case BSMP_REPLY_UNFIT: return "reply doesn't fit the request";
    case BSMP_REQUEST_UNWRITABLE: return "request can't be written";
    default: return "unknown refusal";
    }
}

#ifdef __cplusplus
}
#endif
#undef BSMP_RECORDS
#undef BSMP_STORES
#undef BSMP_ASSERT

#endif
