/* A gateway for the tests of the asking side: a table and a buffer, calls by either way, and what came of them as text.
 *
 * Bytes are written as on the node's bench, and what a call lends stands in heap blocks of exactly its length likewise. By the library's
 * functions, what a request has no use for is filled with what would be refused if it counted. */
#ifndef GATEWAY_H
#define GATEWAY_H

#include "bsmp_ask.h"

#include "../faces/bench.h"

enum { NODE = 5, MOST_SHOWN = 32 };

#define COUNT(array) (sizeof array / sizeof array[0])

/* ---- A request ---- */

static inline bool names_nothing(const struct bsmp_request *request)
{
    return request->code <= BSMP_COMMAND_LIST_GROUPS || request->code == BSMP_COMMAND_LIST_CURVES ||
           request->code == BSMP_COMMAND_LIST_FUNCTIONS || request->code == BSMP_COMMAND_MAKE_GROUP ||
           request->code == BSMP_COMMAND_REMOVE_GROUPS;
}

static inline bool has_block(const struct bsmp_request *request)
{
    return request->code == BSMP_COMMAND_READ_BLOCK || request->code == BSMP_COMMAND_WRITE_BLOCK;
}

static inline bool has_mask(const struct bsmp_request *request)
{
    return request->code == BSMP_COMMAND_MASK_VARIABLE || request->code == BSMP_COMMAND_MASK_GROUP;
}

static inline bool has_bytes(const struct bsmp_request *request)
{
    return (request->code >= BSMP_COMMAND_WRITE_VARIABLE && request->code <= BSMP_COMMAND_MAKE_GROUP) ||
           request->code == BSMP_COMMAND_WRITE_BLOCK || request->code == BSMP_COMMAND_RUN_FUNCTION;
}

/* With something in each field that has no use. */
static inline struct bsmp_request littered(struct bsmp_request request)
{
    static const uint8_t litter[BSMP_MOST_PACKET] = {0xEE};
    if (names_nothing(&request)) request.number = SIZE_MAX;
    if (request.code != BSMP_COMMAND_WRITE_READ) request.other = SIZE_MAX;
    if (!has_block(&request)) request.block = SIZE_MAX;
    if (!has_mask(&request)) request.operation = 0xEE;
    if (has_bytes(&request)) return request;
    request.bytes = litter;
    request.length = sizeof litter;
    return request;
}

/* ---- Calls, by either way ---- */

static inline struct bsmp_asked ask_by(int way, uint8_t destination, struct bsmp_request request, uint8_t *packet, size_t room)
{
    if (way == INLINE) return bsmp_ask(destination, &request, packet, room);
    request = littered(request);
    return bsmp_ask_packet(destination, request.code, request.operation, request.number, request.other, request.block,
                           request.bytes, request.length, packet, room);
}

static inline struct bsmp_heard hear_by(int way, struct bsmp_learned *learned, uint8_t destination, struct bsmp_request request,
                                        const uint8_t *reply, size_t length)
{
    if (way == INLINE) return bsmp_hear(learned, destination, &request, reply, length);
    request = littered(request);
    return bsmp_hear_reply(learned, destination, request.code, request.operation, request.number, request.other, request.block,
                           request.bytes, request.length, reply, length);
}

/* ---- What came of asking: the packet's bytes, or "refused 14" ---- */

static inline void expect_asked(const char *name, int way, uint8_t destination, struct bsmp_request request, const char *expected)
{
    uint8_t *packet = heap(BSMP_REQUEST_ROOM);
    struct bsmp_asked asked = ask_by(way, destination, request, packet, BSMP_REQUEST_ROOM);
    struct text text = text_of(packet, asked.length);
    size_t written = BSMP_REQUEST_ROOM;
    if (asked.refusal != BSMP_NOT_REFUSED) snprintf(text.text, sizeof text.text, "refused %u", asked.refusal);
    check_text(name, way, text.text, full_text(expected).text);
    check(asked.refusal == BSMP_NOT_REFUSED || asked.length == 0, name, "a refusal with a length");
    while (written > 0 && packet[written - 1] == UNTOUCHED) written--;
    check(written <= asked.length, name, "the buffer was written beyond the packet");
    free(packet);
}

/* ---- What came of hearing: "error E3", "done", "values at 4, 2: 34 12", "failed 07", "refused 13" ---- */

static inline struct text heard_text(const struct bsmp_heard *heard, const uint8_t *reply)
{
    static const char *const answers[] = {"version", "variables", "groups", "members", "curves", "functions",
                                          "values",  "block",     "sum",    "output"};
    struct text text, bytes;
    size_t record = heard->kind == BSMP_HEARD_CURVES ? BSMP_CURVE_RECORD : 1;
    switch (heard->kind) {
    case BSMP_HEARD_REFUSED: snprintf(text.text, sizeof text.text, "refused %u", heard->refusal); return text;
    case BSMP_HEARD_ERROR: snprintf(text.text, sizeof text.text, "error %02X", heard->error); return text;
    case BSMP_HEARD_DONE: return full_text("done");
    case BSMP_HEARD_FAILED: snprintf(text.text, sizeof text.text, "failed %02X", heard->error); return text;
    default: break;
    }
    if (heard->kind > BSMP_HEARD_FAILED) return full_text("something of no known kind");
    bytes = text_of(reply + heard->place, record * heard->length);
    snprintf(text.text, sizeof text.text, "%s at %lu, %lu: %.96s", answers[heard->kind - BSMP_HEARD_VERSION],
             (unsigned long)heard->place, (unsigned long)heard->length, bytes.text);
    return text;
}

static inline void check_heard(const char *name, int way, const struct bsmp_heard *heard, const uint8_t *reply, const char *expected)
{
    bool with_place = heard->kind > BSMP_HEARD_DONE && heard->kind < BSMP_HEARD_FAILED;
    bool with_error = heard->kind == BSMP_HEARD_ERROR || heard->kind == BSMP_HEARD_FAILED;
    check_text(name, way, heard_text(heard, reply).text, expected);
    check(heard->kind == BSMP_HEARD_REFUSED || heard->refusal == 0, name, "a refusal where none is");
    check(with_error || heard->error == 0, name, "an error where none is");
    check(with_place || (heard->place == 0 && heard->length == 0), name, "a place where there is nothing to read");
}

/* A reply, in a block of its own. What is no answer leaves the table as it was, byte for byte. */
static inline void expect_heard_bytes(const char *name, int way, struct bsmp_learned *learned, uint8_t destination,
                                      struct bsmp_request request, const uint8_t *bytes, size_t length, const char *expected)
{
    uint8_t *reply = heap(length);
    struct bsmp_learned *lent = (struct bsmp_learned *)(void *)heap(sizeof *lent);
    if (length > 0) memcpy(reply, bytes, length);
    *lent = *learned;
    struct bsmp_heard heard = hear_by(way, lent, destination, request, reply, length);
    check_heard(name, way, &heard, reply, expected);
    check(heard.kind > BSMP_HEARD_ERROR || memcmp(lent, learned, sizeof *lent) == 0, name, "the table changed");
    *learned = *lent;
    free(lent);
    free(reply);
}

static inline void expect_heard(const char *name, int way, struct bsmp_learned *learned, struct bsmp_request request, const char *reply,
                                const char *expected)
{
    uint8_t bytes[128];
    expect_heard_bytes(name, way, learned, NODE, request, bytes, bytes_of(reply, bytes), expected);
}

/* ---- A table: of board A, "4r 1w 2w; 4wx2; 1>2", and a made group between them, by its set in hex: "; 3 is 5" ---- */

static inline void add(struct text *text, const char *form, uint64_t one, uint64_t two)
{
    size_t at = strlen(text->text);
    snprintf(text->text + at, sizeof text->text - at, form, (unsigned long)one, (unsigned long)two);
}

static inline struct text table_text(const struct bsmp_learned *learned)
{
    struct text text;
    text.text[0] = 0;
    for (size_t i = 0; i < learned->variable_count && i < MOST_SHOWN; i++) {
        if (i > 0) add(&text, " ", 0, 0);
        add(&text, learned->writable >> i & 1 ? "%luw" : "%lur", learned->sizes[i], 0);
    }
    for (size_t i = 0; i < learned->group_count && i < BSMP_MOST_MADE_GROUPS; i++)
        add(&text, "; %lu is %lX", BSMP_FIRST_MADE_GROUP + i, learned->sets[i]);
    for (size_t i = 0; i < learned->curve_count && i < BSMP_MOST_CURVES; i++) {
        const struct bsmp_curve *curve = &learned->curves[i];
        add(&text, curve->writable == BSMP_WRITABLE ? "; %luwx%lu" : "; %lurx%lu", curve->block_size, curve->blocks);
    }
    for (size_t i = 0; i < learned->function_count && i < BSMP_MOST_FUNCTIONS; i++)
        add(&text, "; %lu>%lu", learned->functions[i].input, learned->functions[i].output);
    return text;
}

static inline void expect_table(const char *name, int way, const struct bsmp_learned *learned, const char *expected)
{
    check_text(name, way, table_text(learned).text, expected);
}

static inline struct bsmp_learned nothing_known(void)
{
    struct bsmp_learned learned;
    memset(&learned, 0, sizeof learned);
    return learned;
}

/* Board A, with group 3 of variables 0 and 2 and group 4 of variable 1. */
static inline struct bsmp_learned board_a_known(void)
{
    struct bsmp_learned learned = nothing_known();
    learned.variable_count = 3;
    for (size_t i = 0; i < 3; i++) learned.sizes[i] = board_a_variables[i].size;
    learned.writable = 6;
    learned.group_count = 2;
    learned.sets[0] = 5;
    learned.sets[1] = 2;
    learned.curve_count = 1;
    learned.curves[0] = board_a_curves[0];
    learned.function_count = 1;
    learned.functions[0] = board_a_functions[0];
    return learned;
}

#endif
