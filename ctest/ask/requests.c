/* Requests written: every one of board A, and what can't be written: refusals 2, 3 and 14. */
#include "subjects.h"

/* A request by what the message of a packet says; false if none says that. */
static bool request_in(const uint8_t *packet, size_t length, struct bsmp_request *request)
{
    const uint8_t *payload = packet + 4;
    if (length < 5 || 256u * packet[2] + packet[3] != length - 5) return false;
    size_t size = length - 5;
    switch (packet[1]) {
    case BSMP_COMMAND_VERSION: *request = bsmp_request_version(); return true;
    case BSMP_COMMAND_LIST_VARIABLES: *request = bsmp_request_list_variables(); return true;
    case BSMP_COMMAND_LIST_GROUPS: *request = bsmp_request_list_groups(); return true;
    case BSMP_COMMAND_READ_VARIABLE: *request = bsmp_request_read_variable(payload[0]); return true;
    case BSMP_COMMAND_READ_GROUP: *request = bsmp_request_read_group(payload[0]); return true;
    case BSMP_COMMAND_WRITE_VARIABLE: *request = bsmp_request_write_variable(payload[0], payload + 1, size - 1); return true;
    case BSMP_COMMAND_MASK_VARIABLE:
        *request = bsmp_request_mask_variable(payload[0], (enum bsmp_mask)payload[1], payload + 2, size - 2);
        return true;
    case BSMP_COMMAND_WRITE_READ: *request = bsmp_request_write_read(payload[0], payload[1], payload + 2, size - 2); return true;
    case BSMP_COMMAND_MAKE_GROUP: *request = bsmp_request_make_group(payload, size); return true;
    case BSMP_COMMAND_READ_BLOCK: *request = bsmp_request_read_block(payload[0], 256u * payload[1] + payload[2]); return true;
    default: return false;
    }
}

/* The packets of the settled examples, but for those that say no request: a wrong SIZE, and a code that there is none of. The IDs of a
 * new group are sorted. */
void try_settled_requests(int way, const char *path)
{
    char line[256], text[96];
    unsigned written = 0, left_out = 0;
    FILE *file = fopen(path, "r");
    if (!file) {
        perror(path);
        exit(2);
    }
    while (fgets(line, sizeof line, file)) {
        uint8_t packet[32];
        struct bsmp_request request;
        if (sscanf(line, "packet %95[0-9A-F ]", text) != 1) continue;
        if (request_in(packet, bytes_of(text, packet), &request)) {
            bool unsorted = strcmp(text, "05 30 00 02 02 00 C7") == 0;
            expect_asked(text, way, packet[0], request, unsorted ? "05 30 00 02 00 02 C7" : text);
            written++;
        } else
            left_out++;
    }
    check_number("settled examples that are requests", written, 14);
    check_number("settled examples that are none", left_out, 3);
    fclose(file);
}

void try_requests(int way)
{
    static const uint8_t bytes[] = {0xAB, 0xCD, 0xEF, 0x01, 0x02, 0x03, 0x04}, ids[] = {2, 0, 255, 1, 0, 7, 254};
    const struct { struct bsmp_request request; const char *packet; } tries[] = {
        {bsmp_request_version(), "05 00 00 00 FB"},
        {bsmp_request_list_variables(), "05 02 00 00 F9"},
        {bsmp_request_list_groups(), "05 04 00 00 F7"},
        {bsmp_request_show_group(2), "05 06 00 01 02 ="},
        {bsmp_request_list_curves(), "05 08 00 00 ="},
        {bsmp_request_read_sum(0), "05 0A 00 01 00 ="},
        {bsmp_request_list_functions(), "05 0C 00 00 ="},
        {bsmp_request_read_variable(0), "05 10 00 01 00 EA"},
        {bsmp_request_read_group(3), "05 12 00 01 03 E5"},
        {bsmp_request_write_variable(1, bytes, 1), "05 20 00 02 01 AB ="},
        {bsmp_request_write_variable(1, bytes, 0), "05 20 00 01 01 ="},
        {bsmp_request_write_group(2, bytes, 3), "05 22 00 04 02 AB CD EF ="},
        {bsmp_request_mask_variable(1, BSMP_MASK_TOGGLE, bytes, 1), "05 24 00 03 01 54 AB ="},
        {bsmp_request_mask_group(2, BSMP_MASK_SET, bytes, 3), "05 26 00 05 02 53 AB CD EF ="},
        {bsmp_request_mask_group(2, BSMP_MASK_OR, bytes, 3), "05 26 00 05 02 4F AB CD EF ="},
        {bsmp_request_mask_group(2, BSMP_MASK_CLEAR, bytes, 3), "05 26 00 05 02 43 AB CD EF ="},
        {bsmp_request_mask_group(2, BSMP_MASK_TOGGLE, bytes, 3), "05 26 00 05 02 54 AB CD EF ="},
        {bsmp_request_mask_group(2, BSMP_MASK_XOR, bytes, 3), "05 26 00 05 02 58 AB CD EF ="},
        {bsmp_request_mask_group(2, BSMP_MASK_AND, bytes, 3), "05 26 00 05 02 41 AB CD EF ="},
        {bsmp_request_write_read(1, 0, bytes, 1), "05 28 00 03 01 00 AB ="},
        {bsmp_request_make_group(ids, 2), "05 30 00 02 00 02 C7"},
        {bsmp_request_make_group(ids, sizeof ids), "05 30 00 07 00 00 01 02 07 FE FF ="},
        {bsmp_request_make_group(ids, 1), "05 30 00 01 02 ="},
        {bsmp_request_make_group(ids, 0), "05 30 00 00 ="},
        {bsmp_request_remove_groups(), "05 32 00 00 ="},
        {bsmp_request_read_block(0, 1), "05 40 00 03 00 00 01 B7"},
        {bsmp_request_read_block(7, 0xABCD), "05 40 00 03 07 AB CD ="},
        {bsmp_request_write_block(0, 1, bytes, 4), "05 41 00 07 00 00 01 AB CD EF 01 ="},
        {bsmp_request_write_block(255, 65535, bytes, 1), "05 41 00 04 FF FF FF AB ="},
        {bsmp_request_renew_sum(0), "05 42 00 01 00 ="},
        {bsmp_request_run_function(0, bytes, 1), "05 50 00 02 00 AB ="},
        {bsmp_request_run_function(3, bytes, 0), "05 50 00 01 03 ="},
    };
    for (size_t i = 0; i < COUNT(tries); i++) {
        struct text many = full_text(tries[i].packet);
        uint8_t packet[32];
        expect_asked(tries[i].packet, way, NODE, tries[i].request, tries[i].packet);
        /* the same to many, whose address is 243 more */
        size_t length = bytes_of(many.text, packet);
        packet[0] = 248;
        packet[length - 1] = bsmp_checksum(packet, length - 1);
        expect_asked("a request to many", way, 248, tries[i].request, text_of(packet, length).text);
    }
}

static void try_destinations(int way)
{
    for (unsigned to = 0; to < 256; to++) {
        char expected[32];
        if ((to >= 1 && to <= 31) || to >= 248) snprintf(expected, sizeof expected, "%02X 00 00 00 =", to);
        else snprintf(expected, sizeof expected, "refused 2");
        expect_asked("a destination", way, (uint8_t)to, bsmp_request_version(), expected);
    }
}

/* Refusal 3 comes before 14, and 2 before both. */
static void try_rooms(int way)
{
    static const struct { unsigned destination; size_t room, variable; unsigned refusal; } tries[] = {
        {5, 4104, 0, 0}, {5, 4103, 0, 3},   {5, 6, 0, 3},   {5, 0, 0, 3},
        {5, 0, 256, 3},  {5, 4103, 256, 3}, {0, 0, 256, 2}, {247, 4103, 0, 2},
    };
    for (size_t i = 0; i < COUNT(tries); i++) {
        uint8_t *packet = tries[i].room > 0 ? heap(tries[i].room) : NULL;
        struct bsmp_asked asked =
            ask_by(way, (uint8_t)tries[i].destination, bsmp_request_read_variable(tries[i].variable), packet, tries[i].room);
        check_number("a room", asked.refusal, tries[i].refusal);
        check_number("a room: the length", asked.length, tries[i].refusal ? 0 : 6);
        for (size_t k = asked.length; k < tries[i].room; k++) check(packet[k] == UNTOUCHED, "a room", "another byte was written");
        free(packet);
    }
}

/* Numbers, at the largest that has a place, then one more, and the largest that there is. */
static void try_numbers_named(int way)
{
    static const uint8_t byte[] = {0x77};
    static const size_t numbers[] = {255, 256, SIZE_MAX}, blocks[] = {65535, 65536, SIZE_MAX};
    for (size_t i = 0; i < COUNT(numbers); i++) {
        size_t n = numbers[i], k = blocks[i];
        const struct { struct bsmp_request request; const char *packet; } tries[] = {
            {bsmp_request_show_group(n), "05 06 00 01 FF ="},
            {bsmp_request_read_sum(n), "05 0A 00 01 FF ="},
            {bsmp_request_read_variable(n), "05 10 00 01 FF ="},
            {bsmp_request_read_group(n), "05 12 00 01 FF ="},
            {bsmp_request_write_variable(n, byte, 1), "05 20 00 02 FF 77 ="},
            {bsmp_request_write_group(n, byte, 1), "05 22 00 02 FF 77 ="},
            {bsmp_request_mask_variable(n, BSMP_MASK_AND, byte, 1), "05 24 00 03 FF 41 77 ="},
            {bsmp_request_mask_group(n, BSMP_MASK_AND, byte, 1), "05 26 00 03 FF 41 77 ="},
            {bsmp_request_write_read(n, 0, byte, 1), "05 28 00 03 FF 00 77 ="},
            {bsmp_request_write_read(0, n, byte, 1), "05 28 00 03 00 FF 77 ="},
            {bsmp_request_read_block(n, 0), "05 40 00 03 FF 00 00 ="},
            {bsmp_request_write_block(n, 0, byte, 1), "05 41 00 04 FF 00 00 77 ="},
            {bsmp_request_renew_sum(n), "05 42 00 01 FF ="},
            {bsmp_request_run_function(n, byte, 1), "05 50 00 02 FF 77 ="},
            {bsmp_request_read_block(0, k), "05 40 00 03 00 FF FF ="},
            {bsmp_request_write_block(0, k, byte, 1), "05 41 00 04 00 FF FF 77 ="},
        };
        for (size_t t = 0; t < COUNT(tries); t++)
            expect_asked("a number named", way, NODE, tries[t].request, i == 0 ? tries[t].packet : "refused 14");
    }
}

/* A payload of 4,099 bytes is written, its bytes where they belong; one of 4,100 is not. */
static void try_payloads(int way)
{
    uint8_t *bytes = heap(BSMP_MOST_PAYLOAD + 1), *packet = heap(BSMP_REQUEST_ROOM);
    for (size_t i = 0; i <= BSMP_MOST_PAYLOAD; i++) bytes[i] = (uint8_t)(255 - i * 7 % 251);
    for (size_t over = 0; over < 2; over++) {
        const struct { struct bsmp_request request; size_t front; } tries[] = {
            {bsmp_request_write_variable(1, bytes, 4098 + over), 1},
            {bsmp_request_write_group(1, bytes, 4098 + over), 1},
            {bsmp_request_mask_variable(1, BSMP_MASK_XOR, bytes, 4097 + over), 2},
            {bsmp_request_mask_group(1, BSMP_MASK_XOR, bytes, 4097 + over), 2},
            {bsmp_request_write_read(1, 2, bytes, 4097 + over), 2},
            {bsmp_request_make_group(bytes, 4099 + over), 0},
            {bsmp_request_write_block(1, 2, bytes, 4096 + over), 3},
            {bsmp_request_run_function(1, bytes, 4098 + over), 1},
        };
        for (size_t i = 0; i < COUNT(tries); i++) {
            const struct bsmp_request *request = &tries[i].request;
            memset(packet, UNTOUCHED, BSMP_REQUEST_ROOM);
            struct bsmp_asked asked = ask_by(way, NODE, *request, packet, BSMP_REQUEST_ROOM);
            check_number("a long payload", asked.refusal, over ? BSMP_REQUEST_UNWRITABLE : BSMP_NOT_REFUSED);
            check_number("a long payload: the length", asked.length, over ? 0 : BSMP_MOST_PACKET);
            if (over) {
                size_t untouched = 0;
                while (untouched < BSMP_REQUEST_ROOM && packet[untouched] == UNTOUCHED) untouched++;
                check_number("a payload too long: untouched", untouched, BSMP_REQUEST_ROOM);
                continue;
            }
            check_number("a long payload: SIZE", 256u * packet[2] + packet[3], BSMP_MOST_PAYLOAD);
            check_number("a long payload: the sum", bsmp_checksum(packet, BSMP_MOST_PACKET), 0);
            const uint8_t *carried = packet + 4 + tries[i].front;
            if (request->code != BSMP_COMMAND_MAKE_GROUP)
                check(memcmp(carried, bytes, request->length) == 0, "a long payload", "other bytes");
            else
                for (size_t k = 1; k < request->length; k++) check(carried[k - 1] <= carried[k], "many IDs", "they are not sorted");
        }
    }
    free(bytes);
    free(packet);
}

/* A new group keeps each ID as often as it is given. */
static void try_counts_of_ids(int way)
{
    uint8_t *ids = heap(1000), *packet = heap(BSMP_REQUEST_ROOM);
    unsigned given[256] = {0}, sent[256] = {0};
    uint32_t seed = 12345;
    for (size_t i = 0; i < 1000; i++) {
        seed = seed * 1103515245u + 12345u;
        ids[i] = (uint8_t)(seed >> 16);
        given[ids[i]]++;
    }
    struct bsmp_asked asked = ask_by(way, NODE, bsmp_request_make_group(ids, 1000), packet, BSMP_REQUEST_ROOM);
    check_number("a thousand IDs", asked.length, 1005);
    for (size_t i = 4; i < 1004; i++) {
        check(i == 4 || packet[i - 1] <= packet[i], "a thousand IDs", "they are not sorted");
        sent[packet[i]]++;
    }
    check(memcmp(given, sent, sizeof given) == 0, "a thousand IDs", "they are others");
    free(ids);
    free(packet);
}

/* Codes and operations: those that there are and no others. */
static void try_codes(int way)
{
    static const uint8_t byte[] = {0x77};
    unsigned codes = 0, operations = 0;
    for (unsigned n = 0; n < 256; n++) {
        uint8_t *packet = heap(BSMP_REQUEST_ROOM);
        struct bsmp_request request = {(uint8_t)n, BSMP_MASK_SET, 0, 0, 0, byte, 1};
        struct bsmp_asked asked = ask_by(way, NODE, request, packet, BSMP_REQUEST_ROOM);
        if (asked.refusal == BSMP_NOT_REFUSED) {
            check_number("a code", packet[1], n);
            codes++;
        } else
            check(asked.refusal == BSMP_REQUEST_UNWRITABLE && packet[0] == UNTOUCHED, "a code", "refused otherwise, or written");
        request.code = (uint8_t)(n % 2 == 0 ? BSMP_COMMAND_MASK_VARIABLE : BSMP_COMMAND_MASK_GROUP);
        for (unsigned swap = 0; swap < 2; swap++) {
            request.code ^= BSMP_COMMAND_MASK_VARIABLE ^ BSMP_COMMAND_MASK_GROUP;
            request.operation = (uint8_t)n;
            asked = ask_by(way, NODE, request, packet, BSMP_REQUEST_ROOM);
            if (asked.refusal == BSMP_NOT_REFUSED) {
                check_number("an operation", packet[5], n);
                operations++;
            } else
                check_number("an operation", asked.refusal, BSMP_REQUEST_UNWRITABLE);
        }
        free(packet);
    }
    check_number("codes", codes, 20);
    check_number("operations", operations, 2 * 6);
    struct bsmp_request none = {0x7F, 0, 0, 0, 0, NULL, 0};
    uint8_t *packet = heap(BSMP_REQUEST_ROOM);
    check_number("no such code, no address", ask_by(way, 32, none, packet, 0).refusal, BSMP_BAD_ADDRESS);
    check_number("no such code, no room", ask_by(way, 31, none, packet, 4103).refusal, BSMP_REPLY_BUFFER_SHORT);
    check_number("no such code", ask_by(way, 255, none, packet, 4104).refusal, BSMP_REQUEST_UNWRITABLE);
    free(packet);
}

void try_unwritable(int way)
{
    try_destinations(way);
    try_rooms(way);
    try_numbers_named(way);
    try_payloads(way);
    try_counts_of_ids(way);
    try_codes(way);
}
