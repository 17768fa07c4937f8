/* faces EXAMPLES: the C face, tried on board A: each call once by the library's functions and once by the inline ones. EXAMPLES is the
 * file of settled examples. C11 and also C++11. */
#include "faces/subjects.h"

#if BSMP_VERSION < 100
#error "a version of the header that there never was"
#endif

unsigned checks, failed;

static void try_versions(void)
{
    static const uint8_t expected[] = {BSMP_PROTOCOL_MAJOR, BSMP_PROTOCOL_MINOR, BSMP_PROTOCOL_REVISION};
    static const uint8_t packet[] = {0x05, 0x00, 0x00, 0x00, 0xFB};
    struct bench bench;
    start(&bench);
    struct bsmp_outcome outcome = packet_by(INLINE, &bench, packet, sizeof packet);
    check_number("the version's reply", outcome.length, 5 + sizeof expected);
    check(memcmp(bench.reply + 4, expected, sizeof expected) == 0, "the version's reply", "another version than the header's");
    end(&bench);
}

static void try_checksum(void)
{
    static const uint8_t packet[] = {0x05, 0x10, 0x00, 0x01, 0x00, 0xEA};
    static uint8_t longest[BSMP_MOST_PACKET];
    memset(longest, 0xFF, sizeof longest);
    check_number("the checksum of nothing", bsmp_checksum(NULL, 0), 0);
    check_number("a checksum", bsmp_checksum(packet, 5), 0xEA);
    check_number("the checksum of a closed packet", bsmp_checksum(packet, 6), 0);
    check_number("the checksum of the longest packet", bsmp_checksum(longest, BSMP_MOST_PACKET - 1), (BSMP_MOST_PACKET - 1) % 256);
}

static void try_words(void)
{
    static const char *const words[] = {
        "not refused",        "board unusable",   "bad address",   "reply buffer short", "packet length",    "checksum",
        "not for this board", "no such function", "output length", "no such variable",   "wrong byte count", "wrong kind",
        "doesn't fit",        "reply doesn't fit the request", "request can't be written", "unknown refusal",
    };
    for (size_t i = 0; i < sizeof words / sizeof words[0]; i++) check_text("words", INLINE, bsmp_refusal_words(i), words[i]);
}

int main(int count, char **arguments)
{
    if (count != 2) {
        fputs("usage: faces EXAMPLES\n", stderr);
        return 2;
    }
    for (int way = RAW; way < WAYS; way++) {
        try_settled(way, arguments[1]);
        try_commands(way);
        try_packets(way);
        try_tables(way);
        try_results_and_stores(way);
        try_block_lengths(way);
        try_sums(way);
    }
    try_md5();
    try_null();
    try_readings();
    try_places_and_values();
    try_versions();
    try_checksum();
    try_words();
    printf("%u checks, %u failed\n", checks, failed);
    return failed != 0;
}
