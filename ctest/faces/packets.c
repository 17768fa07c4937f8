/* Refusals 2 to 6: a packet's addresses and lengths. */
#include "subjects.h"

static void try_addresses(int way)
{
    static const struct { uint8_t own, multicast; const char *packet, *outcome; } tries[] = {
        {0, 0x81, "00 00 00 00 00", "refused 2"},        {32, 0x81, "20 00 00 00 E0", "refused 2"},
        {5, 0x80, "05 00 00 00 FB", "refused 2"},        {5, 0x81, "06 00 00 00 FA", "refused 6"},
        {5, 0x81, "F9 00 00 00 07", "refused 6"},        {5, 0x81, "00 00 00 00 00", "refused 6"},
        {31, 0x01, "1F 00 00 00 E1", "00 01 00 03 02 14 00 E6"}, {5, 0x01, "F8 00 00 00 08", "refused 6"},
        {5, 0x01, "FF 20 00 02 01 66 =", "silence"},
    };
    for (size_t i = 0; i < sizeof tries / sizeof tries[0]; i++) {
        struct bench bench;
        start(&bench);
        bench.board.own = tries[i].own;
        bench.board.multicast = tries[i].multicast;
        expect_packet(&bench, way, tries[i].packet, tries[i].outcome);
        end(&bench);
    }
}

static void try_lengths(int way)
{
    static const struct { size_t room, length; const char *outcome; } tries[] = {
        {4103, 5, "refused 3"}, {4103, 4105, "refused 3"}, {4104, 1, "refused 4"}, {4104, 4105, "refused 4"},
        {4104, 4104, "refused 5"}, {4105, 2, "refused 5"},
    };
    for (size_t i = 0; i < sizeof tries / sizeof tries[0]; i++) {
        struct bench bench;
        start(&bench);
        set_room(&bench, tries[i].room);
        uint8_t *packet = heap(tries[i].length);
        packet[0] = 5;
        uint64_t before = digest(&bench);
        struct bsmp_outcome outcome = packet_by(way, &bench, packet, tries[i].length);
        check_outcome("lengths", way, &bench, &outcome, packet, tries[i].outcome);
        check(digest(&bench) == before, "lengths", "a refusal changed something");
        free(packet);
        end(&bench);
    }
}

void try_packets(int way)
{
    try_addresses(way);
    try_lengths(way);
}
