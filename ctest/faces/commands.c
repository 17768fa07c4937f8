/* One line or more for every command and wire error that the settled examples leave out, busy marks, and the group table. */
#include "subjects.h"

struct line {
    bool goes_on; /* from the line before, and not afresh */
    const char *packet;
    const char *outcome;
    const char *values; /* after it; NULL if as on a fresh board */
};

/* The answer to 0A: for 8 zero bytes, and with AB CD as all that block 1 has. */
#define FRESH_SUM "00 0B 00 10 7D EA 36 2B 3F AC 8E 00 95 6A 49 52 A3 D4 F4 74 ="
#define WRITTEN_SUM "00 0B 00 10 1E 24 A6 1F BE DB 28 5C FE 14 A3 11 8D AD A1 58 ="

static const struct line lines[] = {
    {false, "FF 20 00 02 01 67 =", "silence", "FF FF FF FD 67 34 12"},
    {true, "05 10 00 01 01 =", "00 11 00 01 67 =", "FF FF FF FD 67 34 12"},
    {false, "05 30 00 02 00 01 =", "00 E0 00 00 =", NULL},
    {true, "05 06 00 01 03 =", "00 07 00 02 00 01 =", NULL},
    {true, "05 04 00 00 =", "00 05 00 04 03 01 82 02 =", NULL},
    {true, "05 32 00 00 =", "00 E0 00 00 =", NULL},
    {true, "05 12 00 01 03 =", "00 E3 00 00 =", NULL},
    {false, "05 08 00 00 =", "00 09 00 05 01 00 04 00 02 =", NULL},
    {false, "05 0C 00 00 =", "00 0D 00 01 12 =", NULL},
    {false, "05 22 00 04 02 01 02 03 =", "00 E0 00 00 =", "FF FF FF FD 01 02 03"},
    {false, "05 26 00 05 02 41 F0 0F FF =", "00 E0 00 00 =", "FF FF FF FD 50 04 12"},
    {false, "05 26 00 05 02 59 F0 0F FF =", "00 E2 00 00 =", NULL},
    {false, "05 28 00 03 01 03 77 =", "00 E3 00 00 =", NULL},
    {false, "05 41 00 05 00 00 01 AB CD =", "00 E0 00 00 =", NULL},
    {true, "05 40 00 03 00 00 01 =", "00 41 00 05 00 00 01 AB CD =", NULL},
    {true, "05 0A 00 01 00 =", FRESH_SUM, NULL},
    {true, "FF 0A 00 01 00 =", "silence", NULL},
    {true, "05 42 00 01 01 =", "00 E3 00 00 =", NULL},
    {true, "FF 42 00 01 01 =", "silence", NULL},
    {true, "05 0A 00 01 00 =", FRESH_SUM, NULL},
    {true, "05 42 00 01 00 =", "00 E0 00 00 =", NULL},
    {true, "05 0A 00 01 00 =", WRITTEN_SUM, NULL},
    {false, "05 41 00 05 00 00 01 AB CD =", "00 E0 00 00 =", NULL},
    {true, "F8 42 00 01 00 =", "silence", NULL},
    {true, "05 0A 00 01 00 =", WRITTEN_SUM, NULL},
    {false, "05 0A 00 02 00 =", "00 E1 00 00 =", NULL},
    {false, "05 0A 00 00 =", "00 E5 00 00 =", NULL},
    {false, "05 0A 00 02 00 00 =", "00 E5 00 00 =", NULL},
    {false, "05 0A 00 02 01 00 =", "00 E5 00 00 =", NULL},
    {false, "05 0A 00 01 01 =", "00 E3 00 00 =", NULL},
    {false, "05 0A 00 01 FF =", "00 E3 00 00 =", NULL},
    {false, "05 42 00 02 00 =", "00 E1 00 00 =", NULL},
    {false, "05 42 00 00 =", "00 E5 00 00 =", NULL},
    {false, "05 42 00 02 00 00 =", "00 E5 00 00 =", NULL},
    {false, "05 42 00 02 01 00 =", "00 E5 00 00 =", NULL},
    {false, "05 42 00 01 01 =", "00 E3 00 00 =", NULL},
    {false, "05 42 00 01 FF =", "00 E3 00 00 =", NULL},
    {false, "05 0B 00 01 00 =", "00 E2 00 00 =", NULL},
    {false, "05 50 00 02 00 07 =", "run 0 with 07, due", NULL},
    {false, "FF 50 00 02 00 07 =", "run 0 with 07", NULL},
    {false, "F8 50 00 02 01 07 =", "silence", NULL},
    {false, "05 30 00 01 00 =", "00 E0 00 00 =", NULL},
    {true, "05 30 00 01 00 =", "00 E0 00 00 =", NULL},
    {true, "05 30 00 01 00 =", "00 E0 00 00 =", NULL},
    {true, "05 30 00 01 00 =", "00 E0 00 00 =", NULL},
    {true, "05 30 00 01 00 =", "00 E0 00 00 =", NULL},
    {true, "05 30 00 01 00 =", "00 E7 00 00 =", NULL},
};

static void try_lines(int way)
{
    struct bench bench;
    start(&bench);
    for (size_t i = 0; i < sizeof lines / sizeof lines[0]; i++) {
        if (!lines[i].goes_on) {
            end(&bench);
            start(&bench);
        }
        expect_packet(&bench, way, lines[i].packet, lines[i].outcome);
        check_values(lines[i].packet, way, &bench, lines[i].values);
    }
    end(&bench);
}

static void try_busy(int way)
{
    struct bench bench;
    start(&bench);
    bench.busy = UINT64_C(4);
    expect_packet(&bench, way, "05 22 00 04 02 01 02 03 =", "00 E8 00 00 =");
    expect_packet(&bench, way, "05 28 00 03 01 02 66 =", "00 E8 00 00 =");
    expect_packet(&bench, way, "F8 28 00 03 01 02 66 =", "silence");
    expect_packet(&bench, way, "05 10 00 01 02 =", "00 E8 00 00 =");
    expect_packet(&bench, way, "05 12 00 01 00 =", "00 E8 00 00 =");
    check_values("22 on a busy member, and 28 that reads a busy variable", way, &bench, NULL);
    expect_packet(&bench, way, "05 10 00 01 01 =", "00 11 00 01 5A =");
    expect_packet(&bench, way, "05 12 00 01 01 =", "00 13 00 04 FF FF FF FD =");
    bench.busy = ~UINT64_C(7);
    expect_packet(&bench, way, "05 12 00 01 00 =", "00 13 00 07 FF FF FF FD 5A 34 12 =");
    expect_packet(&bench, way, "05 22 00 04 02 01 02 03 =", "00 E0 00 00 =");
    end(&bench);
}

/* Of the group table, 30 writes one place and the count, 32 the count. */
static void try_group_table(int way)
{
    struct bench bench;
    start(&bench);
    memset(bench.state.groups.sets, UNTOUCHED, sizeof bench.state.groups.sets);
    struct bsmp_groups expected = bench.state.groups;
    expect_packet(&bench, way, "05 30 00 02 00 02 =", "00 E0 00 00 =");
    expected.count = 1;
    expected.sets[0] = 5;
    check(memcmp(&bench.state.groups, &expected, sizeof expected) == 0, "30", "the group table");
    expect_packet(&bench, way, "05 32 00 00 =", "00 E0 00 00 =");
    expected.count = 0;
    check(memcmp(&bench.state.groups, &expected, sizeof expected) == 0, "32", "the group table");
    end(&bench);
}

void try_commands(int way)
{
    try_lines(way);
    try_busy(way);
    try_group_table(way);
}
