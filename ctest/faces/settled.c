/* The settled examples, from their file, which says at its top what its lines mean. */
#include "subjects.h"

struct example {
    int way;
    struct bench bench;
    /* The packet at hand, and whether its outcome was met. */
    char packet[96];
    bool ended;
    /* The board as it is after the packet, by what the lines say. */
    struct bsmp_state said;
    uint8_t values[BOARD_A_VALUES], blocks[BOARD_A_BLOCKS], sums[BOARD_A_SUMS];
    uint16_t lengths[BOARD_A_LENGTHS];
};

static void start_example(struct example *example)
{
    start(&example->bench);
    check_number("board A", board_a_fresh(&example->said, example->values, example->blocks, example->lengths, example->sums), 0);
    example->packet[0] = 0;
    example->ended = false;
}

static void end_packet(const struct example *example)
{
    const struct bsmp_state *state = &example->bench.state, *said = &example->said;
    check(example->ended, example->packet, "no packet with an outcome");
    check_values(example->packet, example->way, &example->bench, text_of(said->values, BOARD_A_VALUES).text);
    check(memcmp(state->blocks, said->blocks, BOARD_A_BLOCKS) == 0, example->packet, "a block changed");
    check(memcmp(state->lengths, said->lengths, sizeof example->lengths) == 0, example->packet, "a length changed");
    check(memcmp(state->sums, said->sums, BOARD_A_SUMS) == 0, example->packet, "a sum changed");
    check(memcmp(&state->groups, &said->groups, sizeof said->groups) == 0, example->packet, "another group table");
}

static void end_example(struct example *example)
{
    end_packet(example);
    end(&example->bench);
}

static void start_packet(struct example *example, const char *packet)
{
    if (example->packet[0]) end_packet(example);
    memcpy(example->packet, packet, sizeof example->packet);
    example->ended = false;
}

static void end_in(struct example *example, const char *outcome)
{
    expect_packet(&example->bench, example->way, example->packet, outcome);
    example->ended = true;
}

/* Where the bytes of a variable stand in the store. */
static size_t place_of(size_t variable)
{
    size_t place = 0;
    while (variable > 0) place += board_a_variables[--variable].size;
    return place;
}

static void say_value(struct example *example, size_t variable, const char *text)
{
    uint8_t bytes[32];
    size_t size = board_a_variables[variable].size;
    check_number(example->packet, bytes_of(text, bytes), size);
    memcpy(example->values + place_of(variable), bytes, size);
}

static void say_number(const struct example *example, size_t variable, long number)
{
    const struct bench *bench = &example->bench;
    const uint8_t *bytes = bench->state.values + place_of(variable);
    size_t count = bench->board.variable_count, size = board_a_variables[variable].size;
    struct bsmp_signed_reading reading = example->way == INLINE ? bsmp_node_value_signed(&bench->board, &bench->state, variable)
                                                                : bsmp_read_signed(bench->variables, count, variable, bytes, size);
    check_number(example->packet, reading.refusal, 0);
    check(reading.number == number, example->packet, "the variable reads as another number");
}

static void say_group(struct example *example, size_t group, const char *members)
{
    struct bsmp_groups *groups = &example->said.groups;
    unsigned member;
    groups->count = group - 2;
    groups->sets[group - 3] = 0;
    for (int read; sscanf(members, "%u%n", &member, &read) == 1; members += read) groups->sets[group - 3] |= UINT64_C(1) << member;
}

/* A line within an example; false if it can't be read. */
static bool take(struct example *example, const char *line)
{
    char text[96];
    unsigned long thing;
    long number;
    if (sscanf(line, "packet %95[0-9A-F ]", text) == 1) start_packet(example, text);
    else if (!example->packet[0]) return false;
    else if (sscanf(line, "reply %95[0-9A-F ]", text) == 1) end_in(example, text);
    else if (strcmp(line, "silence") == 0) end_in(example, line);
    else if (sscanf(line, "variable %lu %95[0-9A-F ]", &thing, text) == 2 && thing < 3) say_value(example, thing, text);
    else if (sscanf(line, "reads %lu %ld", &thing, &number) == 2 && thing < 3) say_number(example, thing, number);
    else if (sscanf(line, "group %lu %95[0-9 ]", &thing, text) == 2 && thing >= 3 && thing <= 7) say_group(example, thing, text);
    else return false;
    return true;
}

void try_settled(int way, const char *path)
{
    struct example example;
    char line[256];
    unsigned examples = 0;
    FILE *file = fopen(path, "r");
    if (!file) {
        perror(path);
        exit(2);
    }
    example.way = way;
    while (fgets(line, sizeof line, file)) {
        line[strcspn(line, "\n")] = 0;
        if (line[0] == '#' || line[0] == 0) continue;
        if (strcmp(line, "example") != 0 && strcmp(line, "example P") != 0) {
            check(examples > 0 && take(&example, line), line, "a line that can't be read");
            continue;
        }
        if (examples++ > 0) end_example(&example);
        start_example(&example);
    }
    if (examples > 0) end_example(&example);
    check(examples > 0, path, "no example");
    fclose(file);
}
