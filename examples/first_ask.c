/* The shortest program that asks: it learns board A from its lists and reads variable 0. The node is served in the same process, where a
 * gateway has its line. */
#include "board_a.h"
#include "bsmp_ask.h"

#include <stdio.h>
#include <stdlib.h>

static struct bsmp_state node;
static struct bsmp_learned learned; /* zeros: nothing is known yet */
static uint8_t packet[BSMP_REQUEST_ROOM], reply[BSMP_REPLY_ROOM];

static void fail(const char *what, const char *words)
{
    fprintf(stderr, "%s: %s\n", what, words);
    exit(1);
}

/* Asks the node, hears what it replies, and learns from it. */
static struct bsmp_heard ask(struct bsmp_request request)
{
    struct bsmp_asked asked = bsmp_ask(5, &request, packet, sizeof packet);
    if (asked.refusal != BSMP_NOT_REFUSED) fail("not asked", bsmp_refusal_words(asked.refusal));

    /* A gateway sends the packet here, and takes what comes until the line is silent. */
    struct bsmp_outcome outcome = bsmp_node_packet(&board_a, &node, 0, packet, asked.length, reply, sizeof reply);

    struct bsmp_heard heard = bsmp_hear(&learned, 5, &request, reply, outcome.length);
    if (heard.kind == BSMP_HEARD_REFUSED) fail("not heard", bsmp_refusal_words(heard.refusal));
    if (heard.kind == BSMP_HEARD_ERROR) fail("not done", "the node answered with an error");
    return heard;
}

int main(void)
{
    static const uint8_t kinds[] = {BSMP_SIGNED_BIG, BSMP_PLAIN, BSMP_UNSIGNED_LITTLE}; /* they don't travel on the line */
    static uint8_t values[BOARD_A_VALUES], blocks[BOARD_A_BLOCKS], sums[BOARD_A_SUMS];
    static uint16_t lengths[BOARD_A_LENGTHS];
    board_a_fresh(&node, values, blocks, lengths, sums);

    ask(bsmp_request_list_variables());
    size_t groups = ask(bsmp_request_list_groups()).length;
    for (size_t group = BSMP_FIRST_MADE_GROUP; group < groups; group++) ask(bsmp_request_show_group(group));
    ask(bsmp_request_list_curves());
    ask(bsmp_request_list_functions());

    struct bsmp_heard heard = ask(bsmp_request_read_variable(0));
    struct bsmp_signed_reading reading = bsmp_hear_signed(&learned, kinds, sizeof kinds, 0, reply + heard.place, heard.length);
    if (reading.refusal != BSMP_NOT_REFUSED) fail("no number", bsmp_refusal_words(reading.refusal));
    printf("variable 0 is %lld\n", (long long)reading.number);
    return 0;
}
