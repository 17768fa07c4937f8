/* The shortest program: a board with one variable gets one packet and prints the reply. */
#include "bsmp.h"

#include <stdio.h>

int main(void)
{
    static const struct bsmp_variable variables[] = {{BSMP_READ_ONLY, 4, BSMP_SIGNED_BIG}};
    static const struct bsmp_board board = {variables, 1, NULL, 0, NULL, 0, 5, 0x01};
    static const uint8_t packet[] = {0x05, 0x10, 0x00, 0x01, 0x00, 0xEA};
    static uint8_t values[4] = {0xFF, 0xFF, 0xFF, 0xFD};
    static uint8_t reply[BSMP_REPLY_ROOM];
    struct bsmp_state state = {values, sizeof values, NULL, 0, NULL, 0, NULL, 0, {0, {0}}};

    /* Before the first packet: it fills the lengths of blocks and the sums of curves, if there are any, and tells an unusable board. */
    uint8_t refusal = bsmp_node_fresh(&board, &state);
    if (refusal != BSMP_NOT_REFUSED) {
        fprintf(stderr, "no start: %s\n", bsmp_refusal_words(refusal));
        return 1;
    }

    struct bsmp_outcome outcome = bsmp_node_packet(&board, &state, 0, packet, sizeof packet, reply, sizeof reply);
    if (outcome.kind != BSMP_REPLY) {
        fprintf(stderr, "no reply: %s\n", bsmp_refusal_words(outcome.refusal));
        return 1;
    }
    for (size_t i = 0; i < outcome.length; i++) printf("%02X%s", reply[i], i + 1 < outcome.length ? " " : "\n");

    struct bsmp_signed_reading reading = bsmp_node_read_signed(&board, 0, reply + 4, 4);
    if (reading.refusal != BSMP_NOT_REFUSED) {
        fprintf(stderr, "no number: %s\n", bsmp_refusal_words(reading.refusal));
        return 1;
    }
    printf("variable 0 is %lld\n", (long long)reading.number);
    return 0;
}
