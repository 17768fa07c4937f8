/* A node for board A on a Cortex-M3, fed by a UART: the board is MPS2 AN385, as QEMU emulates it. docs/BOARDS.md goes through it.
 *
 * A packet is what stands between two silences. The interrupts collect it; the main loop hands it to the library and sends the reply. While
 * the library has the packet, the interrupts leave it alone. */
#include "../board_a.h"

#ifndef SILENCE
#define SILENCE 5 /* milliseconds without a byte that end a packet */
#endif

/* ---- The board's registers ---- */

struct uart {
    volatile uint32_t data, state, control, interrupt, divider;
};
enum { UART_FULL = 1, UART_HAS_BYTE = 2, UART_SEND = 1, UART_TAKE = 2, UART_TAKE_INTERRUPT = 8, UART_TAKEN = 2 };

struct ticks {
    volatile uint32_t control, reload, current;
};
enum { TICKS_ON = 7 };

enum { CLOCK = 25000000, BAUD = 115200, UART_INTERRUPT = 0 };
#define UART ((struct uart *)0x40004000)
#define TICKS ((struct ticks *)0xE000E010)
#define INTERRUPTS_ON (*(volatile uint32_t *)0xE000E100)
#define RESET_CONTROL (*(volatile uint32_t *)0xE000ED0C)
enum { RESET_NOW = 0x05FA0004 };

/* ---- A packet ---- */

/* IDLE: none. TAKING: some of its bytes are there. WHOLE: the main loop has it, and the interrupts may not touch it. */
enum step { IDLE, TAKING, WHOLE };
static volatile enum step step;
static volatile unsigned quiet = SILENCE; /* milliseconds since the last byte, no more than SILENCE */
static uint8_t packet[BSMP_MOST_PACKET + 1]; /* one byte more, so that the library sees that a packet is too long */
static size_t packet_length;

/* A packet starts after a silence only: of one that came while the main loop was at work, the rest is dropped too. */
static void take_byte(uint8_t byte)
{
    bool after_silence = quiet == SILENCE;
    quiet = 0;
    if (step == IDLE && after_silence) {
        packet_length = 0;
        step = TAKING;
    }
    if (step == TAKING && packet_length < sizeof packet) packet[packet_length++] = byte;
}

/* The interrupt is cleared first: after the byte is read, the next one may raise it again at once. */
static void take_bytes(void)
{
    UART->interrupt = UART_TAKEN;
    while (UART->state & UART_HAS_BYTE) take_byte((uint8_t)UART->data);
}

static void tick(void)
{
    if (quiet == SILENCE) return;
    quiet++;
    if (quiet == SILENCE && step == TAKING) step = WHOLE;
}

/* On an RS485 line the driver is switched on before the first byte and off after the last one. */
static void send(const uint8_t *bytes, size_t length)
{
    for (size_t i = 0; i < length; i++) {
        while (UART->state & UART_FULL) {}
        UART->data = bytes[i];
    }
}

/* ---- The node ---- */

static uint8_t values[BOARD_A_VALUES], blocks[BOARD_A_BLOCKS], sums[BOARD_A_SUMS], reply[BSMP_REPLY_ROOM];
static uint16_t lengths[BOARD_A_LENGTHS];
static struct bsmp_state state;

/* Function 0 stands for a real board's work: 1000 divided by its input, most significant byte first, or error 1 if that is 0. */
static struct bsmp_outcome run_function(const struct bsmp_outcome *run, const uint8_t *input)
{
    if (input[0] == 0) return bsmp_node_function_failed(&board_a, &state, run->function, run->due, 1, reply, sizeof reply);
    unsigned quotient = 1000u / input[0];
    uint8_t output[2] = {(uint8_t)(quotient >> 8), (uint8_t)quotient};
    return bsmp_node_function_gave(&board_a, &state, run->function, run->due, output, sizeof output, reply, sizeof reply);
}

/* The packet is given back before the reply is sent, which may be followed at once. Refusals are not answered: the line stays quiet. */
static void answer(void)
{
    struct bsmp_outcome outcome = bsmp_node_packet(&board_a, &state, 0, packet, packet_length, reply, sizeof reply);
    if (outcome.kind == BSMP_RUN) outcome = run_function(&outcome, packet + outcome.input);
    __asm__ volatile("" ::: "memory");
    step = IDLE;
    if (outcome.kind == BSMP_REPLY) send(reply, outcome.length);
}

/* Where it ends if the board's tables break the limits. Also where a trap of the library ends, which the proofs say never comes: a duty of
 * the caller was broken, or the memory is damaged. A real board first puts its outputs where they do no harm. */
static void fault(void)
{
    RESET_CONTROL = RESET_NOW;
    for (;;) {}
}

/* Between two packets a real board would store what it measured, by bsmp_node_store. */
static void serve(void)
{
    if (board_a_fresh(&state, values, blocks, lengths, sums) != BSMP_NOT_REFUSED) fault();
    for (;;) {
        while (step != WHOLE) __asm__ volatile("wfi" ::: "memory");
        answer();
    }
}

/* ---- Start ---- */

extern char data_start[], data_end[], data_load[], bss_start[], bss_end[], stack_top[];

void reset(void)
{
    memcpy(data_start, data_load, (size_t)(data_end - data_start));
    memset(bss_start, 0, (size_t)(bss_end - bss_start));
    UART->divider = CLOCK / BAUD;
    UART->control = UART_SEND | UART_TAKE | UART_TAKE_INTERRUPT;
    TICKS->reload = CLOCK / 1000 - 1;
    TICKS->current = 0;
    TICKS->control = TICKS_ON;
    INTERRUPTS_ON = 1u << UART_INTERRUPT;
    serve();
}

struct vectors {
    char *stack;
    void (*handlers[15])(void);
    void (*interrupts[1])(void);
};

__attribute__((section(".vectors"), used)) static const struct vectors vectors = {
    stack_top,
    {reset, fault, fault, fault, fault, fault, 0, 0, 0, 0, fault, fault, 0, fault, tick},
    {take_bytes},
};
