/* serve: board A on a serial line.
 *
 *   serve [-v] [-s MILLISECONDS] DEVICE [BAUD]
 *
 * 8 data bits, no parity, one stop bit; 115200 baud if none is given. A packet ends when the line has been silent for two bytes'
 * time and MILLISECONDS (5 if not given); adapters that hand bytes over in batches need more. -v logs every packet to stderr.
 * It ends with status 0 on hang-up, SIGINT and SIGTERM, with 1 on an error and with 2 if called wrongly. */
#define _GNU_SOURCE
#include "board_a.h"

#include <errno.h>
#include <fcntl.h>
#include <limits.h>
#include <poll.h>
#include <signal.h>
#include <stdarg.h>
#include <stdio.h>
#include <stdlib.h>
#include <termios.h>
#include <time.h>
#include <unistd.h>

#define DEFAULT_BAUD "115200"
enum { DEFAULT_SILENCE = 5, MOST_SILENCE = 10000, BITS_PER_BYTE = 10 };

struct line {
    const char *device;
    long baud;
    speed_t speed;
    long silence; /* milliseconds that end a packet */
    int file;
    struct termios before;
};

/* One byte more than a packet may have, so that a longer one is seen to be longer. */
struct packet {
    uint8_t bytes[BSMP_MOST_PACKET + 1];
    size_t length;
};

static bool verbose;
static volatile sig_atomic_t asked_to_end;
static sigset_t while_waiting;

/* ---- Messages ---- */

static void say(const char *format, ...)
{
    va_list arguments;
    va_start(arguments, format);
    fputs("serve: ", stderr);
    vfprintf(stderr, format, arguments);
    fputc('\n', stderr);
    va_end(arguments);
}

static void log_bytes(const char *what, const uint8_t *bytes, size_t length)
{
    if (!verbose) return;
    fprintf(stderr, "serve: %s", what);
    for (size_t i = 0; i < length; i++) fprintf(stderr, " %02X", bytes[i]);
    fputc('\n', stderr);
}

static bool misused(void)
{
    fputs("usage: serve [-v] [-s MILLISECONDS] DEVICE [BAUD]\n", stderr);
    return false;
}

/* ---- The line ---- */

static bool speed_of(long baud, speed_t *speed)
{
    static const struct { long baud; speed_t speed; } speeds[] = {
        {1200, B1200},     {2400, B2400},     {4800, B4800},     {9600, B9600},     {19200, B19200},     {38400, B38400},
        {57600, B57600},   {115200, B115200}, {230400, B230400}, {460800, B460800}, {500000, B500000},   {921600, B921600},
        {1000000, B1000000}, {2000000, B2000000}, {3000000, B3000000}, {4000000, B4000000},
    };
    for (size_t i = 0; i < sizeof speeds / sizeof speeds[0]; i++) {
        if (speeds[i].baud != baud) continue;
        *speed = speeds[i].speed;
        return true;
    }
    return false;
}

static bool set_raw(struct line *line)
{
    if (tcgetattr(line->file, &line->before) != 0) {
        say("%s: %s", line->device, errno == ENOTTY ? "not a serial line" : strerror(errno));
        return false;
    }
    struct termios raw = line->before;
    cfmakeraw(&raw);
    raw.c_cflag &= ~(tcflag_t)(CSTOPB | CRTSCTS);
    raw.c_cflag |= CLOCAL | CREAD;
    raw.c_cc[VMIN] = 1;
    raw.c_cc[VTIME] = 0;
    if (cfsetspeed(&raw, line->speed) != 0 || tcsetattr(line->file, TCSAFLUSH, &raw) != 0) {
        say("%s: can't be set to %ld baud: %s", line->device, line->baud, strerror(errno));
        return false;
    }
    return true;
}

static bool open_line(struct line *line)
{
    line->file = open(line->device, O_RDWR | O_NOCTTY | O_NONBLOCK);
    if (line->file < 0) {
        say("%s: %s", line->device, strerror(errno));
        return false;
    }
    if (set_raw(line)) return true;
    close(line->file);
    return false;
}

static void close_line(struct line *line)
{
    tcsetattr(line->file, TCSANOW, &line->before);
    close(line->file);
}

/* ---- Waiting, reading and writing ---- */

enum waited { READY, TIMED_OUT, ENDED, BROKEN };

/* For ever if milliseconds is negative. Signals are let in here and nowhere else, so none is missed between a test and a wait. */
static enum waited wait_for(const struct line *line, short events, long milliseconds)
{
    struct pollfd wanted = {line->file, events, 0};
    struct timespec time = {milliseconds / 1000, milliseconds % 1000 * 1000000};
    int count = ppoll(&wanted, 1, milliseconds < 0 ? NULL : &time, &while_waiting);
    if (asked_to_end) return ENDED;
    if (count == 0) return TIMED_OUT;
    if (count < 0 && errno == EINTR) return READY; /* nothing is ready, and reading or writing will say so */
    if (count < 0) {
        say("%s: %s", line->device, strerror(errno));
        return BROKEN;
    }
    return wanted.revents & events ? READY : ENDED;
}

/* What a failed or empty read or write means. */
static enum waited went_wrong(const struct line *line, ssize_t count)
{
    if (count < 0 && (errno == EAGAIN || errno == EINTR)) return READY;
    if (count == 0 || errno == EIO) return ENDED;
    say("%s: %s", line->device, strerror(errno));
    return BROKEN;
}

static void append(struct packet *packet, const uint8_t *bytes, size_t count)
{
    size_t left = sizeof packet->bytes - packet->length;
    if (count > left) count = left;
    memcpy(packet->bytes + packet->length, bytes, count);
    packet->length += count;
}

/* A packet is what stands between two silences. Of one that is too long, the rest is dropped. */
static enum waited receive(const struct line *line, struct packet *packet)
{
    packet->length = 0;
    for (;;) {
        uint8_t bytes[256];
        enum waited waited = wait_for(line, POLLIN, packet->length == 0 ? -1 : line->silence);
        if (waited == TIMED_OUT) return READY;
        if (waited != READY) return waited;
        ssize_t count = read(line->file, bytes, sizeof bytes);
        if (count > 0) {
            append(packet, bytes, (size_t)count);
            continue;
        }
        waited = went_wrong(line, count);
        if (waited != READY) return waited;
    }
}

static enum waited transmit(const struct line *line, const uint8_t *bytes, size_t length)
{
    while (length > 0) {
        enum waited waited = wait_for(line, POLLOUT, -1);
        if (waited != READY) return waited;
        ssize_t count = write(line->file, bytes, length);
        if (count > 0) {
            bytes += count;
            length -= (size_t)count;
            continue;
        }
        waited = went_wrong(line, count);
        if (waited != READY) return waited;
    }
    return READY;
}

/* ---- The board ---- */

static uint8_t values[BOARD_A_VALUES];
static uint8_t blocks[BOARD_A_BLOCKS];
static uint16_t lengths[BOARD_A_LENGTHS];
static uint8_t sums[BOARD_A_SUMS];
static uint8_t reply[BSMP_REPLY_ROOM];

/* Function 0 stands for a real board's work: 1000 divided by its input, most significant byte first, or error 1 if that is 0. */
static struct bsmp_outcome run_function(const struct bsmp_state *state, const struct bsmp_outcome *run, const uint8_t *input)
{
    if (input[0] == 0) return bsmp_node_function_failed(&board_a, state, run->function, run->due, 1, reply, sizeof reply);
    unsigned quotient = 1000u / input[0];
    uint8_t output[2] = {(uint8_t)(quotient >> 8), (uint8_t)quotient};
    return bsmp_node_function_gave(&board_a, state, run->function, run->due, output, sizeof output, reply, sizeof reply);
}

static enum waited answer(const struct line *line, struct bsmp_state *state, const struct packet *packet)
{
    struct bsmp_outcome outcome =
        bsmp_node_packet(&board_a, state, 0, packet->bytes, packet->length, reply, sizeof reply);
    if (outcome.kind == BSMP_RUN) {
        log_bytes("runs a function with", packet->bytes + outcome.input, outcome.length);
        outcome = run_function(state, &outcome, packet->bytes + outcome.input);
    }
    if (outcome.kind == BSMP_REPLY) {
        log_bytes("answers", reply, outcome.length);
        return transmit(line, reply, outcome.length);
    }
    if (verbose && outcome.kind == BSMP_SILENCE) say("stays silent");
    if (verbose && outcome.kind == BSMP_REFUSED) say("refuses: %u, %s", outcome.refusal, bsmp_refusal_words(outcome.refusal));
    return READY;
}

/* Between two packets a real board would store what it measured, by bsmp_node_store. */
static int serve(const struct line *line)
{
    static struct packet packet;
    struct bsmp_state state;
    enum waited waited = READY;
    uint8_t refusal = board_a_fresh(&state, values, blocks, lengths, sums);
    if (refusal != BSMP_NOT_REFUSED) {
        say("the board is refused: %u, %s", refusal, bsmp_refusal_words(refusal));
        return 1;
    }
    if (verbose) say("serves address %u on %s at %ld baud", board_a.own, line->device, line->baud);
    while (waited == READY) {
        waited = receive(line, &packet);
        if (waited != READY) break;
        log_bytes("gets", packet.bytes, packet.length);
        waited = answer(line, &state, &packet);
    }
    if (verbose && waited == ENDED) say(asked_to_end ? "ends: it was asked to" : "ends: the line hung up");
    return waited == BROKEN;
}

/* ---- Start ---- */

static void ask_to_end(int signal)
{
    (void)signal;
    asked_to_end = 1;
}

static void catch_signals(void)
{
    struct sigaction action;
    sigset_t both;
    memset(&action, 0, sizeof action);
    action.sa_handler = ask_to_end;
    sigemptyset(&both);
    sigaddset(&both, SIGINT);
    sigaddset(&both, SIGTERM);
    sigprocmask(SIG_BLOCK, &both, &while_waiting);
    sigdelset(&while_waiting, SIGINT);
    sigdelset(&while_waiting, SIGTERM);
    sigaction(SIGINT, &action, NULL);
    sigaction(SIGTERM, &action, NULL);
    signal(SIGHUP, SIG_IGN); /* the line itself tells of a hang-up */
}

static bool number_of(const char *text, long most, long *number)
{
    char *end;
    errno = 0;
    *number = strtol(text, &end, 10);
    return errno == 0 && end != text && *end == 0 && *number > 0 && *number <= most;
}

/* What the words ask for, or false and the reason said. */
static bool asked_for(int count, char **words, struct line *line)
{
    int option;
    while ((option = getopt(count, words, "vs:")) != -1) {
        if (option == 'v') verbose = true;
        else if (option != 's') return misused();
        else if (!number_of(optarg, MOST_SILENCE, &line->silence)) {
            say("%s: not a number of milliseconds from 1 to %d", optarg, MOST_SILENCE);
            return false;
        }
    }
    if (optind == count || optind + 2 < count) return misused();
    line->device = words[optind];
    const char *baud = optind + 1 < count ? words[optind + 1] : DEFAULT_BAUD;
    if (!number_of(baud, LONG_MAX, &line->baud) || !speed_of(line->baud, &line->speed)) {
        say("%s: not a speed in baud that a serial line has", baud);
        return false;
    }
    line->silence += 2 * BITS_PER_BYTE * 1000 / line->baud;
    return true;
}

int main(int count, char **words)
{
    struct line line;
    memset(&line, 0, sizeof line);
    line.silence = DEFAULT_SILENCE;
    if (!asked_for(count, words, &line)) return 2;
    catch_signals();
    if (!open_line(&line)) return 1;
    int status = serve(&line);
    close_line(&line);
    return status;
}
