/* What src/termios.rs takes from the C headers, held against them; .ci/after/ask puts a line for each of its numbers behind this. */
#define _GNU_SOURCE
#include <fcntl.h>
#include <poll.h>
#include <stddef.h>
#include <sys/file.h>
#include <termios.h>

#define PLACE(structure, field, place, size) \
    _Static_assert(offsetof(struct structure, field) == (place) && sizeof(((struct structure *)0)->field) == (size), #field)

_Static_assert(sizeof(struct termios) == 60 && _Alignof(struct termios) == 4, "struct termios");
PLACE(termios, c_iflag, 0, 4);
PLACE(termios, c_oflag, 4, 4);
PLACE(termios, c_cflag, 8, 4);
PLACE(termios, c_lflag, 12, 4);
PLACE(termios, c_line, 16, 1);
PLACE(termios, c_cc, 17, 32);
PLACE(termios, c_ispeed, 52, 4);
PLACE(termios, c_ospeed, 56, 4);

_Static_assert(sizeof(struct pollfd) == 8 && _Alignof(struct pollfd) == 4, "struct pollfd");
PLACE(pollfd, fd, 0, 4);
PLACE(pollfd, events, 4, 2);
PLACE(pollfd, revents, 6, 2);

_Static_assert(sizeof(nfds_t) == 8 && sizeof(speed_t) == 4, "the numbers that poll and cfsetspeed take");
