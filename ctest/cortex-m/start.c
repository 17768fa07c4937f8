/* Startup for the tests on an emulated Cortex-M: newlib's semihosting gives files, output and the words of the command line. A fault ends the
 * program with status 99: among others, a trap, which is what a panic of the portable edition is. */
#include <stdint.h>
#include <stdlib.h>
#include <string.h>
#include <unistd.h>

extern char data_start[], data_end[], data_load[], bss_start[], bss_end[], stack_top[];
extern void initialise_monitor_handles(void);
extern int main(int, char **);

enum { SYS_WRITE0 = 0x04, SYS_GET_CMDLINE = 0x15 };

static int semihost(int operation, const void *block)
{
    register int r0 __asm__("r0") = operation;
    register const void *r1 __asm__("r1") = block;
    __asm__ volatile("bkpt 0xab" : "+r"(r0) : "r"(r1) : "memory");
    return r0;
}

static char line[256];
static char *words[8];

static int split(void)
{
    struct {
        char *at;
        int length;
    } block = {line, sizeof line};
    int count = 0;
    if (semihost(SYS_GET_CMDLINE, &block) != 0) return 0;
    for (char *word = strtok(line, " "); word && count < 7; word = strtok(NULL, " ")) words[count++] = word;
    return count;
}

void reset(void)
{
    memcpy(data_start, data_load, (size_t)(data_end - data_start));
    memset(bss_start, 0, (size_t)(bss_end - bss_start));
    initialise_monitor_handles();
    int count = split();
    exit(main(count, words));
}

static void fault(void)
{
    semihost(SYS_WRITE0, "FAILED: a fault\n");
    _exit(99);
}

struct vectors {
    char *stack;
    void (*handlers[15])(void);
};

__attribute__((section(".vectors"), used)) static const struct vectors vectors = {
    stack_top,
    {reset, fault, fault, fault, fault, fault, 0, 0, 0, 0, fault, fault, 0, fault, fault},
};
