/* tools/md5-speed: the proved MD5 and OpenSSL's on the same message, by turns. */
#define _POSIX_C_SOURCE 199309L
#include "bsmp.h"

#include <openssl/evp.h>
#include <stdio.h>
#include <stdlib.h>
#include <string.h>
#include <time.h>

enum { ROUNDS = 200 };

static uint8_t *message;
static size_t length;

static double now(void)
{
    struct timespec t;
    clock_gettime(CLOCK_MONOTONIC, &t);
    return 1e9 * (double)t.tv_sec + (double)t.tv_nsec;
}

static struct bsmp_sum proved(void) { return bsmp_md5(message, length); }

static struct bsmp_sum openssl(void)
{
    struct bsmp_sum sum;
    if (!EVP_Digest(message, length, sum.bytes, NULL, EVP_md5(), NULL)) exit(1);
    return sum;
}

/* The least of its own times so far, and of one more round: as many messages as have a million bytes. */
static double better(struct bsmp_sum (*md5)(void), double best, struct bsmp_sum *sum)
{
    size_t times = 1000000 / length + 1;
    double start = now();
    for (size_t i = 0; i < times; i++) *sum = md5();
    double each = (now() - start) / (double)times;
    return each < best ? each : best;
}

int main(int count, char **words)
{
    length = count > 1 ? strtoul(words[1], NULL, 10) : 0;
    message = length ? malloc(length) : NULL;
    if (!message) return 2;
    for (size_t i = 0; i < length; i++) message[i] = (uint8_t)(7 * i + i / 251);
    double ours = 1e18, theirs = 1e18;
    for (int round = 0; round < ROUNDS; round++) {
        struct bsmp_sum one, other;
        ours = better(proved, ours, &one);
        theirs = better(openssl, theirs, &other);
        if (memcmp(one.bytes, other.bytes, sizeof one.bytes)) return puts("the sums differ"), 1;
    }
    printf("%zu bytes: proved %.3f ns a byte, OpenSSL %.3f, ratio %.2f\n", length, ours / (double)length, theirs / (double)length, ours / theirs);
    free(message);
    return 0;
}
