/*
 * How fast the proved SHA-256 is, beside a plain C one (plain_sha256.c) and, where CRYPTO is defined, that of the system's crypto library.
 * All are first held to the same digests. Then messages of 1 MiB and of 64 bytes are hashed in rounds, in which they take turns.
 * A line has the message, "best" or "median" of the rounds, and the megabytes a second of each. Time is the processor's.
 */
#include <stdint.h>
#include <stdio.h>
#include <stdlib.h>
#include <string.h>
#include <time.h>

#include "plain_sha256.h"

#ifdef CRYPTO
#define OPENSSL_SUPPRESS_DEPRECATED
#include <openssl/sha.h>

/* In three steps, for the one-shot function looks its method up anew each time. */
static void crypto_sha256(const uint8_t *d, size_t n, uint8_t out[32])
{
    SHA256_CTX hash;
    SHA256_Init(&hash);
    SHA256_Update(&hash, d, n);
    SHA256_Final(out, &hash);
}
#endif

/* The proved one, of the static library hash_c. */
void sks_sha256(const uint8_t *d, size_t n, uint8_t out[32]);

typedef void hasher(const uint8_t *d, size_t n, uint8_t out[32]);

static hasher *const hashers[] = {
    sks_sha256,
    plain_sha256,
#ifdef CRYPTO
    crypto_sha256,
#endif
};

enum { HASHERS = sizeof hashers / sizeof hashers[0] };
enum { MIB = 1 << 20, ROUNDS = 31 };

static uint8_t message[MIB];

static double seconds(void)
{
    struct timespec t;
    clock_gettime(CLOCK_PROCESS_CPUTIME_ID, &t);
    return (double)t.tv_sec + (double)t.tv_nsec * 1e-9;
}

/* Seconds for each of `times` hashes of n bytes. A byte of each digest goes into the next message. */
static double timed(hasher *hash, size_t n, int times)
{
    uint8_t digest[32];
    double from = seconds();
    for (int i = 0; i < times; i++) {
        hash(message, n, digest);
        message[0] = digest[0];
    }
    return (seconds() - from) / times;
}

static int compare(const void *a, const void *b)
{
    double x = *(const double *)a, y = *(const double *)b;
    return (x > y) - (x < y);
}

/* The lines for messages of n bytes, `times` of them a round. Each round another one begins. */
static void measure(const char *name, size_t n, int times)
{
    double taken[HASHERS][ROUNDS];
    for (int r = 0; r < ROUNDS; r++)
        for (int k = 0; k < HASHERS; k++) {
            int h = (r + k) % HASHERS;
            taken[h][r] = timed(hashers[h], n, times);
        }
    for (int h = 0; h < HASHERS; h++)
        qsort(taken[h], ROUNDS, sizeof taken[h][0], compare);
    static const char *which[] = {"best", "median"};
    const int round[] = {0, ROUNDS / 2};
    for (int k = 0; k < 2; k++) {
        printf("%s\t%s", name, which[k]);
        for (int h = 0; h < HASHERS; h++)
            printf("\t%.1f", (double)n / taken[h][round[k]] * 1e-6);
        printf("\n");
    }
}

/* Whether all give the same digest of the first n bytes of the message. */
static int agree(size_t n)
{
    uint8_t first[32], other[32];
    hashers[0](message, n, first);
    for (int h = 1; h < HASHERS; h++) {
        hashers[h](message, n, other);
        if (memcmp(first, other, sizeof first) != 0) {
            fprintf(stderr, "The digests of %zu bytes differ.\n", n);
            return 0;
        }
    }
    return 1;
}

int main(void)
{
    uint32_t x = 1;
    for (size_t i = 0; i < MIB; i++) {
        x = x * 1664525 + 1013904223;
        message[i] = (uint8_t)(x >> 24);
    }
    int same = 1;
    for (size_t n = 0; n <= 1024; n++)
        same &= agree(n);
    for (size_t n = 4093; n <= MIB; n = n * 5 / 3)
        same &= agree(n);
    if (!same || !agree(MIB))
        return 1;
    measure("1 MiB", MIB, 4);
    measure("64 bytes", 64, 20000);
    return 0;
}
