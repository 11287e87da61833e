/* SHA-256 in plain C, to measure against. */
#ifndef PLAIN_SHA256_H
#define PLAIN_SHA256_H

#include <stddef.h>
#include <stdint.h>

/* The hash of the n bytes at d, in out. */
void plain_sha256(const uint8_t *d, size_t n, uint8_t out[32]);

#endif
