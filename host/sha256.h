/* SHA-256 (FIPS 180-4) over bytes that come in parts. */
#ifndef ZKV_SHA256_H
#define ZKV_SHA256_H

#include <stddef.h>
#include <stdint.h>

struct sha256 {
    uint32_t state[8];
    uint64_t bytes;             /* so far */
    uint8_t block[64];          /* the bytes behind the last whole block */
};

void sha256_begin(struct sha256 *h);
void sha256_add(struct sha256 *h, const void *from, size_t bytes);
void sha256_end(struct sha256 *h, uint8_t digest[32]);

#endif
