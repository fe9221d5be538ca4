/* SHA-256 (FIPS 180-4), for the verify job of the example. */
#ifndef SHA256_H
#define SHA256_H

#include <stddef.h>
#include <stdint.h>

#define SHA256_SIZE 32

void sha256(const uint8_t *bytes, size_t n, uint8_t digest[SHA256_SIZE]);

#endif
