/* The plain loop, in its own file so that no call of it is folded away. */
#include <stddef.h>
#include <stdint.h>

uint8_t or_all(const uint8_t *bytes, size_t n) {
    uint8_t all = 0;
    for (size_t i = 0; i < n; i++) all |= bytes[i];
    return all;
}
