/* A block as two halves, each read big-endian: bit 63 of the high one is the coefficient of the power 127 of x. */
#ifndef ELEMENT_H
#define ELEMENT_H

#include <stdint.h>
#include <string.h>

typedef struct {
    uint64_t high, low;
} element;

static inline uint64_t load_half(const uint8_t b[8]) {
    return (uint64_t)b[0] << 56 | (uint64_t)b[1] << 48 | (uint64_t)b[2] << 40 | (uint64_t)b[3] << 32 | (uint64_t)b[4] << 24 |
           (uint64_t)b[5] << 16 | (uint64_t)b[6] << 8 | b[7];
}

static inline void store_half(uint8_t *b, uint64_t a) {
    uint8_t bytes[8] = {(uint8_t)(a >> 56), (uint8_t)(a >> 48), (uint8_t)(a >> 40), (uint8_t)(a >> 32),
                        (uint8_t)(a >> 24), (uint8_t)(a >> 16), (uint8_t)(a >> 8),  (uint8_t)a};
    memcpy(b, bytes, 8);
}

static inline element load(const uint8_t b[16]) {
    element a = {load_half(b), load_half(b + 8)};
    return a;
}

static inline void store(uint8_t b[16], element a) {
    store_half(b, a.high);
    store_half(b + 8, a.low);
}

static inline element add(element a, element b) {
    a.high ^= b.high;
    a.low ^= b.low;
    return a;
}

static inline element times_x(element a) {
    uint64_t out = 0 - (a.high >> 63);
    a.high = a.high << 1 | a.low >> 63;
    a.low = a.low << 1 ^ (out & 0x87);
    return a;
}

#endif
