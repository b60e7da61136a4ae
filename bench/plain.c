/* HCH and the encryption-only scheme in plain C, to measure against: the product in 128 steps with masks and no table,
   no intrinsics. */
#include "plain.h"
#include "aes.h"
#include "element.h"

typedef element factor;

static void prepare(factor *r, element a) { *r = a; }

static element times(const factor *r, element b) {
    element a = *r, result = {0, 0};
    for (int i = 0; i < 128; i++) {
        uint64_t mask = 0 - (b.low & 1);
        result.high ^= a.high & mask;
        result.low ^= a.low & mask;
        a = times_x(a);
        b.low = b.low >> 1 | b.high << 63;
        b.high >>= 1;
    }
    return result;
}

static element encipher(const aes_key *k, element a) {
    uint8_t block[16];
    store(block, a);
    plain_aes_encipher(k, block);
    return load(block);
}

static element decipher(const aes_key *k, element a) {
    uint8_t block[16];
    store(block, a);
    plain_aes_decipher(k, block);
    return load(block);
}

#include "schemes.h"

void plain_product(const uint8_t a[16], uint8_t block[16]) {
    factor r;
    prepare(&r, load(a));
    store(block, times(&r, load(block)));
}

void plain_hch_encipher(const uint8_t *key, size_t key_length, const uint8_t tweak[16], uint8_t *data, size_t length) {
    hch(0, key, key_length, tweak, data, length);
}

void plain_hch_decipher(const uint8_t *key, size_t key_length, const uint8_t tweak[16], uint8_t *data, size_t length) {
    hch(1, key, key_length, tweak, data, length);
}

void plain_forward_encipher(const uint8_t *key, size_t key_length, const uint8_t tweak[16], uint8_t *data,
                            size_t length) {
    forward(0, key, key_length, tweak, data, length);
}

void plain_forward_decipher(const uint8_t *key, size_t key_length, const uint8_t tweak[16], uint8_t *data,
                            size_t length) {
    forward(1, key, key_length, tweak, data, length);
}
