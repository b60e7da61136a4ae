/* HCH and the encryption-only scheme, each once for the plain and the careful C. The file that includes this has
   defined what the two programs do differently:
   encipher and decipher, AES on a block under the expanded key;
   factor, prepare and times, a block made ready for the products of one call, and another block times it. */
#include "aes.h"
#include "element.h"
#include <string.h>

/* The paper's bin(l), for l bits. */
static inline element bits(size_t length) {
    element l = {0, 8 * (uint64_t)length};
    return l;
}

/* The last block of a string, padded with zeros. */
static element load_part(const uint8_t *part, size_t length) {
    uint8_t block[16] = {0};
    memcpy(block, part, length);
    return load(block);
}

/* The sum of all blocks, each times its own power of r, down to r itself. The last block is padded with zeros. */
static element power_sum(const factor *r, const uint8_t *rest, size_t length) {
    element sum = {0, 0};
    for (; length >= 16; rest += 16, length -= 16) sum = times(r, add(sum, load(rest)));
    if (length > 0) sum = times(r, add(sum, load_part(rest, length)));
    return sum;
}

/* Adds what AES makes of a counter's value to a block, or to as much of one as is left. */
static inline void add_mask(const aes_key *k, element value, uint8_t *at, size_t left) {
    element mask = encipher(k, value);
    if (left >= 16) {
        store(at, add(load(at), mask));
    } else {
        uint8_t last[16];
        store(last, add(load_part(at, left), mask));
        memcpy(at, last, left);
    }
}

/* HCH's counter: S plus 1, S plus 2, and so on. */
static inline void counter(const aes_key *k, element s, uint8_t *rest, size_t length) {
    for (size_t i = 1, at = 0; at < length; i++, at += 16) {
        element value = {s.high, s.low ^ i};
        add_mask(k, value, rest + at, length - at);
    }
}

/* HCH either way, in place: the hash, AES or its inverse, the counter, and the hash again; backwards Q and xQ change
   places. A message of one block needs no product, no S and no mask. */
static inline void hch(int backwards, const uint8_t *key, size_t key_length, const uint8_t tweak[16], uint8_t *data,
                       size_t length) {
    uint8_t *rest = data + 16;
    size_t n = length - 16;
    aes_key k;
    plain_aes_expand(&k, key, key_length);
    element r = encipher(&k, load(tweak));
    element q = encipher(&k, add(r, bits(length))), xq = times_x(q);
    factor ready;
    if (n > 0) prepare(&ready, r);
    element before = add(add(backwards ? xq : q, load(data)), power_sum(&ready, rest, n));
    element after = backwards ? decipher(&k, before) : encipher(&k, before);
    if (n > 0) counter(&k, encipher(&k, add(before, after)), rest, n);
    store(data, add(add(backwards ? q : xq, after), power_sum(&ready, rest, n)));
}

/* The modified counter: s plus beta, s plus x beta, s plus x^2 beta, and so on. */
static inline void modified_counter(const aes_key *k, element s, element beta, uint8_t *rest, size_t length) {
    for (size_t at = 0; at < length; at += 16, beta = times_x(beta)) add_mask(k, add(s, beta), rest + at, length - at);
}

/* The four rounds of the Feistel structure, on two blocks. */
static inline void feistel(const aes_key *k, const factor *t, element *one, element *two) {
    *two = add(*two, times(t, *one));
    *one = add(*one, encipher(k, *two));
    *two = add(*two, encipher(k, *one));
    *one = add(*one, times(t, *two));
}

/* The encryption-only scheme either way, in place: the hash, the Feistel structure on the first two blocks, the counter
   on the rest, and the hash again. Backwards these two blocks change places, and so do beta_1 and beta_2, but for the
   counter. */
static inline void forward(int backwards, const uint8_t *key, size_t key_length, const uint8_t tweak[16], uint8_t *data,
                           size_t length) {
    uint8_t *one = data + (backwards ? 16 : 0), *two = data + (backwards ? 0 : 16), *rest = data + 32;
    size_t n = length - 32;
    aes_key k;
    plain_aes_expand(&k, key, key_length);
    element gamma = encipher(&k, load(tweak));
    element beta_1 = encipher(&k, add(gamma, bits(length))), beta_2 = times_x(beta_1);
    factor tau, tau_prime;
    prepare(&tau, gamma);
    prepare(&tau_prime, encipher(&k, times_x(beta_2)));
    element z = add(backwards ? beta_2 : beta_1, power_sum(&tau, rest, n));
    element a_1 = add(load(one), z), a_2 = add(load(two), z), b_1 = a_1, b_2 = a_2;
    feistel(&k, &tau_prime, &b_1, &b_2);
    modified_counter(&k, add(add(a_1, a_2), add(b_1, b_2)), beta_1, rest, n);
    z = add(backwards ? beta_1 : beta_2, power_sum(&tau, rest, n));
    store(one, add(b_1, z));
    store(two, add(b_2, z));
}
