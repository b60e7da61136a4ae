/* AES, HCH and the encryption-only scheme in portable C written for speed, to measure against: a round of AES by four
   tables of 256 words, a product by the 256 multiples of the factor, made in each call; 32-bit words and 64-bit halves,
   no intrinsics. */
#include "careful.h"

/* forth[j][b]: the column that SubBytes and MixColumns make of the byte b in row j; back[j][b]: the same of their inverses. */
static uint32_t forth[4][256], back[4][256];

/* fallen[b]: b times x^128. */
static uint16_t fallen[256];

/* The columns of a block. */
typedef struct {
    uint32_t a, b, c, d;
} columns;

static inline columns split(element e) {
    columns s = {(uint32_t)(e.high >> 32), (uint32_t)e.high, (uint32_t)(e.low >> 32), (uint32_t)e.low};
    return s;
}

static inline element join(columns s) {
    element e = {(uint64_t)s.a << 32 | s.b, (uint64_t)s.c << 32 | s.d};
    return e;
}

void careful_start(void) {
    for (int b = 0; b < 256; b++) {
        uint8_t s[16] = {0}, t[16] = {0};
        s[0] = s[5] = s[10] = s[15] = plain_sbox[b];
        t[0] = t[5] = t[10] = t[15] = plain_inv_sbox[b];
        plain_mix_columns(s);
        plain_inv_mix_columns(t);
        columns f = split(load(s)), g = split(load(t));
        forth[0][b] = f.a, forth[1][b] = f.b, forth[2][b] = f.c, forth[3][b] = f.d;
        back[0][b] = g.a, back[1][b] = g.b, back[2][b] = g.c, back[3][b] = g.d;
        fallen[b] = (uint16_t)(b ^ b << 1 ^ b << 2 ^ b << 7);
    }
}

static inline columns add_key(columns s, const uint32_t k[4]) {
    columns r = {s.a ^ k[0], s.b ^ k[1], s.c ^ k[2], s.d ^ k[3]};
    return r;
}

/* A column after SubBytes, ShiftRows and MixColumns, from the columns that its rows come from. */
static inline uint32_t mix(uint32_t t[4][256], uint32_t a, uint32_t b, uint32_t c, uint32_t d) {
    return t[0][a >> 24] ^ t[1][b >> 16 & 255] ^ t[2][c >> 8 & 255] ^ t[3][d & 255];
}

static inline columns mix_all(uint32_t t[4][256], columns s) {
    columns r = {mix(t, s.a, s.b, s.c, s.d), mix(t, s.b, s.c, s.d, s.a), mix(t, s.c, s.d, s.a, s.b), mix(t, s.d, s.a, s.b, s.c)};
    return r;
}

/* The same without MixColumns, for the last round. */
static inline uint32_t sub(const uint8_t t[256], uint32_t a, uint32_t b, uint32_t c, uint32_t d) {
    return (uint32_t)t[a >> 24] << 24 | (uint32_t)t[b >> 16 & 255] << 16 | (uint32_t)t[c >> 8 & 255] << 8 | t[d & 255];
}

static inline columns sub_all(const uint8_t t[256], columns s) {
    columns r = {sub(t, s.a, s.b, s.c, s.d), sub(t, s.b, s.c, s.d, s.a), sub(t, s.c, s.d, s.a, s.b), sub(t, s.d, s.a, s.b, s.c)};
    return r;
}

static inline element encipher(const aes_key *k, element block) {
    const uint32_t *w = k->words;
    columns s = add_key(split(block), w);
    for (size_t n = k->rounds - 1; n > 0; n--) s = add_key(mix_all(forth, s), w += 4);
    return join(add_key(sub_all(plain_sbox, s), w + 4));
}

/* In this order of the columns the inverse row shift is the row shift. */
static inline columns turn(columns s) {
    columns r = {s.a, s.d, s.c, s.b};
    return r;
}

/* InvMixColumns of a word of the expanded key: the S-box undoes the inverse one in the tables. */
static inline uint32_t inv_mix(uint32_t w) {
    uint32_t s = sub(plain_sbox, w, w, w, w);
    return mix(back, s, s, s, s);
}

/* The equivalent inverse cipher: its inner round keys are InvMixColumns of the expanded key's, made before or here. */
static inline element inv_cipher(int made, const uint32_t *w, size_t rounds, element block) {
    columns s = turn(add_key(split(block), w + 4 * rounds));
    for (size_t n = rounds - 1; n > 0; n--) {
        const uint32_t *k = w + 4 * n;
        uint32_t here[4];
        if (!made) {
            for (int i = 0; i < 4; i++) here[i] = inv_mix(k[i]);
            k = here;
        }
        s = turn(add_key(turn(mix_all(back, s)), k));
    }
    return join(add_key(turn(sub_all(plain_inv_sbox, s)), w));
}

/* By a constant number of rounds, which makes it a little faster. */
static element decipher(const aes_key *k, element block) {
    return k->rounds == 10 ? inv_cipher(0, k->words, 10, block) : inv_cipher(0, k->words, 14, block);
}

typedef careful_factor factor;

/* Two at a time: the loop for one takes almost twice as long where its code happens to lie across two cache lines. */
static void prepare(factor *r, element a) {
    element zero = {0, 0};
    r->by[0] = zero;
    r->by[1] = a;
    for (int i = 2; i < 256; i *= 2) {
        a = times_x(a);
        for (int j = 0; j < i; j += 2) {
            element even = add(r->by[j], a), odd = add(r->by[j + 1], a);
            r->by[i + j] = even;
            r->by[i + j + 1] = odd;
        }
    }
}

/* Horner's rule over the bytes of a half, from the first on. */
static inline element horner(const factor *r, element sum, uint64_t half) {
    for (int i = 56; i >= 0; i -= 8) {
        element next = r->by[half >> i & 255];
        next.high ^= sum.high << 8 | sum.low >> 56;
        next.low ^= sum.low << 8 ^ fallen[sum.high >> 56];
        sum = next;
    }
    return sum;
}

static inline element times(const factor *r, element a) {
    element zero = {0, 0};
    return horner(r, horner(r, zero, a.high), a.low);
}

#include "schemes.h"

void careful_aes_encipher(const aes_key *k, uint8_t block[16]) { store(block, encipher(k, load(block))); }

void careful_aes_invert(aes_key *k) {
    for (size_t i = 4; i < 4 * k->rounds; i++) k->words[i] = inv_mix(k->words[i]);
}

void careful_aes_decipher(const aes_key *inverted, uint8_t block[16]) {
    store(block, inv_cipher(1, inverted->words, inverted->rounds, load(block)));
}

void careful_prepare(factor *r, const uint8_t a[16]) { prepare(r, load(a)); }

void careful_product(const factor *r, uint8_t block[16]) { store(block, times(r, load(block))); }

void careful_hch_encipher(const uint8_t *key, size_t key_length, const uint8_t tweak[16], uint8_t *data, size_t length) {
    hch(0, key, key_length, tweak, data, length);
}

void careful_hch_decipher(const uint8_t *key, size_t key_length, const uint8_t tweak[16], uint8_t *data, size_t length) {
    hch(1, key, key_length, tweak, data, length);
}

void careful_forward_encipher(const uint8_t *key, size_t key_length, const uint8_t tweak[16], uint8_t *data,
                              size_t length) {
    forward(0, key, key_length, tweak, data, length);
}

void careful_forward_decipher(const uint8_t *key, size_t key_length, const uint8_t tweak[16], uint8_t *data,
                              size_t length) {
    forward(1, key, key_length, tweak, data, length);
}
