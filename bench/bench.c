/* Times, turn by turn in one run: the library beside careful and plain C; the encryption-only scheme, called forward,
   beside HCH; sealing and opening of a block beside its scheme alone; and of a run beside one-block calls. Prints the
   times of one call and their ratios: below 1 the library is faster than the C, forward than HCH, and a run than its
   blocks one by one; for a block 1 is the scheme itself. The key has 16 bytes where nothing else is said. */
#define _POSIX_C_SOURCE 199309L
#include "aes.h"
#include "careful.h"
#include "plain.h"
#include "times.h"
#include <boards.h>
#include <stdio.h>
#include <stdlib.h>
#include <string.h>

/* From the archive of crates/bench, for boards.h has no call on a single block. A slice is a pointer and a length. */
void bench_aes_encipher(const uint32_t words[60], size_t rounds, uint8_t *data, size_t length);
void bench_aes_decipher(const uint32_t words[60], size_t rounds, uint8_t *data, size_t length);
void bench_product(const uint8_t *a, size_t a_length, uint8_t *data, size_t length);

enum { SIDES = 3, BLOCKS = 40, RUN = BLOCKS * 512, MOST = RUN + 512 };

/* A key, and what the calls on a single block find made of it, which each call of a scheme makes anew. */
typedef struct {
    aes_key expanded, inverted;
    const uint8_t *bytes;
    size_t length;
} bench_key;

/* The keys of FIPS 197's appendices A.1 and A.3. */
static const uint8_t short_bytes[16] = {0x2b, 0x7e, 0x15, 0x16, 0x28, 0xae, 0xd2, 0xa6,
                                        0xab, 0xf7, 0x15, 0x88, 0x09, 0xcf, 0x4f, 0x3c};
static const uint8_t long_bytes[32] = {0x60, 0x3d, 0xeb, 0x10, 0x15, 0xca, 0x71, 0xbe, 0x2b, 0x73, 0xae,
                                       0xf0, 0x85, 0x7d, 0x77, 0x81, 0x1f, 0x35, 0x2c, 0x07, 0x3b, 0x61,
                                       0x08, 0xd7, 0x2d, 0x98, 0x10, 0xa3, 0x09, 0x14, 0xdf, 0xf4};

/* Filled by main, and so not far from the careful C's tables: elsewhere in memory its deciphering was a third slower in
   every second run. */
static bench_key short_key, long_key;
static const uint8_t tweak[16] = {1};

/* The careful C's multiples of the short key, for the row of one product; each call of a scheme makes its own. */
static careful_factor multiples;

/* The calls of a scheme, by the library and by both programs in C; and the plain block below, enciphered by it. */
typedef struct {
    __typeof__(boards_encipher) *encipher, *decipher;
    __typeof__(boards_seal) *seal;
    __typeof__(boards_open) *open;
    __typeof__(careful_hch_encipher) *careful_encipher, *careful_decipher;
    __typeof__(plain_hch_encipher) *plain_encipher, *plain_decipher;
    uint8_t *sealed_block;
} scheme;

static uint8_t hch_block[512], forward_block[512];
static const scheme hch = {
    boards_encipher, boards_decipher, boards_seal, boards_open,
    careful_hch_encipher, careful_hch_decipher, plain_hch_encipher, plain_hch_decipher, hch_block,
};
static const scheme forward = {
    boards_forward_encipher, boards_forward_decipher, boards_forward_seal, boards_forward_open,
    careful_forward_encipher, careful_forward_decipher, plain_forward_encipher, plain_forward_decipher, forward_block,
};

/* What is measured: all sides do the same work, by the row's scheme, under its key, on the bytes that they are lent. */
typedef struct row row;
#define WORK const row *r, uint8_t *data
typedef void work(WORK);

/* The library comes first. Where there are two sides, the third is NULL; where there is no scheme, it is NULL. */
struct row {
    const char *name;
    const scheme *scheme;
    const bench_key *key;
    size_t length;
    int calls;
    work *sides[SIDES];
};

/* Every call that is measured is one that is done. */
static void done(uint32_t answer) {
    if (answer == BOARDS_DONE) return;
    printf("a call was not done: %s\n", boards_reason(answer));
    exit(1);
}

static void aes_library(WORK) {
    bench_aes_encipher(r->key->expanded.words, r->key->expanded.rounds, data, r->length);
}
static void aes_careful(WORK) { careful_aes_encipher(&r->key->expanded, data); }
static void aes_plain(WORK) { plain_aes_encipher(&r->key->expanded, data); }
static void inverse_library(WORK) {
    bench_aes_decipher(r->key->expanded.words, r->key->expanded.rounds, data, r->length);
}
static void inverse_careful(WORK) { careful_aes_decipher(&r->key->inverted, data); }
static void inverse_plain(WORK) { plain_aes_decipher(&r->key->expanded, data); }
static void product_library(WORK) { bench_product(r->key->bytes, 16, data, r->length); }
static void product_careful(WORK) { (void)r, careful_product(&multiples, data); }
static void product_plain(WORK) { plain_product(r->key->bytes, data); }
static void encipher_library(WORK) {
    done(r->scheme->encipher(r->key->bytes, r->key->length, tweak, 16, data, r->length));
}
static void encipher_careful(WORK) {
    r->scheme->careful_encipher(r->key->bytes, r->key->length, tweak, data, r->length);
}
static void encipher_plain(WORK) { r->scheme->plain_encipher(r->key->bytes, r->key->length, tweak, data, r->length); }
static void decipher_library(WORK) {
    done(r->scheme->decipher(r->key->bytes, r->key->length, tweak, 16, data, r->length));
}
static void decipher_careful(WORK) {
    r->scheme->careful_decipher(r->key->bytes, r->key->length, tweak, data, r->length);
}
static void decipher_plain(WORK) { r->scheme->plain_decipher(r->key->bytes, r->key->length, tweak, data, r->length); }

/* The 512-byte block for pack 1, place 258, beside the scheme alone on what is enciphered or deciphered. Its tweak is
   01's P12. */
static const uint8_t block_tweak[16] = {0, 0, 0, 0, 0, 0, 0, 1, 0, 0, 0, 0, 0, 0, 1, 2};
static uint8_t payload[496], plain_block[512];
static size_t used;

static void prepare(size_t u) {
    const scheme *schemes[] = {&hch, &forward};
    used = u;
    memset(plain_block, 0, 512);
    for (size_t i = 0; i < u; i++) plain_block[i] = payload[i] = (uint8_t)(i + 1);
    plain_block[503] = 1;
    plain_block[506] = 1;
    plain_block[507] = 2;
    plain_block[508] = (uint8_t)(u >> 8);
    plain_block[509] = (uint8_t)u;
    for (int i = 0; i < 2; i++) {
        uint8_t *block = schemes[i]->sealed_block;
        memcpy(block, plain_block, 512);
        done(schemes[i]->encipher(short_key.bytes, short_key.length, block_tweak, 16, block, 512));
    }
}
static void seal_block(WORK) {
    done(r->scheme->seal(r->key->bytes, r->key->length, payload, used, 1, 258, data, r->length));
}
static void encipher_alone(WORK) {
    memcpy(data, plain_block, r->length);
    done(r->scheme->encipher(r->key->bytes, r->key->length, block_tweak, 16, data, r->length));
}
static void open_block(WORK) {
    memcpy(data, r->scheme->sealed_block, r->length);
    done(r->scheme->open(r->key->bytes, r->key->length, 1, 258, data, r->length));
}
static void decipher_alone(WORK) {
    memcpy(data, r->scheme->sealed_block, r->length);
    done(r->scheme->decipher(r->key->bytes, r->key->length, block_tweak, 16, data, r->length));
}

/* A run of 40 blocks from place 258 on, under HCH, in one call and block by block. What is compared is the run and the
   list behind it: each side that opens copies its own list there, for bytes may not be written as numbers of 16 bits.
   Each side that seals first puts the payloads where it needs them: in the run, or apart from it. */
static uint8_t payload_run[RUN], payloads[RUN], sealed_run[RUN];
static uint16_t lengths[BLOCKS];

static void prepare_run(void) {
    for (int i = 0; i < RUN; i++) payload_run[i] = (uint8_t)(7 * i + i / 512 + 1);
    for (int i = 0; i < BLOCKS; i++) lengths[i] = (uint16_t)((28 + 53 * i) % 497);
}
static void seal_run(WORK) {
    memcpy(data, payload_run, RUN);
    done(boards_seal_run(r->key->bytes, r->key->length, 1, 258, lengths, BLOCKS, data, RUN));
}
static void seal_one_by_one(WORK) {
    const bench_key *k = r->key;
    memcpy(payloads, payload_run, RUN);
    for (uint32_t i = 0; i < BLOCKS; i++)
        done(boards_seal(k->bytes, k->length, payloads + 512 * i, lengths[i], 1, 258 + i, data + 512 * i, 512));
}
static void open_run(WORK) {
    static uint16_t list[BLOCKS];
    uint32_t failed;
    memcpy(data, sealed_run, RUN);
    done(boards_open_run(r->key->bytes, r->key->length, 1, 258, list, BLOCKS, data, RUN, &failed));
    memcpy(data + RUN, list, sizeof list);
}
static void open_one_by_one(WORK) {
    static uint16_t list[BLOCKS];
    memcpy(data, sealed_run, RUN);
    for (uint32_t i = 0; i < BLOCKS; i++) {
        done(boards_open(r->key->bytes, r->key->length, 1, 258 + i, data + 512 * i, 512));
        list[i] = (uint16_t)boards_payload_length(data + 512 * i);
    }
    memcpy(data + RUN, list, sizeof list);
}

/* The rows beside C. BACK is the way back. */
enum {
    AES_128, AES_128_BACK, AES_256, AES_256_BACK, PRODUCT,
    HCH_16, HCH_16_BACK, HCH_512, HCH_512_BACK, HCH_4096, HCH_4096_BACK,
    FORWARD_33, FORWARD_33_BACK, FORWARD_48, FORWARD_48_BACK, FORWARD_512, FORWARD_512_BACK,
    FORWARD_4096, FORWARD_4096_BACK,
    SHOWN, /* from here on only the ratios are shown */
    HCH_33 = SHOWN, HCH_33_BACK, HCH_48, HCH_48_BACK,
    LONG_KEY_HCH_512, LONG_KEY_HCH_4096, LONG_KEY_FORWARD_512, LONG_KEY_FORWARD_4096,
    ROWS
};

/* The nanoseconds of a call, of each side in each turn. */
typedef double row_times[SIDES][TURNS];

/* A turn goes through all rows, so that what else the machine does for some seconds slows no row in all turns. The
   first call of each side in a turn, which finds the caches cold, is not timed. In every turn all sides of a row are to
   leave the same bytes. */
static void measure(const row *rows, int count, row_times times[]) {
    static uint8_t data[ROWS][SIDES][MOST];
    memset(data, 1, sizeof data); /* not 0, for the product would stay 0 */
    for (int turn = 0; turn < TURNS; turn++) {
        MOVE_STACK(turn);
        for (int i = 0; i < count; i++)
            for (int side = 0; side < SIDES && rows[i].sides[side] != NULL; side++) {
                work *call = rows[i].sides[side];
                uint8_t *bytes = data[i][side];
                call(&rows[i], bytes);
                double start = now();
                for (int n = 0; n < rows[i].calls; n++) call(&rows[i], bytes);
                times[i][side][turn] = (now() - start) / rows[i].calls * 1e9;
                if (memcmp(bytes, data[i][0], rows[i].length) == 0) continue;
                printf("%s: the bytes differ\n", rows[i].name);
                exit(1);
            }
    }
}

#define ENCIPHER {encipher_library, encipher_careful, encipher_plain}
#define DECIPHER {decipher_library, decipher_careful, decipher_plain}

static const row beside_c[ROWS] = {
    [AES_128] = {"AES-128, enciphering a block", NULL, &short_key, 16, 3000, {aes_library, aes_careful, aes_plain}},
    [AES_128_BACK] = {"AES-128, deciphering a block", NULL, &short_key, 16, 2000,
                      {inverse_library, inverse_careful, inverse_plain}},
    [AES_256] = {"AES-256, enciphering a block", NULL, &long_key, 16, 3000, {aes_library, aes_careful, aes_plain}},
    [AES_256_BACK] = {"AES-256, deciphering a block", NULL, &long_key, 16, 2000,
                      {inverse_library, inverse_careful, inverse_plain}},
    [PRODUCT] = {"one product", NULL, &short_key, 16, 3000, {product_library, product_careful, product_plain}},
    [HCH_16] = {"HCH, enciphering 16 bytes", &hch, &short_key, 16, 600, ENCIPHER},
    [HCH_16_BACK] = {"HCH, deciphering 16 bytes", &hch, &short_key, 16, 600, DECIPHER},
    [HCH_512] = {"HCH, enciphering 512 bytes", &hch, &short_key, 512, 32, ENCIPHER},
    [HCH_512_BACK] = {"HCH, deciphering 512 bytes", &hch, &short_key, 512, 32, DECIPHER},
    [HCH_4096] = {"HCH, enciphering 4,096 bytes", &hch, &short_key, 4096, 4, ENCIPHER},
    [HCH_4096_BACK] = {"HCH, deciphering 4,096 bytes", &hch, &short_key, 4096, 4, DECIPHER},
    [FORWARD_33] = {"forward, enciphering 33 bytes", &forward, &short_key, 33, 200, ENCIPHER},
    [FORWARD_33_BACK] = {"forward, deciphering 33 bytes", &forward, &short_key, 33, 200, DECIPHER},
    [FORWARD_48] = {"forward, enciphering 48 bytes", &forward, &short_key, 48, 200, ENCIPHER},
    [FORWARD_48_BACK] = {"forward, deciphering 48 bytes", &forward, &short_key, 48, 200, DECIPHER},
    [FORWARD_512] = {"forward, enciphering 512 bytes", &forward, &short_key, 512, 32, ENCIPHER},
    [FORWARD_512_BACK] = {"forward, deciphering 512 bytes", &forward, &short_key, 512, 32, DECIPHER},
    [FORWARD_4096] = {"forward, enciphering 4,096 bytes", &forward, &short_key, 4096, 4, ENCIPHER},
    [FORWARD_4096_BACK] = {"forward, deciphering 4,096 bytes", &forward, &short_key, 4096, 4, DECIPHER},
    [HCH_33] = {"HCH, enciphering 33 bytes", &hch, &short_key, 33, 200, ENCIPHER},
    [HCH_33_BACK] = {"HCH, deciphering 33 bytes", &hch, &short_key, 33, 200, DECIPHER},
    [HCH_48] = {"HCH, enciphering 48 bytes", &hch, &short_key, 48, 200, ENCIPHER},
    [HCH_48_BACK] = {"HCH, deciphering 48 bytes", &hch, &short_key, 48, 200, DECIPHER},
    [LONG_KEY_HCH_512] = {"HCH, enciphering 512 bytes", &hch, &long_key, 512, 32, ENCIPHER},
    [LONG_KEY_HCH_4096] = {"HCH, enciphering 4,096 bytes", &hch, &long_key, 4096, 4, ENCIPHER},
    [LONG_KEY_FORWARD_512] = {"forward, enciphering 512 bytes", &forward, &long_key, 512, 32, ENCIPHER},
    [LONG_KEY_FORWARD_4096] = {"forward, enciphering 4,096 bytes", &forward, &long_key, 4096, 4, ENCIPHER},
};

/* A row of beside_c over another one. */
typedef struct {
    const char *name;
    int row, other;
} quotient;

static const quotient over_hch[] = {
    {"enciphering 33 bytes", FORWARD_33, HCH_33},
    {"deciphering 33 bytes", FORWARD_33_BACK, HCH_33_BACK},
    {"enciphering 48 bytes", FORWARD_48, HCH_48},
    {"deciphering 48 bytes", FORWARD_48_BACK, HCH_48_BACK},
    {"enciphering 512 bytes", FORWARD_512, HCH_512},
    {"deciphering 512 bytes", FORWARD_512_BACK, HCH_512_BACK},
    {"enciphering 4,096 bytes", FORWARD_4096, HCH_4096},
    {"deciphering 4,096 bytes", FORWARD_4096_BACK, HCH_4096_BACK},
    {"enciphering 512 bytes, AES-256", LONG_KEY_FORWARD_512, LONG_KEY_HCH_512},
    {"enciphering 4,096 bytes, AES-256", LONG_KEY_FORWARD_4096, LONG_KEY_HCH_4096},
};

static const quotient growth[] = {
    {"HCH, enciphering", HCH_4096, HCH_512},
    {"HCH, deciphering", HCH_4096_BACK, HCH_512_BACK},
    {"forward, enciphering", FORWARD_4096, FORWARD_512},
    {"forward, deciphering", FORWARD_4096_BACK, FORWARD_512_BACK},
};

static const quotient key_growth[] = {
    {"AES, enciphering a block", AES_256, AES_128},
    {"AES, deciphering a block", AES_256_BACK, AES_128_BACK},
    {"HCH, enciphering 512 bytes", LONG_KEY_HCH_512, HCH_512},
    {"HCH, enciphering 4,096 bytes", LONG_KEY_HCH_4096, HCH_4096},
    {"forward, enciphering 512 bytes", LONG_KEY_FORWARD_512, FORWARD_512},
    {"forward, enciphering 4,096 bytes", LONG_KEY_FORWARD_4096, FORWARD_4096},
};

static const row beside_alone[] = {
    {"HCH, sealing an empty payload", &hch, &short_key, 512, 32, {seal_block, encipher_alone}},
    {"HCH, opening an empty payload", &hch, &short_key, 512, 32, {open_block, decipher_alone}},
    {"forward, sealing an empty payload", &forward, &short_key, 512, 32, {seal_block, encipher_alone}},
    {"forward, opening an empty payload", &forward, &short_key, 512, 32, {open_block, decipher_alone}},
    {"HCH, sealing 496 bytes", &hch, &short_key, 512, 32, {seal_block, encipher_alone}},
    {"HCH, opening 496 bytes", &hch, &short_key, 512, 32, {open_block, decipher_alone}},
    {"forward, sealing 496 bytes", &forward, &short_key, 512, 32, {seal_block, encipher_alone}},
    {"forward, opening 496 bytes", &forward, &short_key, 512, 32, {open_block, decipher_alone}},
};

static const row beside_blocks[] = {
    {"sealing 40 blocks", NULL, &short_key, RUN + sizeof lengths, 2, {seal_run, seal_one_by_one}},
    {"opening 40 blocks", NULL, &short_key, RUN + sizeof lengths, 2, {open_run, open_one_by_one}},
};

#define COUNT(table) ((int)(sizeof table / sizeof table[0]))

/* How the name of a row is printed. */
#define NAME "%-33s"

static void print_beside_c(row_times times[]) {
    printf(NAME " %9s %9s %9s %16s %14s\n", "nanoseconds a call", "library", "careful C", "plain C", "library/careful",
           "library/plain");
    for (int i = 0; i < SHOWN; i++) {
        printf(NAME, beside_c[i].name);
        for (int side = 0; side < SIDES; side++) printf(" %9.0f", median(times[i][side], NULL));
        printf(" %16.2f %14.2f\n", median(times[i][0], times[i][1]), median(times[i][0], times[i][2]));
    }
}

/* Rows of two sides, under the names of the first, of the second and of their ratio. */
static void print_two(const row *rows, int count, row_times times[], const char *one, const char *other,
                      const char *ratio) {
    printf("\n" NAME " %9s %9s %16s\n", "nanoseconds a call", one, other, ratio);
    for (int i = 0; i < count; i++) {
        const double *a = times[i][0], *b = times[i][1];
        printf(NAME " %9.0f %9.0f %16.2f\n", rows[i].name, median(a, NULL), median(b, NULL), median(a, b));
    }
}

/* Of each side its time in one row over that in another. */
static void print_quotients(const char *name, const quotient *q, int count, row_times times[]) {
    printf("\n" NAME " %9s %9s %9s\n", name, "library", "careful C", "plain C");
    for (; count > 0; count--, q++) {
        printf(NAME, q->name);
        for (int side = 0; side < SIDES; side++) printf(" %9.2f", median(times[q->row][side], times[q->other][side]));
        printf("\n");
    }
}

static void expand(bench_key *k, const uint8_t *bytes, size_t length) {
    k->bytes = bytes;
    k->length = length;
    plain_aes_expand(&k->expanded, bytes, length);
    k->inverted = k->expanded;
    careful_aes_invert(&k->inverted);
}

int main(void) {
    static row_times times[ROWS];
    careful_start();
    expand(&short_key, short_bytes, sizeof short_bytes);
    expand(&long_key, long_bytes, sizeof long_bytes);
    careful_prepare(&multiples, short_key.bytes);

    measure(beside_c, ROWS, times);
    print_beside_c(times);
    print_quotients("forward over HCH", over_hch, COUNT(over_hch), times);
    print_quotients("4,096 bytes over 512 bytes", growth, COUNT(growth), times);
    print_quotients("32-byte key over 16-byte key", key_growth, COUNT(key_growth), times);

    prepare(0);
    measure(beside_alone, 4, times);
    prepare(496);
    measure(beside_alone + 4, 4, times + 4);
    print_two(beside_alone, COUNT(beside_alone), times, "library", "alone", "library/alone");

    prepare_run();
    seal_one_by_one(beside_blocks, sealed_run);
    measure(beside_blocks, COUNT(beside_blocks), times);
    print_two(beside_blocks, COUNT(beside_blocks), times, "one call", "40 calls", "one/40 calls");
    return 0;
}
