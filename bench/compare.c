/* Times the library of the working tree beside that of an earlier commit, turn by turn in one run, and prints the times of one call and their ratio,
   now/before: at 1 a call costs what it cost, and at 1.01 a hundredth more. Times and ratios are medians over 600 turns, and a ratio is that of the
   two times in one turn. bench/compare builds both libraries and links them with this file.

   Both sides find the same bytes, at the same addresses, and the one that begins changes from turn to turn. Their code stands at different addresses,
   which alone may be worth some thousandths: the commit that the working tree is at, as COMMIT, shows how much. */
#define _POSIX_C_SOURCE 199309L
#include "times.h"
#include <boards.h>
#include <stdbool.h>
#include <stdio.h>
#include <string.h>

/* The calls of one library. Those of the earlier one have before_ in front of their names, and have to take the same
   arguments. Forward is the encryption-only scheme: where the earlier library lacks it, its calls are NULL. */
typedef struct {
    __typeof__(boards_encipher) *encipher, *decipher, *forward_encipher;
    __typeof__(boards_seal) *seal;
    __typeof__(boards_open) *open, *forward_open;
    __typeof__(boards_open_run) *open_run;
} library;

__typeof__(boards_encipher) before_boards_encipher, before_boards_decipher;
__typeof__(boards_seal) before_boards_seal;
__typeof__(boards_open) before_boards_open;
__typeof__(boards_open_run) before_boards_open_run;
__attribute__((weak)) __typeof__(boards_encipher) before_boards_forward_encipher;
__attribute__((weak)) __typeof__(boards_open) before_boards_forward_open;

static const library libraries[2] = {
    {boards_encipher, boards_decipher, boards_forward_encipher, boards_seal, boards_open, boards_forward_open, boards_open_run},
    {before_boards_encipher, before_boards_decipher, before_boards_forward_encipher, before_boards_seal,
     before_boards_open, before_boards_forward_open, before_boards_open_run},
};

enum { ROWS = 14, FORWARD_ROWS = 3, SIDES = 2, BLOCKS = 40, RUN = BLOCKS * 512, MOST = 3 * RUN, PACK = 1, PLACE = 258 };

/* What is measured: one call of a library on the row's bytes, and its answer. */
typedef struct row row;
typedef uint32_t work(const library *l, const row *r, uint8_t *data);

struct row {
    const char *name;
    work *call;
    size_t key_length;
    const uint8_t *start; /* what each call finds */
    size_t length;
    int calls;
    bool refused; /* by which number may differ from version to version */
};

static uint8_t key[32];
static const uint8_t tweak[16] = {1}, zeros[512];
static uint8_t board[4096], sealed[512], sealed_long[512], sealed_forward[512], damaged[512], sealed_run[RUN];

static uint32_t encipher(const library *l, const row *r, uint8_t *data) { return l->encipher(key, r->key_length, tweak, 16, data, r->length); }
static uint32_t decipher(const library *l, const row *r, uint8_t *data) { return l->decipher(key, r->key_length, tweak, 16, data, r->length); }
static uint32_t forward_encipher(const library *l, const row *r, uint8_t *data) {
    return l->forward_encipher(key, r->key_length, tweak, 16, data, r->length);
}
static uint32_t seal(const library *l, const row *r, uint8_t *data) {
    return l->seal(key, r->key_length, board, BOARDS_PAYLOAD_MAX, PACK, PLACE, data, r->length);
}
static uint32_t open_block(const library *l, const row *r, uint8_t *data) { return l->open(key, r->key_length, PACK, PLACE, data, r->length); }
static uint32_t forward_open(const library *l, const row *r, uint8_t *data) {
    return l->forward_open(key, r->key_length, PACK, PLACE, data, r->length);
}
static uint32_t open_run(const library *l, const row *r, uint8_t *data) {
    uint16_t lengths[BLOCKS];
    uint32_t failed;
    return l->open_run(key, r->key_length, PACK, PLACE, lengths, BLOCKS, data, r->length, &failed);
}

static const row rows[ROWS] = {
    {"opening a good block, key of 16 bytes", open_block, 16, sealed, 512, 32, false},
    {"opening a good block, key of 32 bytes", open_block, 32, sealed_long, 512, 32, false},
    {"opening a run of 40 good blocks", open_run, 16, sealed_run, RUN, 2, false},
    {"opening a damaged block", open_block, 16, damaged, 512, 16, true},
    {"opening a block of zeros", open_block, 16, zeros, 512, 16, true},
    {"sealing 496 bytes", seal, 16, zeros, 512, 32, false},
    {"HCH, enciphering 16 bytes", encipher, 16, board, 16, 200, false},
    {"HCH, enciphering 512 bytes", encipher, 16, board, 512, 32, false},
    {"HCH, enciphering 4,096 bytes", encipher, 16, board, 4096, 4, false},
    {"HCH, deciphering 16 bytes", decipher, 16, board, 16, 200, false},
    {"HCH, deciphering 512 bytes", decipher, 16, board, 512, 32, false},
    {"forward, opening a good block", forward_open, 16, sealed_forward, 512, 32, false},
    {"forward, enciphering 512 bytes", forward_encipher, 16, board, 512, 32, false},
    {"forward, enciphering 4,096 bytes", forward_encipher, 16, board, 4096, 4, false},
};

/* The rows that both libraries have: forward's come last. */
static int rows_of_both(void) { return libraries[1].forward_encipher != NULL ? ROWS : ROWS - FORWARD_ROWS; }

static void need(bool well, const char *name, const char *what) {
    if (well) return;
    printf("%s: %s\n", name, what);
    exit(1);
}

/* The sealed blocks are those of the working tree, which the earlier library has to open too. */
static void prepare(void) {
    const library *l = &libraries[0];
    row long_row = {.key_length = 32, .length = 512}, short_row = {.key_length = 16, .length = 512};
    for (size_t i = 0; i < sizeof key; i++) key[i] = (uint8_t)(17 * i + 5);
    for (size_t i = 0; i < sizeof board; i++) board[i] = (uint8_t)(7 * i + i / 512 + 1);
    bool done = seal(l, &long_row, sealed_long) == BOARDS_DONE && seal(l, &short_row, sealed) == BOARDS_DONE;
    for (uint32_t i = 0; i < BLOCKS; i++)
        done = done && l->seal(key, 16, board + 53 * i, 12 * i, PACK, PLACE + i, sealed_run + 512 * i, 512) == BOARDS_DONE;
    uint32_t answer = boards_forward_seal(key, 16, board, BOARDS_PAYLOAD_MAX, PACK, PLACE, sealed_forward, 512);
    done = done && answer == BOARDS_DONE;
    need(done, "sealing", "was refused");
    memcpy(damaged, sealed, 512);
    damaged[300] ^= 1;
}

/* The nanoseconds of a call. The bytes of all calls are there before the clock starts; the first call, which finds the caches cold, is not timed. */
static double timed(const library *l, const row *r, uint8_t data[MOST]) {
    for (int n = 0; n <= r->calls; n++) memcpy(data + (size_t)n * r->length, r->start, r->length);
    uint32_t answers = r->call(l, r, data);
    double start = now();
    for (int n = 1; n <= r->calls; n++) answers |= r->call(l, r, data + (size_t)n * r->length);
    double time = (now() - start) / r->calls * 1e9;
    need((answers != BOARDS_DONE) == r->refused, r->name, r->refused ? "was done" : "was refused");
    return time;
}

/* A turn goes through all rows. Both sides of a row are to leave the same bytes, and each stack position is met by both
   orders. */
static void measure(int count, double times[ROWS][SIDES][TURNS]) {
    static uint8_t data[MOST], left[SIDES][MOST];
    for (int turn = 0; turn < TURNS; turn++) {
        MOVE_STACK(turn / 2);
        for (int i = 0; i < count; i++) {
            for (int n = 0; n < SIDES; n++) {
                int side = (turn + n) % SIDES;
                times[i][side][turn] = timed(&libraries[side], &rows[i], data);
                memcpy(left[side], data, MOST);
            }
            need(memcmp(left[0], left[1], MOST) == 0, rows[i].name, "the bytes differ");
        }
    }
}

int main(void) {
    static double times[ROWS][SIDES][TURNS];
    int count = rows_of_both();
    prepare();
    measure(count, times);
    printf("%-38s %9s %9s %12s\n", "nanoseconds a call", "now", "before", "now/before");
    for (int i = 0; i < count; i++) {
        const double *a = times[i][0], *b = times[i][1];
        printf("%-38s %9.0f %9.0f %12.3f\n", rows[i].name, median(a, NULL), median(b, NULL), median(a, b));
    }
    return 0;
}
