#include "good.h"
#include <string.h>

enum { BOARD = 1000, PLACE = 2 };

/* What a scheme makes of the board and of the payload. */
typedef struct {
    uint8_t enciphered[4097], sealed[SIZE], plain[SIZE];
} made;

static made made_by[SCHEMES];
static uint8_t tweak[16], payload[SIZE], board[4097], block[SIZE], pack[PACK + 1];
static uint8_t run[RUN + 1], sealed_run[RUN + 1], plain_run[RUN];
static const uint16_t lengths[2] = {USED, 496};
static uint16_t any_numbers[2];
static uint32_t failed;

/* The block that is sealed, and the plain block that is left when it is opened. */
static void make_block(scheme s, slice key, slice from, uint32_t place, uint8_t *to, uint8_t *opened) {
    boards.by[s].seal(key.bytes, key.length, from.bytes, from.length, 1, place, to, SIZE);
    memcpy(opened, to, SIZE);
    boards.by[s].open(key.bytes, key.length, 1, place, opened, SIZE);
}

/* A call that is refused here, though it is a good one, is reported as soon as it is held. */
static void make_bytes(slice key) {
    fill(tweak, sizeof tweak, 2);
    fill(payload, sizeof payload, 3);
    fill(board, sizeof board, 4);
    fill(block, sizeof block, 5);
    fill(pack, sizeof pack, 7);
    fill(run, sizeof run, 8);
    fill((uint8_t *)any_numbers, sizeof any_numbers, 9);
    for (scheme s = HCH; s < SCHEMES; s++) {
        made *m = &made_by[s];
        memcpy(m->enciphered, board, sizeof board);
        boards.by[s].encipher(key.bytes, key.length, tweak, 16, m->enciphered, BOARD);
        make_block(s, key, (slice){payload, USED}, PLACE, m->sealed, m->plain);
    }
    for (uint32_t i = 0; i < 2; i++) {
        size_t at = SIZE * i;
        make_block(HCH, key, (slice){run + at, lengths[i]}, PLACE + i, sealed_run + at, plain_run + at);
    }
}

static void make_by(scheme s, call good[FUNCTIONS]) {
    made *m = &made_by[s];
    slice t = {tweak, 16};
    good[by(s, ENCIPHER)] = (call){.tweak = t, .data = {board, BOARD}, .after = m->enciphered};
    good[by(s, DECIPHER)] = (call){.tweak = t, .data = {m->enciphered, BOARD}, .after = board};
    good[by(s, SEAL)] = (call){.payload = {payload, USED}, .data = {block, SIZE}, .after = m->sealed};
    good[by(s, OPEN)] = (call){.data = {m->sealed, SIZE}, .after = m->plain, .payload_length = USED};
}

void make_good(call good[FUNCTIONS], slice key) {
    slice list = {(const uint8_t *)lengths, sizeof lengths}, any = {(const uint8_t *)any_numbers, 4};
    make_bytes(key);
    for (scheme s = HCH; s < SCHEMES; s++) make_by(s, good);
    good[FIND] = (call){.data = {pack, PACK}, .after = pack};
    good[SEAL_RUN] = (call){.list = list, .data = {run, RUN}, .after = sealed_run};
    good[OPEN_RUN] = (call){.list = any, .data = {sealed_run, RUN}, .after = plain_run, .list_after = list.bytes};
    for (function f = ENCIPHER; f < FUNCTIONS; f++) {
        good[f].name = f;
        good[f].key = key;
        good[f].pack = 1;
        good[f].place = PLACE;
        good[f].failed = &failed;
    }
}
