/* Opening, by each scheme: a good block, and each way in which a block can fail its check. A block that sealing did not
   write is made by enciphering some plain block here, since the cases hold enciphering to the reference. */
#include "call.h"
#include "groups.h"
#include "report.h"
#include <string.h>

enum { SIZE = 512, MOST = 496, USED = 100, PLACE = 3 };

static const uint64_t pack = 0x0123456789abcdef;
static scheme chosen;
static slice key;
static uint8_t payload[MOST], plain[SIZE], sealed[SIZE];

static void put_number(uint8_t *to, size_t size, uint64_t number) {
    for (size_t i = 0; i < size; i++) to[i] = (uint8_t)(number >> 8 * (size - 1 - i));
}

/* The plain block of the first bytes of the payload. */
static void lay_out(uint8_t block[SIZE], size_t used, uint32_t place) {
    memset(block, 0, SIZE);
    memcpy(block, payload, used);
    put_number(block + 496, 8, pack);
    put_number(block + 504, 4, place);
    put_number(block + 508, 2, used);
}

static void encipher_for(uint8_t block[SIZE], uint32_t place) {
    uint8_t tweak[16] = {0};
    put_number(tweak, 8, pack);
    put_number(tweak + 12, 4, place);
    call c = {.name = by(chosen, ENCIPHER), .key = key, .tweak = {tweak, 16}, .data = {block, SIZE}};
    if (answer(&c) != 0) DIFFERS("512 bytes are not enciphered");
}

/* The block opened as that of the pack and PLACE, which it is not. */
static call opening_of(const uint8_t block[SIZE]) {
    call c = {.name = by(chosen, OPEN), .key = key, .data = {block, SIZE}, .pack = pack, .place = PLACE};
    c.number = 8;
    c.after = block;
    return c;
}

static void hold_good(size_t used) {
    TRYING("a payload of %zu bytes", used);
    uint8_t before[SIZE];
    lay_out(plain, used, PLACE);
    memcpy(sealed, plain, SIZE);
    encipher_for(sealed, PLACE);
    fill(before, SIZE, (uint32_t)used);
    call open = opening_of(sealed), seal = open;
    seal.name = by(chosen, SEAL);
    seal.payload = (slice){payload, used};
    seal.data.bytes = before;
    seal.number = 0;
    open.number = 0;
    open.after = plain;
    open.payload_length = used;
    hold(&seal);
    hold(&open);
}

static void hold_damaged(void) {
    for (size_t i = 0; i < SIZE; i++) {
        TRYING("byte %zu damaged", i);
        uint8_t block[SIZE];
        memcpy(block, sealed, SIZE);
        block[i] ^= (uint8_t)(i % 255 + 1);
        call c = opening_of(block);
        hold(&c);
    }
}

/* Each bit of the pack and of the place in turn is another one than that of the block; the group of keys has theirs. */
static void hold_others(void) {
    call c = opening_of(sealed);
    for (int i = 0; i < 64; i++) {
        TRYING("bit %d of the pack", i);
        c.pack = pack ^ (uint64_t)1 << i;
        hold(&c);
    }
    c.pack = pack;
    for (int i = 0; i < 32; i++) {
        TRYING("bit %d of the place", i);
        c.place = PLACE ^ (uint32_t)1 << i;
        c.number = i < 16 ? 8 : 6;
        hold(&c);
    }
    TRYING("a block of place 3, opened as place 4"); /* the table's own example */
    c.place = 4;
    c.number = 8;
    hold(&c);
}

/* What deciphers to this block fails its check. */
static void hold_failing(const uint8_t wrong[SIZE]) {
    uint8_t block[SIZE];
    memcpy(block, wrong, SIZE);
    encipher_for(block, PLACE);
    call c = opening_of(block);
    hold(&c);
}

/* One byte of the check wrong: of the filling, of the pack, of the place and of the last two. */
static void hold_wrong_bytes(void) {
    for (size_t i = USED; i < SIZE; i++) {
        if (i == 508 || i == 509) continue;
        TRYING("byte %zu of the plain block wrong", i);
        uint8_t wrong[SIZE];
        memcpy(wrong, plain, SIZE);
        wrong[i] ^= (uint8_t)(1 << i % 8);
        hold_failing(wrong);
    }
}

/* A length that is not the payload's: one that leaves bytes of it in the filling, and one over 496, also where all of
   the first 496 bytes are zero. */
static void hold_wrong_lengths(void) {
    uint8_t wrong[SIZE];
    for (size_t used = 0; used < 65536; used += used < 520 ? 1 : 257) {
        TRYING("a plain block with the length %zu", used);
        lay_out(wrong, MOST, PLACE);
        put_number(wrong + 508, 2, used);
        if (used != MOST) hold_failing(wrong);
        lay_out(wrong, 0, PLACE);
        put_number(wrong + 508, 2, used);
        if (used > MOST) hold_failing(wrong);
    }
}

/* A block for a place over 65,535 that would pass its check is refused by its place. */
static void hold_places(void) {
    for (uint32_t place = 65536; place != 0; place <<= 1) {
        TRYING("a good block for a place over 65,535");
        uint8_t block[SIZE];
        lay_out(block, USED, place);
        encipher_for(block, place);
        call c = opening_of(block);
        c.place = place;
        c.number = 6;
        hold(&c);
    }
}

static void hold_opening(scheme s, slice k) {
    chosen = s;
    key = k;
    hold_good(USED);
    hold_damaged();
    hold_others();
    hold_wrong_bytes();
    hold_wrong_lengths();
    hold_places();
    for (size_t used = 0; used <= MOST; used++) hold_good(used);
}

void opening(void) {
    fill(payload, MOST, 2);
    for (size_t i = 0; i < MOST; i++) payload[i] |= 1;
    by_each_scheme(hold_opening);
    printf("%lu calls\n", calls);
}
