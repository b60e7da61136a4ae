/* Blocks of zeros: "If the check fails and all 512 lent bytes are zero, the slot is called blank." Any other block that
   fails its check is answered with 8, however near it comes. The group of order has zeros of other lengths, and that of
   runs has blocks of zeros among others. */
#include "good.h"
#include "groups.h"
#include "report.h"
#include "table.h"
#include <inttypes.h>
#include <string.h>

static const uint8_t zeros[SIZE];

/* The block opened by this call, and under HCH as a run of one too, for the same key, pack and place. If it opens, its
   payload is empty. */
static void hold_block(call c, const uint8_t block[SIZE], uint32_t number, const uint8_t after[SIZE]) {
    static const uint16_t any_number = 12345, none = 0;
    c.data = (slice){block, SIZE};
    c.after = after;
    c.number = number;
    hold(&c);
    hold_at(&c, (position)5);
    if (c.name != OPEN) return;
    c.name = OPEN_RUN;
    c.list = (slice){(const uint8_t *)&any_number, sizeof any_number};
    c.list_after = (const uint8_t *)(number == 0 ? &none : &any_number);
    c.failed_place = c.place;
    hold(&c);
    hold_at(&c, (position)5);
}

static void hold_failing(call c, const uint8_t block[SIZE], uint32_t number) { hold_block(c, block, number, block); }

/* For packs and places at their edges and between. */
static void hold_zeros(call c) {
    static const uint64_t packs[] = {0, 1, 0x0123456789abcdef, INT64_MAX, (uint64_t)1 << 63, UINT64_MAX};
    static const uint32_t places[] = {0, 1, 258, 65534, 65535};
    TRYING("a block of zeros");
    for (size_t i = 0; i < COUNT(packs) * COUNT(places); i++) {
        c.pack = packs[i / COUNT(places)];
        c.place = places[i % COUNT(places)];
        hold_failing(c, zeros, 12);
    }
}

/* Keys of the same length: of zeros, of ones, and any others. */
static void hold_keys(call c) {
    uint8_t other[32];
    c.key.bytes = other;
    for (uint32_t i = 0; i < 6; i++) {
        if (i < 2) memset(other, i == 0 ? 0 : 0xff, sizeof other);
        else fill(other, sizeof other, i);
        hold_zeros(c);
    }
}

/* Each bit of the block alone: those with an even number under the short key, and the others under the long one. They
   come in an order that is soon in every part of the block, since a wrong library is to be reported soon. */
static void hold_bits(void) {
    uint8_t block[SIZE];
    for (size_t turn = 0; turn < 8 * SIZE; turn++) {
        size_t i = 2531 * turn % (8 * SIZE);
        TRYING("zeros but for bit %zu of byte %zu", i % 8, i / 8);
        memset(block, 0, SIZE);
        block[i / 8] = (uint8_t)(1 << i % 8);
        for (scheme s = HCH; s < SCHEMES; s++) {
            call c = {.name = by(s, OPEN), .key = key_of(key_lengths[i % 2]), .pack = 1, .place = 2};
            hold_failing(c, block, 8);
        }
    }
}

/* One bit in all bytes, which are zero when they are added up in 8 bits, and by exclusive or; and the highest bits of
   two words, which are zero when words of 16, 32 or 64 bits are added up, big-endian and then little-endian. */
static void hold_sums(call c) {
    uint8_t block[SIZE];
    for (int i = 0; i < 8; i++) {
        TRYING("bit %d alone in all bytes", i);
        memset(block, 1 << i, SIZE);
        hold_failing(c, block, 8);
    }
    for (size_t i = 0; i < 8; i += 7) {
        TRYING("zeros but for bit 7 of the bytes %zu and %zu", i, i + 504);
        memset(block, 0, SIZE);
        block[i] = block[i + 504] = 0x80;
        hold_failing(c, block, 8);
    }
}

/* What zeros are enciphered or deciphered to, as any other data. */
static void make_from_zeros(function name, slice key, uint8_t place, uint8_t block[SIZE]) {
    uint8_t tweak[16] = {0};
    call c = {.name = name, .key = key, .tweak = {tweak, 16}, .data = {block, SIZE}};
    tweak[15] = place;
    memset(block, 0, SIZE);
    uint32_t number = answer(&c);
    if (number != 0) DIFFERS("%s answers %" PRIu32 " in the place of 0", function_names[name], number);
}

static void hold_deciphering(scheme s, slice key) {
    uint8_t block[SIZE];
    call back = {.name = by(s, ENCIPHER), .key = key, .tweak = {zeros, 16}, .data = {block, SIZE}, .after = zeros};
    TRYING("zeros deciphered, and enciphered again");
    make_from_zeros(by(s, DECIPHER), key, 0, block);
    hold(&back);
}

/* What deciphers to zeros is not blank. For pack 0 and place 0 it is the block of an empty payload, which opens, and
   for another place it fails its check. */
static void hold_deciphering_to_zeros(scheme s, slice key) {
    uint8_t block[SIZE];
    for (uint8_t place = 0; place < 2; place++) {
        TRYING("a block that deciphers to zeros, for place %d", place);
        call c = {.name = by(s, OPEN), .key = key, .place = place};
        make_from_zeros(by(s, ENCIPHER), key, place, block);
        if (place == 0) hold_block(c, block, 0, zeros);
        else hold_failing(c, block, 8);
    }
}

/* A slot is blank; then a payload is sealed into it, and it opens. */
static void hold_slot(call seal, const call *open, uint8_t slot[SIZE]) {
    hold_failing(*open, slot, 12);
    seal.data.bytes = slot;
    hold(&seal);
    hold(open);
    memcpy(slot, seal.after, SIZE);
}

/* The same of this block of a file. */
static void hold_slot_of(const call good[FUNCTIONS], uint8_t file[RUN], uint32_t at) {
    const call *payloads = &good[SEAL_RUN];
    call seal = good[SEAL], open = good[OPEN];
    seal.place = open.place = payloads->place + at;
    seal.payload = (slice){payloads->data.bytes + SIZE * at, ((const uint16_t *)payloads->list.bytes)[at]};
    seal.after = open.data.bytes = payloads->after + SIZE * at;
    open.after = good[OPEN_RUN].after + SIZE * at;
    open.payload_length = seal.payload.length;
    hold_slot(seal, &open, file + SIZE * at);
}

/* A new file of zeros, into which two blocks are sealed, one by one. Until both are, the run is not opened, and the
   first block that is still blank is told; then it is opened. */
static void hold_new_file(const call good[FUNCTIONS], uint32_t sealed_first) {
    uint8_t file[RUN] = {0};
    call opened = good[OPEN_RUN], run = opened;
    TRYING("a new file, block %d sealed first", (int)sealed_first);
    opened.data.bytes = run.data.bytes = run.after = file;
    run.list_after = run.list.bytes;
    run.number = 12;
    run.failed_place = run.place;
    hold(&run);
    hold_slot_of(good, file, sealed_first);
    run.failed_place = run.place + 1 - sealed_first;
    hold(&run);
    hold_slot_of(good, file, 1 - sealed_first);
    hold(&opened);
}

static void hold_blank(scheme s, slice key) {
    uint8_t slot[SIZE] = {0};
    call good[FUNCTIONS], c = {.name = by(s, OPEN), .key = key, .pack = 1, .place = 2};
    make_good(good, key);
    hold_zeros(c);
    hold_sums(c);
    hold_deciphering(s, key);
    hold_deciphering_to_zeros(s, key);
    TRYING("a new slot");
    hold_slot(good[by(s, SEAL)], &good[by(s, OPEN)], slot);
    hold_keys(c);
}

static void hold_new_files(slice key) {
    call good[FUNCTIONS];
    make_good(good, key);
    hold_new_file(good, 0);
    hold_new_file(good, 1);
}

void blank(void) {
    by_each_scheme(hold_blank);
    under_each_key(hold_new_files);
    hold_bits();
    printf("%lu calls\n", calls);
}
