/* Keys: good calls under a key of each length, keys of all other lengths, and keys that differ in little. */
#include "good.h"
#include "groups.h"
#include "report.h"
#include "table.h"
#include <string.h>

static void hold_good(const call good[FUNCTIONS]) {
    for (int f = 0; f < FUNCTIONS; f++) {
        TRYING("a good call");
        hold(&good[f]);
    }
}

/* Every other length up to 64, and longer ones of which the last eight bits are those of a good one. The key ends with
   its page, so that a byte that is read past it is a fault. */
static void hold_lengths(const call good[FUNCTIONS]) {
    for (size_t length = 0; length <= LONGEST_KEY; length += length < 64 ? 1 : 16) {
        for (int f = 0; f < FUNCTIONS; f++) {
            call c = good[f];
            if (f == FIND || is_key(length)) continue;
            TRYING("a good call but for its key");
            c.key.length = length;
            c.number = 1;
            c.after = c.data.bytes;
            c.list_after = c.list.bytes;
            hold(&c);
        }
    }
}

/* What was sealed under another key does not open. */
static void hold_other(call c, slice key) {
    c.key = key;
    c.number = 8;
    c.after = c.data.bytes;
    hold(&c);
}

static void hold_bits(const call *open) {
    for (size_t i = 0; i < 8 * open->key.length; i++) {
        TRYING("bit %zu of the key", i);
        uint8_t other[32];
        memcpy(other, open->key.bytes, open->key.length);
        other[i / 8] ^= (uint8_t)(1 << i % 8);
        hold_other(*open, (slice){other, open->key.length});
    }
}

/* The key's first 16 bytes with zeros before them, with zeros behind them, and twice; and of the two good keys, of
   which one begins with the other, the other one. */
static void hold_alike(const call *open) {
    uint8_t before[32] = {0}, behind[32] = {0}, twice[32];
    const slice half = {open->key.bytes, 16}, others[] = {{before, 32}, {behind, 32}, {twice, 32}};
    memcpy(before + 16, half.bytes, 16);
    memcpy(behind, half.bytes, 16);
    memcpy(twice, half.bytes, 16);
    memcpy(twice + 16, half.bytes, 16);
    for (size_t i = 0; i < COUNT(others); i++) {
        TRYING("a block sealed under a key of %zu, opened under one that is like it", open->key.length);
        hold_other(*open, others[i]);
    }
    hold_other(*open, open->key.length == 16 ? key_of(32) : half);
}

static void hold_key(slice key) {
    call good[FUNCTIONS];
    make_good(good, key);
    hold_good(good);
    hold_lengths(good);
}

static void hold_other_keys(scheme s, slice key) {
    call good[FUNCTIONS];
    make_good(good, key);
    hold_alike(&good[by(s, OPEN)]);
    hold_bits(&good[by(s, OPEN)]);
}

void keys(void) {
    under_each_key(hold_key);
    by_each_scheme(hold_other_keys);
    printf("%lu calls\n", calls);
}
