/* Where the lent bytes stand, and how many they are: any address, slices that share bytes where they may, what is
   empty, and lengths that would be good ones if only their last bits counted. */
#define _DEFAULT_SOURCE
#include "good.h"
#include "groups.h"
#include "report.h"
#include "table.h"
#include <inttypes.h>
#include <string.h>
#include <sys/mman.h>

static size_t longest;

/* What a function reads beside its key, if it does. */
static slice *beside_key(call *c) {
    function kind = kind_of(c->name);
    return kind == SEAL ? &c->payload : kind < SEAL ? &c->tweak : &c->list;
}

static void hold_addresses(const call good[FUNCTIONS]) {
    for (int f = 0; f < FUNCTIONS; f++) {
        TRYING("each address modulo 16");
        hold(&good[f]);
        for (int i = 1; i < 16; i++) hold_at(&good[f], (position)i);
    }
}

/* Each slice empty in turn, and all at once. An empty payload is sealed; everything else that is empty is refused. */
static void hold_empty(const call *good) {
    uint8_t empty_sealed[SIZE];
    TRYING("what is empty");
    if (kind_of(good->name) == SEAL) {
        call empty = *good;
        empty.payload.length = 0;
        empty.data.bytes = empty_sealed;
        if (answer(&empty) != 0) DIFFERS("an empty payload is not sealed");
    }
    for (int i = 0; i < 32; i++) {
        call c = *good;
        if (i & 1) c.key.length = 0;
        if (i & 2) c.tweak.length = 0;
        if (i & 4) c.payload.length = 0;
        if (i & 8) c.data.length = 0;
        if (i & 16) c.list.length = 0;
        c.number = first(&c, 0);
        if (kind_of(c.name) == SEAL && c.payload.length == 0) c.after = empty_sealed;
        if (c.number != 0) c.after = c.data.bytes, c.list_after = c.list.bytes;
        hold(&c);
    }
}

/* What is only read may overlap: a key, from this byte on, and what is read beside it, from byte 14 on, leave what they
   leave where they stand apart. The string is one of numbers, so that a list can stand in it. */
static void hold_overlap(const call *good, size_t key_at) {
    uint16_t all[RUN], copy[RUN];
    uint8_t one[RUN], other[RUN];
    call together = *good, apart = *good;
    TRYING("slices that are read share bytes, the key from %zu on", key_at);
    for (uint16_t i = 0; i < RUN; i++) all[i] = copy[i] = 480 + i % 16;
    together.key.bytes = apart.key.bytes = (const uint8_t *)all + key_at;
    beside_key(&together)->bytes = (const uint8_t *)all + 14;
    beside_key(&apart)->bytes = (const uint8_t *)copy + 14;
    memcpy(one, good->data.bytes, good->data.length);
    memcpy(other, good->data.bytes, good->data.length);
    together.data.bytes = one;
    apart.data.bytes = other;
    uint32_t wrong = answer(&together) | answer(&apart);
    if (wrong != 0 || memcmp(one, other, good->data.length) != 0) DIFFERS("%s differs", function_names[good->name]);
    if (memcmp(all, copy, sizeof all) != 0) DIFFERS("%s has changed what was to be read", function_names[good->name]);
}

/* The call answers the table's number, and leaves its data as it was. */
static void hold_number(const call *c) {
    uint8_t before[SIZE];
    memcpy(before, c->data.bytes, SIZE);
    uint32_t number = answer(c);
    const char *name = function_names[c->name];
    if (number != first(c, 0)) DIFFERS("%s answers %" PRIu32 " in the place of %" PRIu32, name, number, first(c, 0));
    if (memcmp(c->data.bytes, before, SIZE) != 0) DIFFERS("%s has changed the data", name);
    if (*c->failed != 0) DIFFERS("%s has written *failed", name);
}

/* Each slice in turn with so many bytes more than in a good call, from this one on. */
static void hold_longer(const call good[FUNCTIONS], const uint8_t *bytes, size_t more) {
    TRYING("a slice with %zu bytes more than in a good call", more);
    for (int f = 0; f < FUNCTIONS; f++) {
        call with_key = good[f], with_other = good[f], with_data = good[f];
        slice *other = beside_key(&with_other);
        with_key.key = (slice){bytes, with_key.key.length + more};
        *other = (slice){bytes, other->length + more};
        with_data.data = (slice){bytes, with_data.data.length + more};
        hold_number(&with_data);
        if (f != FIND) hold_number(&with_key);
        if (f != FIND && kind_of((function)f) != OPEN) hold_number(&with_other);
    }
}

/* Lengths whose last 13 to 33 bits are those of a good one. So many bytes are no more than addresses until they are
   touched. */
static void hold_lengths(const call good[FUNCTIONS]) {
#if SIZE_MAX > UINT32_MAX
    static const size_t more[] = {1 << 13, 1 << 16, 1 << 24, (size_t)1 << 31, (size_t)1 << 32, (size_t)1 << 33};
#else
    static const size_t more[] = {1 << 13, 1 << 16, 1 << 24};
#endif
    for (size_t i = 0; i < COUNT(more); i++) {
        uint8_t *bytes =
            mmap(NULL, more[i] + PACK, PROT_READ | PROT_WRITE, MAP_PRIVATE | MAP_ANONYMOUS | MAP_NORESERVE, -1, 0);
        if (bytes == MAP_FAILED) break;
        hold_longer(good, bytes, more[i]);
        munmap(bytes, more[i] + PACK);
        longest = more[i] + PACK;
    }
}

static void hold_slices(slice key) {
    static const function read_two[] = {
        ENCIPHER, DECIPHER, SEAL, FORWARD_ENCIPHER, FORWARD_DECIPHER, FORWARD_SEAL, SEAL_RUN,
    };
    call good[FUNCTIONS];
    make_good(good, key);
    hold_addresses(good);
    for (int f = 0; f < FUNCTIONS; f++) hold_empty(&good[f]);
    for (size_t i = 0; i < COUNT(read_two) * 33; i++) hold_overlap(&good[read_two[i / 33]], i % 33);
    hold_lengths(good);
}

void slices(void) {
    under_each_key(hold_slices);
    printf("%lu calls, the longest slice of %zu bytes\n", calls, longest);
}
