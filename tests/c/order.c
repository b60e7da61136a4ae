/* The order of the refusals: each alone, each two at once, and more, with every lent byte as it was. */
#include "good.h"
#include "groups.h"
#include "report.h"
#include "table.h"
#include <inttypes.h>

enum { MOST = 8192 };

/* Any bytes; and blocks that each scheme seals for the place 3, under a key of each length. */
static uint8_t some[2][MOST], sealed[SCHEMES][KEYS][MOST];

/* Bytes for a run that is too long, of which the first two blocks are sealed for the places 3 and 4, again under a key
   of each length; and lists, of which the second has a number over 496. */
static uint8_t run[KEYS][129 * SIZE];
static uint16_t lists[2][129];

/* For blocks and runs that are blank. */
static const uint8_t zeros[129 * SIZE];

/* The lengths of keys that are tried; the group of keys has more. */
static const size_t keys_tried[] = {0, 1, 15, 16, 17, 24, 31, 32, 33, 64};

/* Which of the blocks that were sealed is for a key of this length. */
static int sealed_for(size_t key_length) { return key_length == key_lengths[1]; }

/* Makes the call if it is to be refused: what good calls leave is for the cases. */
static void hold_refused(call *c, int failing) {
    c->number = first(c, failing);
    c->after = c->data.bytes;
    c->list_after = c->list.bytes;
    if (c->number != 0) hold(c);
}

/* Makes the number's condition hold. */
static void spoil(call *c, uint32_t number) {
    switch (number) {
    case 1: c->key.length = 24; break;
    case 2: c->tweak.length = 15; break;
    case 3: c->data.length = 15; break;
    case 4: c->data.length = 4097; break;
    case 5: c->payload.length = 497, c->list.bytes = (const uint8_t *)lists[1]; break;
    case 6: c->place = 65536; break;
    case 7: c->data.length = 511; break;
    case 8: c->pack ^= 1; break;
    case 10: c->data.length++; break;
    case 11: c->list.length = 2; break;
    case 12: c->data.bytes = zeros; break;
    case 13: c->data.length = 32; break;
    }
}

/* A call that is good but for these two numbers, which may be the same one; number 1 by each of the lengths above. */
static void hold_two(const call *good, uint32_t a, uint32_t b) {
    int failing = says_failed(a) || says_failed(b);
    call c = *good;
    spoil(&c, a);
    if (b != a) spoil(&c, b);
    c.failed_place = c.place;
    TRYING("numbers %" PRIu32 " and %" PRIu32 " at once", a, b);
    if (!applies(a, &c, failing) || !applies(b, &c, failing)) DIFFERS("%s was not tried so", function_names[c.name]);
    hold_refused(&c, failing);
    for (size_t i = 0; i < COUNT(keys_tried) && (a == 1 || b == 1); i++) {
        c.key.length = keys_tried[i];
        hold_refused(&c, failing);
    }
}

static void hold_pairs(slice key) {
    call good[FUNCTIONS];
    make_good(good, key);
    for (int i = 0; i < FUNCTIONS * LOOKS * LOOKS; i++) {
        int f = i / (LOOKS * LOOKS);
        uint32_t a = looks[f][i / LOOKS % LOOKS], b = looks[f][i % LOOKS];
        if (can_meet(a, b)) hold_two(&good[f], a, b);
    }
}

static void refuse_data(function name) {
    static const size_t lengths[] = {0, 1, 15, 16, 17, 31, 32, 33, 34, 4096, 4097, 4112};
    call c = {.name = name, .key = key_of(0), .tweak = {some[0], 0}, .data = {some[1], 0}};
    for (size_t i = 0; i < COUNT(lengths) * COUNT(keys_tried); i++) {
        c.data.length = lengths[i / COUNT(keys_tried)];
        c.key.length = keys_tried[i % COUNT(keys_tried)];
        for (c.tweak.length = 0; c.tweak.length <= 33; c.tweak.length++) hold_refused(&c, 0);
    }
}

static const size_t blocks[] = {0, 1, 15, 16, 496, 511, 512, 513, 1024, 4096, 4097};
static const size_t payloads[] = {0, 1, 16, 495, 496, 497, 512, 4097};
static const uint32_t places[] = {0, 3, 65535, 65536, 65539, 0x80000000, 0xffffffff};

/* A number below the count; what is left of i is for the next ones. */
static size_t take(size_t *i, size_t count) {
    size_t taken = *i % count;
    *i /= count;
    return taken;
}

static void refuse_seal(scheme s) {
    call c = {.name = by(s, SEAL), .key = key_of(0), .payload = {some[0], 0}, .data = {some[1], 0}, .pack = 1};
    for (size_t i = 0; i < COUNT(keys_tried) * COUNT(blocks) * COUNT(payloads) * COUNT(places); i++) {
        size_t rest = i;
        c.key.length = keys_tried[take(&rest, COUNT(keys_tried))];
        c.data.length = blocks[take(&rest, COUNT(blocks))];
        c.payload.length = payloads[take(&rest, COUNT(payloads))];
        c.place = places[rest];
        hold_refused(&c, 0);
    }
}

/* The block is that of place 3, cut short or with bytes behind it where its length is another, or one of any bytes, or
   of zeros. */
static void refuse_open(scheme s) {
    call c = {.name = by(s, OPEN), .key = key_of(0), .pack = 1};
    for (size_t i = 0; i < COUNT(keys_tried) * COUNT(blocks) * COUNT(places) * 3; i++) {
        size_t rest = i;
        c.key.length = keys_tried[take(&rest, COUNT(keys_tried))];
        c.data.length = blocks[take(&rest, COUNT(blocks))];
        c.place = places[take(&rest, COUNT(places))];
        const uint8_t *const kinds[] = {sealed[s][sealed_for(c.key.length)], some[1], zeros};
        c.data.bytes = kinds[rest];
        hold_refused(&c, rest != 0 || c.place != 3);
    }
}

/* Packs as long as those blocks; the group of finding has all lengths of packs. */
static void refuse_find(void) {
    call c = {.name = FIND, .data = {some[1], 0}};
    for (size_t i = 0; i < COUNT(blocks) * COUNT(places); i++) {
        size_t rest = i;
        c.data.length = blocks[take(&rest, COUNT(blocks))];
        c.place = places[rest];
        hold_refused(&c, 0);
    }
}

/* Runs and lists of lengths that fit each other and of others, the runs that are opened sealed or of zeros. The group
   of runs has all lengths of runs. */
static void refuse_run(function name) {
    static const size_t lengths[] = {0, 511, 512, 513, 1024, 65536, 66048};
    static const size_t counts[] = {0, 1, 2, 128, 129};
    static const uint32_t from[] = {3, 65408, 65409, 65535, 65536, 0xffffff80, 0xffffffff};
    size_t of_a_kind = COUNT(keys_tried) * COUNT(lengths) * COUNT(counts) * COUNT(from) * COUNT(lists);
    call c = {.name = name, .key = key_of(0), .pack = 1};
    for (size_t i = 0; i < of_a_kind * (name == OPEN_RUN ? 2 : 1); i++) {
        size_t rest = i;
        c.key.length = keys_tried[take(&rest, COUNT(keys_tried))];
        c.data.length = lengths[take(&rest, COUNT(lengths))];
        c.list.length = 2 * counts[take(&rest, COUNT(counts))];
        c.place = from[take(&rest, COUNT(from))];
        c.list.bytes = (const uint8_t *)lists[take(&rest, COUNT(lists))];
        c.data.bytes = rest == 0 ? run[sealed_for(c.key.length)] : zeros;
        int two_good = rest == 0 && c.place == 3;
        c.failed_place = two_good ? 5 : c.place;
        hold_refused(&c, name == OPEN_RUN && (!two_good || c.data.length > 1024));
    }
}

static void seal_for(scheme s, slice key, uint32_t place, uint8_t *block) {
    uint32_t number = boards.by[s].seal(key.bytes, key.length, some[0], 100, 1, place, block, SIZE);
    if (number != 0) DIFFERS("a good payload is not sealed: %" PRIu32, number);
}

static void make_sealed(slice key) {
    int i = sealed_for(key.length);
    for (scheme s = HCH; s < SCHEMES; s++) {
        fill(sealed[s][i], MOST, 3);
        seal_for(s, key, 3, sealed[s][i]);
    }
    fill(run[i], sizeof run[i], 4);
    seal_for(HCH, key, 3, run[i]);
    seal_for(HCH, key, 4, run[i] + SIZE);
}

void order(void) {
    lists[1][0] = 497;
    under_each_key(hold_pairs);
    TRYING("order of refusals");
    for (uint32_t i = 0; i < 2; i++) fill(some[i], MOST, i);
    under_each_key(make_sealed);
    refuse_find();
    for (scheme s = HCH; s < SCHEMES; s++) {
        refuse_open(s);
        refuse_seal(s);
        refuse_data(by(s, ENCIPHER));
        refuse_data(by(s, DECIPHER));
    }
    refuse_run(SEAL_RUN);
    refuse_run(OPEN_RUN);
    printf("%lu calls\n", calls);
}
