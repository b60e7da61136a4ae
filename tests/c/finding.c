/* Finding: its number for each length of a pack and each place, and the parts of a pack, which are sealed and opened
   where they stand, by each scheme. */
#include "groups.h"
#include "library.h"
#include "report.h"
#include "table.h"
#include <boards.h>
#include <inttypes.h>
#include <string.h>

enum { SIZE = 512, MOST = 128, ROOM = 130 * SIZE + 1 };

static const uint64_t pack_number = 0x0123456789abcdef;
static scheme chosen;
static slice key;
static uint8_t some[ROOM];

/* The edges, written out. */
static const struct {
    size_t length;
    uint32_t place, number;
} edges[] = {
    {0, 0, 10},        {0, 1, 10},        {1, 0, 10},        {511, 0, 10},           {512, 0, 0},
    {512, 1, 6},       {512, 65535, 6},   {513, 0, 10},      {513, 1, 10},           {1024, 1, 0},
    {1024, 2, 6},      {65024, 126, 0},   {65024, 127, 6},   {65535, 127, 10},       {65536, 0, 0},
    {65536, 127, 0},   {65536, 128, 6},   {65536, 129, 6},   {65536, 255, 6},        {65536, 256, 6},
    {65536, 65535, 6}, {65536, 65536, 6}, {65536, 65537, 6}, {65536, UINT32_MAX, 6}, {65537, 127, 10},
    {66048, 0, 10},    {66048, 128, 10},  {66048, 129, 10},  {66048, 65536, 10},
};

/* The call, with the table's number. */
static call finding_of(size_t length, uint32_t place) {
    call c = {.name = FIND, .data = {some, length}, .place = place, .after = some};
    c.number = first(&c, 0);
    return c;
}

static void hold_edges(void) {
    TRYING("the edges");
    for (size_t i = 0; i < COUNT(edges); i++) {
        call c = finding_of(edges[i].length, edges[i].place);
        c.number = edges[i].number;
        hold(&c);
    }
}

/* Whole blocks, a byte less and a byte more, with the places about the last one. */
static void hold_lengths(void) {
    TRYING("each number of blocks");
    for (size_t length = 0; length <= ROOM; length += length % SIZE == 1 ? SIZE - 2 : 1) {
        uint32_t n = (uint32_t)((length + 1) / SIZE);
        const uint32_t places[] = {0, n - 1, n, n + 1, 127, 128, 65535, 65536, 65535 + n, UINT32_MAX};
        for (size_t i = 0; i < COUNT(places); i++) {
            call c = finding_of(length, places[i]);
            hold(&c);
        }
    }
}

/* Lengths that no memory has, and pointers to nothing: the length alone is looked at. */
static void hold_no_memory(void) {
    static const size_t lengths[] = {
        SIZE, MOST * SIZE, (MOST + 1) * SIZE, UINT32_MAX + (size_t)1 + SIZE, SIZE_MAX / 2 + 1, SIZE_MAX - 511, SIZE_MAX,
    };
    static const uint32_t places[] = {0, 1, 127, 128, UINT32_MAX};
    const uint8_t *const pointers[] = {some, NULL, (const uint8_t *)UINTPTR_MAX};
    for (size_t i = 0; i < COUNT(lengths) * COUNT(places) * COUNT(pointers); i++) {
        call c = finding_of(lengths[i % COUNT(lengths)], places[i / COUNT(lengths) % COUNT(places)]);
        c.data.bytes = pointers[i / COUNT(lengths) / COUNT(places)];
        TRYING("a pack of %zu at %p, place %" PRIu32, c.data.length, (const void *)c.data.bytes, c.place);
        uint32_t number = answer(&c);
        if (number != c.number) DIFFERS("answers %" PRIu32 " in the place of %" PRIu32, number, c.number);
    }
}

/* The pack, and what its blocks have to be, sealed and opened apart from it. */
static lent pack;
static uint8_t sealed[MOST * SIZE], plain[MOST * SIZE];

static void seal_at(uint8_t *block, uint32_t place, uint32_t seed) {
    uint8_t payload[497];
    size_t used = seed * 53 % 497;
    fill(payload, used, seed);
    uint32_t number = boards.by[chosen].seal(key.bytes, key.length, payload, used, pack_number, place, block, SIZE);
    if (number != 0) DIFFERS("the block of place %" PRIu32 " is not sealed: %" PRIu32, place, number);
}

static void open_at(uint8_t *block, uint32_t place) {
    uint32_t number = boards.by[chosen].open(key.bytes, key.length, pack_number, place, block, SIZE);
    if (number != 0) DIFFERS("the block of place %" PRIu32 " is not opened: %" PRIu32, place, number);
}

static void make(uint32_t place, uint32_t seed) {
    uint8_t block[SIZE];
    seal_at(block, place, seed);
    memcpy(sealed + SIZE * place, block, SIZE);
    open_at(block, place);
    memcpy(plain + SIZE * place, block, SIZE);
}

static uint8_t *part_of(uint32_t place) {
    uint32_t number = boards.find(pack.bytes, pack.length, place);
    uint8_t *part = boards_part(pack.bytes, place);
    calls++;
    if (number != 0) DIFFERS("the block of place %" PRIu32 " is not found: %" PRIu32, place, number);
    if (part < pack.bytes || part + SIZE > pack.bytes + pack.length) DIFFERS("the part is not within the pack");
    if (boards_const_part(pack.bytes, place) != part) DIFFERS("the part is another one where the pack is only read");
    return part;
}

/* Each block in turn is sealed anew in a pack of n: it alone is another one then, and all open to what they should. */
static void hold_parts(uint32_t n, position where) {
    for (uint32_t place = 0; place < n; place++) make(place, place);
    for (uint32_t place = 0; place < n; place++) {
        TRYING("place %" PRIu32 " in a pack of %" PRIu32 " blocks", place, n);
        lent_put(&pack, sealed, n * SIZE, where);
        make(place, n + place);
        seal_at(part_of(place), place, n + place);
        lent_check(&pack, sealed);
        lent_put(&pack, sealed, n * SIZE, where);
        for (uint32_t i = 0; i < n; i++) open_at(part_of(i), i);
        lent_check(&pack, plain);
    }
}

static void hold_packs(scheme s, slice k) {
    static const uint32_t counts[] = {1, 2, 3, MOST - 1, MOST};
    chosen = s;
    key = k;
    for (size_t i = 0; i < COUNT(counts); i++) {
        hold_parts(counts[i], FRONT);
        hold_parts(counts[i], END);
    }
    hold_parts(3, (position)5);
}

void finding(void) {
    fill(some, ROOM, 2);
    hold_edges();
    hold_lengths();
    hold_no_memory();
    lent_map(&pack, "pack", ROOM);
    by_each_scheme(hold_packs);
    printf("%lu calls\n", calls);
}
