/* Runs: their numbers for each length of run and list, what sealing and opening leave beside the one-block calls, and
   runs of which a block will not open. */
#include "groups.h"
#include "library.h"
#include "report.h"
#include "table.h"
#include <boards.h>
#include <inttypes.h>
#include <string.h>

enum { SIZE = 512, MOST = 128, BLOCKS = 130, ROOM = BLOCKS * SIZE + 1, NONE = -1 };

#define LARGEST UINT32_MAX /* of places */

static const uint64_t pack = 0x0123456789abcdef;
static slice key;

/* A run of which each payload stands at the front of its block, with any bytes behind it; the same run sealed and
   opened, block by block; and the list before it is opened and after that. */
static uint8_t before[ROOM], sealed[ROOM], plain[ROOM];
static uint16_t any_numbers[BLOCKS], lengths[BLOCKS];

static void make_block(uint32_t i, uint32_t place) {
    const scheme_functions *hch = &boards.by[HCH];
    uint8_t *block = plain + SIZE * i;
    uint32_t wrong = hch->seal(key.bytes, key.length, before + SIZE * i, lengths[i], pack, place, block, SIZE);
    memcpy(sealed + SIZE * i, block, SIZE);
    wrong |= hch->open(key.bytes, key.length, pack, place, block, SIZE);
    if (wrong != 0 || boards_payload_length(block) != lengths[i]) DIFFERS("block %" PRIu32 " is not made", i);
    calls += 2;
}

/* Another run of n blocks for each seed. Its payloads are empty, as long as may be, and of lengths between. */
static void make(uint32_t n, uint32_t place, uint32_t seed) {
    static const uint16_t some[] = {496, 0, 1, 100, 495, 16, 17, 300};
    fill(before, ROOM, seed);
    for (uint32_t i = 0; i < n; i++) {
        lengths[i] = some[(i + seed) % COUNT(some)];
        make_block(i, place + i);
    }
}

/* The calls on the first bytes of the run that was made last, with the table's numbers. A call that is done leaves what
   the one-block calls leave. */
static call sealing_of(size_t length, size_t count, uint32_t place) {
    call c = {.name = SEAL_RUN, .key = key, .data = {before, length}, .pack = pack, .place = place};
    c.list = (slice){(const uint8_t *)lengths, 2 * count};
    c.number = first(&c, 0);
    c.after = c.number == 0 ? sealed : before;
    return c;
}

/* The first block that will not open is the one of this number, counted from 0, or there is NONE. */
static call opening_of(const uint8_t *run, size_t length, size_t count, uint32_t place, int failing) {
    call c = {.name = OPEN_RUN, .key = key, .data = {run, length}, .pack = pack, .place = place};
    c.list = (slice){(const uint8_t *)any_numbers, 2 * count};
    c.failed_place = place + (uint32_t)failing;
    c.number = first(&c, failing != NONE);
    c.after = c.number == 0 ? plain : run;
    c.list_after = c.number == 0 ? (const uint8_t *)lengths : c.list.bytes;
    return c;
}

/* The run is not opened, and the place that failed is told. */
static void hold_failing(const uint8_t *run, uint32_t n, uint32_t place, uint32_t failing) {
    call c = opening_of(run, SIZE * n, n, place, (int)failing);
    hold(&c);
}

/* The edges, written out: the numbers of sealing, and of opening where no block will open. */
static const struct {
    size_t length, count;
    uint32_t place, sealing, opening;
} edges[] = {
    {0, 0, 0, 10, 10},                 {0, 1, 0, 10, 10},        {1, 0, 0, 10, 10},
    {511, 0, 0, 10, 10},               {511, 1, 0, 10, 10},      {512, 0, 0, 11, 11},
    {512, 1, 0, 0, 8},                 {512, 2, 0, 11, 11},      {513, 1, 0, 10, 10},
    {1024, 1, 0, 11, 11},              {1024, 2, 0, 0, 8},       {1024, 3, 0, 11, 11},
    {20480, 40, 0, 0, 8},              {20480, 39, 0, 11, 11},   {65024, 127, 0, 0, 8},
    {65024, 128, 0, 11, 11},           {65535, 127, 0, 10, 10},  {65536, 127, 0, 11, 11},
    {65536, 128, 0, 0, 8},             {65536, 129, 0, 11, 11},  {65537, 128, 0, 10, 10},
    {66048, 129, 0, 10, 10},           {66048, 128, 0, 10, 10},  {512, 1, 65535, 0, 8},
    {512, 1, 65536, 6, 6},             {512, 1, LARGEST, 6, 6},  {512, 0, 65536, 11, 11},
    {1024, 2, 65534, 0, 8},            {1024, 2, 65535, 6, 6},   {1024, 2, LARGEST, 6, 6},
    {65536, 128, 65408, 0, 8},         {65536, 128, 65409, 6, 6}, {65536, 128, LARGEST, 6, 6},
    {65536, 128, LARGEST - 126, 6, 6}, {65536, 128, LARGEST - 127, 6, 6},
};

static void hold_edges(void) {
    for (size_t i = 0; i < COUNT(edges); i++) {
        size_t length = edges[i].length, count = edges[i].count;
        uint32_t place = edges[i].place;
        TRYING("the edges");
        if (edges[i].sealing == 0) make((uint32_t)count, place, 1);
        call seal = sealing_of(length, count, place), open = opening_of(before, length, count, place, 0);
        seal.number = edges[i].sealing;
        open.number = edges[i].opening;
        hold(&seal);
        hold(&open);
    }
}

/* Sealing and opening leave what the one-block calls leave, wherever the bytes stand. */
static void hold_one_by_one(uint32_t n, uint32_t place) {
    TRYING("a run of %" PRIu32 " blocks", n);
    make(n, place, n);
    call seal = sealing_of(SIZE * n, n, place), open = opening_of(sealed, SIZE * n, n, place, NONE);
    if (seal.number != 0 || open.number != 0) DIFFERS("it is not a good one");
    hold(&seal);
    hold(&open);
    hold_at(&seal, (position)5);
    hold_at(&open, (position)5);
}

/* Whole blocks, a byte less and a byte more, with lists that fit and that have a number less or more. */
static void hold_lengths(void) {
    make(MOST, 0, 2);
    for (size_t length = 0; length <= ROOM; length += length % SIZE == 1 ? SIZE - 2 : 1) {
        TRYING("each length of a run");
        size_t n = length / SIZE;
        for (size_t count = n > 0 ? n - 1 : 0; count <= n + 1 && count <= BLOCKS; count++) {
            call seal = sealing_of(length, count, 0), open = opening_of(sealed, length, count, 0, NONE);
            hold(&seal);
            hold(&open);
        }
    }
}

/* A count that is above the numbers that are there, as a count of their bytes is. Each of them is good, so that nothing
   but the run's length tells where to stop: of the list that ends at a page's end, a read past it is a fault. */
static void hold_more(uint32_t n, size_t more) {
    TRYING("a list of %" PRIu32 " under a count of %zu", n, n + more);
    make(n, 9, 8);
    call seal = sealing_of(SIZE * n, n, 9), open = opening_of(sealed, SIZE * n, n, 9, NONE);
    seal.more = open.more = more;
    seal.number = open.number = 11;
    seal.after = before;
    open.after = sealed;
    open.list_after = open.list.bytes;
    hold(&seal);
    hold(&open);
}

/* A number over 496, in each place of the list in turn, is refused in sealing, and has no effect in opening. */
static void hold_numbers(uint32_t n) {
    static const uint16_t over[] = {497, 512, 32768, 65535};
    make(n, 7, 3);
    for (uint32_t i = 0; i < n * COUNT(over); i++) {
        uint32_t at = i / COUNT(over);
        TRYING("the number %d of %" PRIu32 " in a list of %" PRIu32, over[i % COUNT(over)], at, n);
        uint16_t kept = lengths[at];
        lengths[at] = over[i % COUNT(over)];
        call seal = sealing_of(SIZE * n, n, 7);
        if (seal.number != 5) DIFFERS("it is no refusal");
        hold(&seal);
        lengths[at] = kept;
    }
}

/* What becomes of a block of the run: it is left as it is, damaged, or overwritten with zeros. */
enum { LEFT, DAMAGED, ZEROS, WAYS };

static uint8_t run[ROOM];

static void overwrite(uint32_t i, uint32_t way) {
    uint8_t *block = run + SIZE * i;
    if (way == DAMAGED) block[37 * i % SIZE] ^= 0x10;
    if (way == ZEROS) memset(block, 0, SIZE);
}

/* One block damaged, or of zeros, in each place of the run in turn. */
static void hold_damaged(uint32_t n, uint32_t place) {
    make(n, place, 4);
    for (uint32_t i = 0; i < 2 * n; i++) {
        uint32_t at = i / 2, way = i % 2 == 0 ? DAMAGED : ZEROS;
        TRYING("block %" PRIu32 " of %" PRIu32 " %s", at, n, way == DAMAGED ? "damaged" : "of zeros");
        memcpy(run, sealed, SIZE * n);
        overwrite(at, way);
        hold_failing(run, n, place, at);
    }
}

/* Each block left, damaged or of zeros, in all ways: the first that is not left is told, with the number for it. */
static void hold_ways(uint32_t n, uint32_t all) {
    make(n, 9, 9);
    for (uint32_t ways = 1; ways < all; ways++) {
        uint32_t failing = n;
        TRYING("way %" PRIu32 " of a run of %" PRIu32, ways, n);
        memcpy(run, sealed, SIZE * n);
        for (uint32_t i = n, rest = ways; i-- > 0; rest /= WAYS) {
            overwrite(i, rest % WAYS);
            if (rest % WAYS != LEFT) failing = i;
        }
        hold_failing(run, n, 9, failing);
    }
}

/* Two blocks damaged or of zeros, and two that have changed places. */
static void hold_two(uint32_t n, uint32_t i, uint32_t j) {
    TRYING("blocks %" PRIu32 " and %" PRIu32 " of %" PRIu32, i, j, n);
    make(n, 258, 5);
    for (uint32_t ways = 0; ways < 4; ways++) {
        memcpy(run, sealed, SIZE * n);
        overwrite(i, ways < 2 ? DAMAGED : ZEROS);
        overwrite(j, ways % 2 == 0 ? DAMAGED : ZEROS);
        hold_failing(run, n, 258, i);
    }
    memcpy(run, sealed, SIZE * n);
    memcpy(run + SIZE * i, sealed + SIZE * j, SIZE);
    memcpy(run + SIZE * j, sealed + SIZE * i, SIZE);
    hold_failing(run, n, 258, i);
}

/* A run of zeros: the first block is told. */
static void hold_zeros(uint32_t n, uint32_t place) {
    TRYING("a run of %" PRIu32 " blocks of zeros", n);
    memset(run, 0, SIZE * n);
    hold_failing(run, n, place, 0);
}

/* The blocks of a run for another key, pack or place: the first one fails. */
static void hold_others(void) {
    uint8_t other[32];
    TRYING("a run of another key, pack or place");
    make(3, 100, 6);
    memcpy(other, key.bytes, key.length);
    other[key.length - 1] ^= 1;
    call c = opening_of(sealed, 3 * SIZE, 3, 100, 0);
    c.key.bytes = other;
    hold(&c);
    c.key = key;
    c.pack = pack ^ (uint64_t)1 << 63;
    hold(&c);
    hold_failing(sealed, 3, 99, 0);
    hold_failing(sealed, 3, 101, 0);
}

/* "If a run opens, and still opens after one block's bytes are changed, that change does not alter what the others open
   to." */
static void hold_changed(uint32_t n) {
    make(n, 11, 7);
    for (uint32_t i = 0; i < n; i++) {
        TRYING("another block %" PRIu32 " of %" PRIu32, i, n);
        fill(before + SIZE * i, SIZE, 100 + i);
        lengths[i] = 200;
        make_block(i, 11 + i);
        call c = opening_of(sealed, SIZE * n, n, 11, NONE);
        hold(&c);
    }
}

static void hold_runs(slice k) {
    static const uint32_t counts[] = {1, 2, 3, 40, MOST - 1, MOST}, lists[] = {1, 2, 40, MOST};
    static const uint32_t pairs[][3] = {{2, 0, 1}, {3, 0, 2}, {3, 1, 2}, {40, 5, 20}, {40, 38, 39}, {MOST, 0, 127}};
    key = k;
    hold_edges();
    for (uint32_t n = 1, all = WAYS; n <= 4; n++, all *= WAYS) hold_ways(n, all);
    hold_lengths();
    for (size_t i = 0; i < COUNT(lists); i++) {
        hold_more(lists[i], 1);
        hold_more(lists[i], lists[i]);
    }
    for (size_t i = 0; i < COUNT(counts); i++) {
        hold_one_by_one(counts[i], 0);
        hold_one_by_one(counts[i], 1000);
        hold_one_by_one(counts[i], 65536 - counts[i]);
        hold_damaged(counts[i], 65536 - counts[i]);
        hold_zeros(counts[i], 65536 - counts[i]);
    }
    for (size_t i = 0; i < COUNT(pairs); i++) hold_two(pairs[i][0], pairs[i][1], pairs[i][2]);
    hold_numbers(1);
    hold_numbers(40);
    hold_others();
    hold_changed(5);
}

void runs(void) {
    fill((uint8_t *)any_numbers, sizeof any_numbers, 2);
    under_each_key(hold_runs);
    printf("%lu calls\n", calls);
}
