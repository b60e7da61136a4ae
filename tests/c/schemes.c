/* The schemes beside each other: boards of all lengths about their edges, enciphered and deciphered by each, and that
   no scheme deciphers what another enciphered, or opens what another sealed. */
#include "call.h"
#include "groups.h"
#include "report.h"
#include "table.h"
#include <inttypes.h>
#include <string.h>

enum { SIZE = 512, MOST_USED = 496 };

/* The edges, written out: the numbers of a board of this length. */
static const struct {
    size_t length;
    uint32_t numbers[SCHEMES];
} edges[] = {
    {0, {3, 13}},  {1, {3, 13}},  {15, {3, 13}}, {16, {0, 13}},   {17, {0, 13}},   {31, {0, 13}},
    {32, {0, 13}}, {33, {0, 0}},  {34, {0, 0}},  {4095, {0, 0}},  {4096, {0, 0}},  {4097, {4, 4}},
};

static uint8_t tweak[16], board[MOST_DATA + 1], left[SCHEMES][MOST_DATA + 1];

static call call_of(function name, slice key, const uint8_t *data, size_t length) {
    return (call){.name = name, .key = key, .tweak = {tweak, sizeof tweak}, .data = {data, length}};
}

static void hold_here_and_there(const call *c) {
    hold(c);
    hold_at(c, (position)(1 + c->data.length % 15));
}

/* The board enciphered, which is left, and deciphered again; or both refused. */
static void hold_length(scheme s, slice key, size_t length, uint32_t number) {
    call forth = call_of(by(s, ENCIPHER), key, left[s], length), back = call_of(by(s, DECIPHER), key, left[s], length);
    TRYING("a board of %zu bytes", length);
    memcpy(left[s], board, length);
    answer(&forth); /* what is answered is seen below */
    forth.data.bytes = board;
    forth.after = number == 0 ? left[s] : board;
    back.after = board;
    forth.number = back.number = number;
    hold_here_and_there(&forth);
    hold_here_and_there(&back);
    if (number == 0 && memcmp(left[s], board, length) == 0) DIFFERS("%s leaves it", function_names[forth.name]);
}

/* What each scheme has left of the board is another string for each, and no other scheme makes the board of it. */
static void hold_apart(slice key, size_t length) {
    uint8_t other[MOST_DATA];
    TRYING("a board of %zu bytes by two schemes", length);
    for (int i = 0; i < SCHEMES * SCHEMES; i++) {
        scheme s = (scheme)(i / SCHEMES), t = (scheme)(i % SCHEMES);
        call back = call_of(by(t, DECIPHER), key, other, length);
        if (s == t) continue;
        if (memcmp(left[s], left[t], length) == 0) DIFFERS("both make the same of it");
        memcpy(other, left[s], length);
        if (answer(&back) != 0 || memcmp(other, board, length) == 0) DIFFERS("one deciphers what the other enciphered");
    }
}

/* A board of a length by each scheme; where each takes it, no two do the same. */
static void hold_schemes(slice key, size_t length) {
    uint32_t refused = 0;
    for (scheme s = HCH; s < SCHEMES; s++) {
        call c = call_of(by(s, ENCIPHER), key, board, length);
        refused |= first(&c, 0);
        hold_length(s, key, length, first(&c, 0));
    }
    if (refused == 0) hold_apart(key, length);
}

static const struct { size_t first, last; } ranges[] = {{0, 66}, {511, 513}, {MOST_DATA - 1, MOST_DATA + 1}};

static void hold_lengths(slice key) {
    fill(tweak, sizeof tweak, 2);
    fill(board, sizeof board, 3);
    for (size_t i = 0; i < COUNT(edges); i++) {
        for (scheme s = HCH; s < SCHEMES; s++) hold_length(s, key, edges[i].length, edges[i].numbers[s]);
    }
    for (size_t i = 0; i < COUNT(ranges); i++) {
        for (size_t length = ranges[i].first; length <= ranges[i].last; length++) hold_schemes(key, length);
    }
}

/* A block that one scheme sealed: no other opens it. */
static void hold_block(scheme s, slice key, size_t used) {
    uint8_t block[SIZE];
    call seal = {.name = by(s, SEAL), .key = key, .payload = {board, used}, .data = {block, SIZE}, .pack = 1};
    TRYING("a payload of %zu bytes", used);
    if (answer(&seal) != 0) DIFFERS("%s does not seal it", function_names[seal.name]);
    for (scheme t = HCH; t < SCHEMES; t++) {
        call open = {.name = by(t, OPEN), .key = key, .data = {block, SIZE}, .pack = 1, .number = 8, .after = block};
        if (t != s) hold(&open);
    }
}

static void hold_blocks(scheme s, slice key) {
    for (size_t used = 0; used <= MOST_USED; used++) hold_block(s, key, used);
}

void schemes(void) {
    under_each_key(hold_lengths);
    by_each_scheme(hold_blocks);
    printf("%lu calls\n", calls);
}
