#include "table.h"

const size_t key_lengths[KEYS] = {16, 32};

int is_key(size_t length) { return length == key_lengths[0] || length == key_lengths[1]; }

const size_t least_data[SCHEMES] = {[HCH] = 16, [FORWARD] = 33};

const uint32_t looks[FUNCTIONS][LOOKS] = {
    {1, 2, 3, 4},  {1, 2, 3, 4},      {1, 7, 5, 6},          {1, 7, 6, 8, 12},
    {1, 2, 13, 4}, {1, 2, 13, 4},     {1, 7, 5, 6},          {1, 7, 6, 8, 12},
    {10, 6},       {1, 10, 11, 5, 6}, {1, 10, 11, 6, 8, 12},
};

int can_meet(uint32_t a, uint32_t b) {
    if (a > b) return can_meet(b, a);
    return a != 0 && !(a == 3 && b == 4) && !(a == 4 && b == 13) && !(a == 8 && b == 12);
}

int says_failed(uint32_t number) { return number == 8 || number == 12; }

int all_zero(const uint8_t *bytes, size_t length) {
    size_t i = 0;
    while (i < length && bytes[i] == 0) i++;
    return i == length;
}

/* "payload over 496 bytes"; of a run, any of them. */
static int payload_too_long(const call *c) {
    const uint16_t *lengths = (const uint16_t *)c->list.bytes;
    if (c->name != SEAL_RUN) return c->payload.length > 496;
    for (size_t i = 0; i < c->list.length / 2; i++) {
        if (lengths[i] > 496) return 1;
    }
    return 0;
}

/* "place over 65,535"; in finding "a place at or past n", and "number 6 is for a last place over 65,535" in a run. */
static int place_too_high(const call *c) {
    uint64_t n = c->data.length / 512, place = c->place;
    if (c->name == FIND) return place >= n;
    return place + (c->name == SEAL_RUN || c->name == OPEN_RUN ? n : 1) > 65536;
}

/* "All 512 lent bytes are zero", of the block that fails; where fewer are lent, these. */
static int is_blank(const call *c) {
    size_t at = c->name == OPEN_RUN ? 512 * (size_t)(c->failed_place - c->place) : 0, length = c->data.length - at;
    return all_zero(c->data.bytes + at, length < 512 ? length : 512);
}

int applies(uint32_t number, const call *c, int failing) {
    switch (number) {
    case 1: return !is_key(c->key.length);
    case 2: return c->tweak.length != 16;
    case 3: return c->data.length < 16;
    case 4: return c->data.length > 4096;
    case 5: return payload_too_long(c);
    case 6: return place_too_high(c);
    case 7: return c->data.length != 512;
    case 8: return failing && !is_blank(c);
    case 10: return c->data.length < 512 || c->data.length > 128 * 512 || c->data.length % 512 != 0;
    case 11: return c->list.length / 2 + c->more != c->data.length / 512;
    case 12: return failing && is_blank(c);
    case 13: return c->data.length < 33;
    default: return 0;
    }
}

uint32_t first(const call *c, int failing) {
    for (int i = 0; i < LOOKS; i++) {
        if (applies(looks[c->name][i], c, failing)) return looks[c->name][i];
    }
    return 0;
}
