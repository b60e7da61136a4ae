#include "call.h"
#include "report.h"
#include "table.h"
#include <boards.h>
#include <errno.h>
#include <inttypes.h>
#include <string.h>

/* Bytes, as no case has more in one slice, or in a pack or a run; and a value for errno. */
enum { ROOM = 8192, PACK_ROOM = 130 * 512 + 1, UNTOUCHED = 12345 };

const char *const function_names[FUNCTIONS] = {
    "encipher", "decipher", "seal", "open",
    "forward_encipher", "forward_decipher", "forward_seal", "forward_open",
    "find", "seal_run", "open_run",
};

enum { OF_A_SCHEME = FIND / SCHEMES }; /* so many functions each */

function kind_of(function name) { return name < FIND ? (function)(name % OF_A_SCHEME) : name; }

scheme scheme_of(function name) { return name < FIND ? (scheme)(name / OF_A_SCHEME) : HCH; }

function by(scheme s, function kind) { return (function)((int)s * OF_A_SCHEME + (int)kind); }

unsigned long calls;

static lent key, tweak, payload, list, data, pack, run, failed;

/* The slices that a function of this kind reads and may not write. */
static lent *const read_slices[FUNCTIONS][3] = {
    [ENCIPHER] = {&key, &tweak}, [DECIPHER] = {&key, &tweak}, [SEAL] = {&key, &payload}, [OPEN] = {&key},
    [SEAL_RUN] = {&key, &list},  [OPEN_RUN] = {&key},
};

static lent *const *read_by(const call *c) { return read_slices[kind_of(c->name)]; }

static slice given(const call *c, const lent *l) {
    return l == &key ? c->key : l == &tweak ? c->tweak : l == &list ? c->list : c->payload;
}

static void make_rooms(void) {
    if (key.room != NULL) return;
    lent_map(&key, "key", ROOM);
    lent_map(&tweak, "tweak", ROOM);
    lent_map(&payload, "payload", ROOM);
    lent_map(&data, "data", ROOM);
    lent_map(&pack, "pack", PACK_ROOM);
    lent_map(&run, "run", PACK_ROOM);
    lent_map(&list, "list", ROOM);
    lent_map(&failed, "place that failed", sizeof(uint32_t));
}

/* Where the function's data stands. */
static lent *data_room(function name) {
    return name == FIND ? &pack : name == SEAL_RUN || name == OPEN_RUN ? &run : &data;
}

/* The same position for numbers of that many bytes, which have to be aligned. */
static position aligned(position where, int size) {
    return where < END ? (position)((int)where / size * size) : where;
}

uint32_t answer(const call *c) {
    calls++;
    return answer_of(&boards, c);
}

uint32_t answer_of(const library *l, const call *c) {
    const slice *k = &c->key, *t = &c->tweak, *p = &c->payload;
    uint8_t *d = (uint8_t *)c->data.bytes; /* the one slice that is written, but by FIND */
    uint16_t *numbers = (uint16_t *)c->list.bytes; /* and OPEN_RUN writes these */
    size_t length = c->data.length, count = c->list.length / sizeof *numbers + c->more;
    const scheme_functions *its = &l->by[scheme_of(c->name)];
    switch (kind_of(c->name)) {
    case ENCIPHER: return its->encipher(k->bytes, k->length, t->bytes, t->length, d, length);
    case DECIPHER: return its->decipher(k->bytes, k->length, t->bytes, t->length, d, length);
    case SEAL: return its->seal(k->bytes, k->length, p->bytes, p->length, c->pack, c->place, d, length);
    case OPEN: return its->open(k->bytes, k->length, c->pack, c->place, d, length);
    case FIND: return l->find(d, length, c->place);
    case SEAL_RUN: return l->seal_run(k->bytes, k->length, c->pack, c->place, numbers, count, d, length);
    default: return l->open_run(k->bytes, k->length, c->pack, c->place, numbers, count, d, length, c->failed);
    }
}

/* The same on the copies that stand in the rooms. */
static uint32_t answer_lent(call c) {
    c.key.bytes = key.bytes;
    c.tweak.bytes = tweak.bytes;
    c.payload.bytes = payload.bytes;
    c.list.bytes = list.bytes;
    c.failed = (uint32_t *)failed.bytes;
    c.data.bytes = data_room(c.name)->bytes;
    return answer(&c);
}

static void describe(const call *c, position where) {
    const char *name = function_names[c->name], *how = position_name(where);
    size_t k = c->key.length, d = c->data.length;
    function kind = kind_of(c->name);
    if (kind == SEAL) {
        snprintf(called, sizeof called,
                 "%s(key of %zu, payload of %zu, pack %" PRIu64 ", place %" PRIu32 ", block of %zu), %s", name, k,
                 c->payload.length, c->pack, c->place, d, how);
    } else if (kind == OPEN) {
        snprintf(called, sizeof called, "%s(key of %zu, pack %" PRIu64 ", place %" PRIu32 ", block of %zu), %s", name,
                 k, c->pack, c->place, d, how);
    } else if (kind == FIND) {
        snprintf(called, sizeof called, "%s(pack of %zu, place %" PRIu32 "), %s", name, d, c->place, how);
    } else if (kind == SEAL_RUN || kind == OPEN_RUN) {
        snprintf(called, sizeof called,
                 "%s(key of %zu, pack %" PRIu64 ", first place %" PRIu32 ", list of %zu, run of %zu), %s", name, k,
                 c->pack, c->place, c->list.length / 2 + c->more, d, how);
    } else {
        snprintf(called, sizeof called, "%s(key of %zu, tweak of %zu, data of %zu), %s", name, k, c->tweak.length, d,
                 how);
    }
}

/* The part that was found is where boards_part has it. */
static void hold_part(const call *c) {
    const slice *part = &c->payload;
    if (part->length == 0) return;
    if (memcmp(boards_const_part(pack.bytes, c->place), part->bytes, part->length) != 0) {
        DIFFERS("the part has other bytes");
    }
}

/* What *failed is before the call, and where nothing is written to it. */
static const uint32_t no_place = 0xdeadbeef;

/* All that the function may touch. */
static void lend(const call *c, position where) {
    lent *const *read_only = read_by(c);
    for (int i = 0; read_only[i] != NULL; i++) {
        slice s = given(c, read_only[i]);
        lent_put(read_only[i], s.bytes, s.length, read_only[i] == &list ? aligned(where, 2) : where);
        lent_read_only(read_only[i]);
    }
    lent *room = data_room(c->name);
    lent_put(room, c->data.bytes, c->data.length, where);
    if (c->name == FIND) lent_forbid(room);
    if (c->name != OPEN_RUN) return;
    lent_put(&list, c->list.bytes, c->list.length, aligned(where, 2));
    lent_put(&failed, (const uint8_t *)&no_place, sizeof no_place, aligned(where, 4));
}

/* What OPEN_RUN writes beside the run. */
static void hold_written(const call *c) {
    uint32_t place = says_failed(c->number) ? c->failed_place : no_place, left;
    memcpy(&left, failed.bytes, sizeof left);
    if (left != place) DIFFERS("*failed is %" PRIu32 " in the place of %" PRIu32, left, place);
    lent_check(&failed, (const uint8_t *)&place);
    lent_check(&list, c->list_after);
}

void hold_at(const call *c, position where) {
    make_rooms();
    describe(c, where);
    lend(c, where);
    lent *const *read_only = read_by(c);

    errno = UNTOUCHED;
    uint32_t number = answer_lent(*c);
    if (errno != UNTOUCHED) DIFFERS("sets errno to %d", errno);
    if (number != c->number) DIFFERS("answers %" PRIu32 " in the place of %" PRIu32, number, c->number);
    lent_check(data_room(c->name), c->after);
    if (c->name == OPEN_RUN) hold_written(c);
    for (int i = 0; read_only[i] != NULL; i++) lent_check(read_only[i], given(c, read_only[i]).bytes);
    if (kind_of(c->name) == OPEN && number == 0 && boards_payload_length(data.bytes) != c->payload_length) {
        DIFFERS("boards_payload_length is %zu in the place of %zu", boards_payload_length(data.bytes),
                c->payload_length);
    }
    if (c->name == FIND && number == 0) hold_part(c);
    called[0] = 0;
}

static int something_empty(const call *c) {
    lent *const *read_only = read_by(c);
    for (int i = 0; read_only[i] != NULL; i++) {
        if (given(c, read_only[i]).length == 0) return 1;
    }
    return c->data.length == 0 || (c->name == OPEN_RUN && c->list.length == 0);
}

void hold(const call *c) {
    hold_at(c, FRONT);
    hold_at(c, END);
    if (!something_empty(c)) return;
    hold_at(c, NOWHERE);
    hold_at(c, FORBIDDEN);
    hold_at(c, NO_ADDRESS);
}

void fill(uint8_t *bytes, size_t length, uint32_t seed) {
    uint32_t state = seed * 2654435769u + 1;
    for (size_t i = 0; i < length; i++) {
        state ^= state << 13;
        state ^= state >> 17;
        state ^= state << 5;
        bytes[i] = (uint8_t)(state >> 11);
    }
}

slice key_of(size_t length) {
    static uint8_t bytes[LONGEST_KEY];
    fill(bytes, LONGEST_KEY, 1);
    return (slice){bytes, length};
}

void under_each_key(void (*work)(slice key)) {
    for (int i = 0; i < KEYS; i++) work(key_of(key_lengths[i]));
}

void by_each_scheme(void (*work)(scheme s, slice key)) {
    for (int i = 0; i < SCHEMES * KEYS; i++) work((scheme)(i % SCHEMES), key_of(key_lengths[i / SCHEMES]));
}
