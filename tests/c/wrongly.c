/* One wrong function for each of the library's, which hands the call that is made to it to `wrongly`. */
#include "wrong.h"

uint32_t (*wrongly)(call *c);

#define DATA_FUNCTION(f, NAME) \
    static uint32_t f(const uint8_t *key, size_t k, const uint8_t *tweak, size_t t, uint8_t *data, size_t n) { \
        return wrongly(&(call){.name = NAME, .key = {key, k}, .tweak = {tweak, t}, .data = {data, n}}); \
    }

#define SEAL_FUNCTION(f, NAME) \
    static uint32_t f(const uint8_t *key, size_t k, const uint8_t *payload, size_t u, uint64_t pack, uint32_t place, \
                      uint8_t *block, size_t n) { \
        call c = {.name = NAME, .key = {key, k}, .payload = {payload, u}, .data = {block, n}, .pack = pack}; \
        c.place = place; \
        return wrongly(&c); \
    }

#define OPEN_FUNCTION(f, NAME) \
    static uint32_t f(const uint8_t *key, size_t k, uint64_t pack, uint32_t place, uint8_t *block, size_t n) { \
        return wrongly(&(call){.name = NAME, .key = {key, k}, .data = {block, n}, .pack = pack, .place = place}); \
    }

DATA_FUNCTION(encipher, ENCIPHER)
DATA_FUNCTION(decipher, DECIPHER)
SEAL_FUNCTION(seal, SEAL)
OPEN_FUNCTION(open, OPEN)
DATA_FUNCTION(forward_encipher, FORWARD_ENCIPHER)
DATA_FUNCTION(forward_decipher, FORWARD_DECIPHER)
SEAL_FUNCTION(forward_seal, FORWARD_SEAL)
OPEN_FUNCTION(forward_open, FORWARD_OPEN)

static uint32_t find(const uint8_t *pack, size_t n, uint32_t place) {
    return wrongly(&(call){.name = FIND, .data = {pack, n}, .place = place});
}

static uint32_t seal_run(const uint8_t *key, size_t k, uint64_t pack, uint32_t place, const uint16_t *lengths,
                         size_t count, uint8_t *run, size_t n) {
    call c = {.name = SEAL_RUN, .key = {key, k}, .data = {run, n}, .pack = pack, .place = place};
    c.list = (slice){(const uint8_t *)lengths, 2 * count};
    return wrongly(&c);
}

static uint32_t open_run(const uint8_t *key, size_t k, uint64_t pack, uint32_t place, uint16_t *lengths, size_t count,
                         uint8_t *run, size_t n, uint32_t *failed) {
    call c = {.name = OPEN_RUN, .key = {key, k}, .data = {run, n}, .pack = pack, .place = place, .failed = failed};
    c.list = (slice){(const uint8_t *)lengths, 2 * count};
    return wrongly(&c);
}

const library wrong_in[FUNCTIONS] = {
    [ENCIPHER] = {.by[HCH].encipher = encipher},
    [DECIPHER] = {.by[HCH].decipher = decipher},
    [SEAL] = {.by[HCH].seal = seal},
    [OPEN] = {.by[HCH].open = open},
    [FORWARD_ENCIPHER] = {.by[FORWARD].encipher = forward_encipher},
    [FORWARD_DECIPHER] = {.by[FORWARD].decipher = forward_decipher},
    [FORWARD_SEAL] = {.by[FORWARD].seal = forward_seal},
    [FORWARD_OPEN] = {.by[FORWARD].open = forward_open},
    [FIND] = {.find = find},
    [SEAL_RUN] = {.seal_run = seal_run},
    [OPEN_RUN] = {.open_run = open_run},
};

const library wrong_in_all = {
    .by[HCH] = {encipher, decipher, seal, open},
    .by[FORWARD] = {forward_encipher, forward_decipher, forward_seal, forward_open},
    .seal_run = seal_run,
    .open_run = open_run,
};
