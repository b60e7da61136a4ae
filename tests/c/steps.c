#include "steps.h"
#include "aes.h"
#include "element.h"

const char *const step_names[STEPS] = {
    [ALL_RIGHT] = "does nothing wrong",
    [TWEAK_FOR_GAMMA] = "takes the tweak itself for gamma",
    [NO_LENGTH] = "leaves the length out of beta 1",
    [LENGTH_IN_BYTES] = "takes the length in bytes",
    [BETA_1_FOR_BETA_2] = "takes beta 1 for beta 2",
    [TAU_FOR_TAU_PRIME] = "takes tau for tau'",
    [X_FOR_X_SQUARED] = "makes tau' of x times beta 1",
    [POWERS_OFF_BY_ONE] = "has the powers of tau off by one",
    [FIRST_BLOCK_HASHED_ALONE] = "adds the hash to the first block alone",
    [NO_LAST_ROUND] = "leaves out the Feistel's last round",
    [M_WITHOUT_B] = "leaves the Feistel's output out of M",
    [COUNTED_FROM_X] = "counts from x times beta 1 on",
    [COUNTED_BY_ONE] = "adds a number to beta 1 in the place of multiplying it",
    [HASHED_BEFORE_THE_CUT] = "hashes the last block before it is cut",
    [BETAS_NOT_EXCHANGED] = "does not exchange beta 1 and beta 2",
    [BLOCKS_NOT_SWAPPED] = "does not swap the Feistel's blocks",
    [COUNTED_WITH_BETA_2] = "counts with beta 2",
};

/* What is made of the key, the tweak and the length. */
typedef struct {
    step wrong;
    aes_key key;
    element beta_1, beta_2, tau, tau_prime;
} keys;

static element encipher(const keys *k, element a) {
    uint8_t block[16];
    store(block, a);
    plain_aes_encipher(&k->key, block);
    return load(block);
}

static element product(element a, element b) {
    element sum = {0, 0};
    for (int i = 127; i >= 0; i--) {
        uint64_t half = i < 64 ? b.low : b.high;
        sum = times_x(sum);
        if (half >> i % 64 & 1) sum = add(sum, a);
    }
    return sum;
}

static void make_keys(keys *k, element tweak, uint64_t length) {
    element gamma = k->wrong == TWEAK_FOR_GAMMA ? tweak : encipher(k, tweak);
    element bits = {0, k->wrong == NO_LENGTH ? 0 : k->wrong == LENGTH_IN_BYTES ? length : 8 * length};
    k->beta_1 = encipher(k, add(gamma, bits));
    element x = times_x(k->beta_1);
    k->beta_2 = k->wrong == BETA_1_FOR_BETA_2 ? k->beta_1 : x;
    k->tau = gamma;
    k->tau_prime = encipher(k, k->wrong == X_FOR_X_SQUARED ? x : times_x(x));
    if (k->wrong == TAU_FOR_TAU_PRIME) k->tau_prime = gamma;
}

/* The blocks from the third on, with tau, and a beta. */
static element hash(const keys *k, element beta, const uint8_t *rest, size_t length) {
    element sum = {0, 0};
    for (size_t i = 0; i < length; i += 16) {
        element block = load(rest + i);
        sum = k->wrong == POWERS_OFF_BY_ONE ? add(product(sum, k->tau), block) : product(add(sum, block), k->tau);
    }
    return add(beta, sum);
}

/* Two blocks in the place of two others. */
static void feistel(const keys *k, element *first, element *second) {
    element f_1 = add(product(*first, k->tau_prime), *second), f_2 = add(*first, encipher(k, f_1));
    *second = add(f_1, encipher(k, f_2));
    *first = k->wrong == NO_LAST_ROUND ? f_2 : add(f_2, product(*second, k->tau_prime));
}

static void counter(const keys *k, int backwards, element m, uint8_t *rest, size_t length) {
    element mask = backwards && k->wrong == COUNTED_WITH_BETA_2 ? k->beta_2 : k->beta_1;
    if (k->wrong == COUNTED_FROM_X) mask = times_x(mask);
    for (size_t i = 0; i < length; i += 16) {
        element count = {0, i / 16};
        element in = add(m, k->wrong == COUNTED_BY_ONE ? add(k->beta_1, count) : mask);
        store(rest + i, add(load(rest + i), encipher(k, in)));
        mask = times_x(mask);
    }
}

void forward_with(step wrong, int backwards, slice key, const uint8_t tweak[16], uint8_t *data, size_t length) {
    uint8_t rest[4096] = {0}; /* the third block and those behind it, padded */
    size_t n = length - 32, padded = (n + 15) / 16 * 16;
    int exchanged = backwards && wrong != BETAS_NOT_EXCHANGED, swapped = backwards && wrong != BLOCKS_NOT_SWAPPED;
    keys k = {.wrong = wrong};
    plain_aes_expand(&k.key, key.bytes, key.length);
    make_keys(&k, load(tweak), length);
    memcpy(rest, data + 32, n);

    element before = hash(&k, exchanged ? k.beta_2 : k.beta_1, rest, padded);
    element one = add(load(data), before);
    element two = add(load(data + 16), wrong == FIRST_BLOCK_HASHED_ALONE ? k.beta_1 : before);
    element m = add(one, two);
    feistel(&k, swapped ? &two : &one, swapped ? &one : &two);
    if (wrong != M_WITHOUT_B) m = add(m, add(one, two));
    counter(&k, backwards, m, rest, padded);
    if (wrong != HASHED_BEFORE_THE_CUT) memset(rest + n, 0, padded - n);

    element after = hash(&k, exchanged ? k.beta_1 : k.beta_2, rest, padded);
    store(data, add(one, after));
    store(data + 16, add(two, wrong == FIRST_BLOCK_HASHED_ALONE ? k.beta_2 : after));
    memcpy(data + 32, rest, n);
}
