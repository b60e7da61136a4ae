/* Eight threads at once, each on bytes of its own and on its own block of one pack, leave what one thread leaves that
   did the same work before. Each has the smallest stack that the system allows, so that it is seen that a call needs
   little. */
#define _POSIX_C_SOURCE 200809L
#include "call.h"
#include "groups.h"
#include "report.h"
#include "table.h"
#include <boards.h>
#include <limits.h>
#include <pthread.h>
#include <string.h>

enum { THREADS = 8, ROUNDS = 100, BOARD = 4096, SIZE = 512, RUN = 3 * SIZE, SIGNALS = 65536 };

/* The calls of a round: these by each scheme, and three with a run. */
enum { BY_A_SCHEME = 8, WITH_A_RUN = 3, CALLS = SCHEMES * BY_A_SCHEME + WITH_A_RUN };

/* What they answer. */
static const uint32_t numbers[BY_A_SCHEME] = {0, 0, 0, 0, 8, 1, 0, 0}, run_numbers[WITH_A_RUN] = {0, 8, 0};

typedef struct {
    uint32_t numbers[BY_A_SCHEME];
    uint8_t enciphered[BOARD], deciphered[BOARD], sealed[SIZE], opened[SIZE], part[SIZE];
} scheme_result;

typedef struct {
    scheme_result by[SCHEMES];
    uint32_t run_numbers[WITH_A_RUN];
    uint8_t run[RUN];
    uint16_t lengths[3];
    uint32_t failed;
} result;

static uint8_t shared[THREADS * SIZE]; /* a pack, in which each thread has the place of its seed */

typedef struct {
    uint32_t seed;
    pthread_barrier_t *start; /* NULL for the thread that works alone */
    uint8_t *signals;         /* a stack for them */
    uint32_t round_seed, place; /* of the round, as is the rest but for the results */
    uint64_t pack;
    size_t k;                   /* the key's length */
    uint8_t key[32], tweak[16], payload[SIZE];
    result results[ROUNDS];
} work;

/* A run that is sealed, opened as that of another pack, which it is not, and opened. */
static void do_run(const work *w, result *r) {
    fill(r->run, RUN, w->seed);
    for (uint32_t i = 0; i < 3; i++) r->lengths[i] = (uint16_t)((w->place + 53 * i) % 497);
    r->run_numbers[0] = boards.seal_run(w->key, w->k, w->pack, w->place, r->lengths, 3, r->run, RUN);
    r->run_numbers[1] = boards.open_run(w->key, w->k, w->pack + 1, w->place, r->lengths, 3, r->run, RUN, &r->failed);
    memset(r->lengths, 0, sizeof r->lengths);
    r->run_numbers[2] = boards.open_run(w->key, w->k, w->pack, w->place, r->lengths, 3, r->run, RUN, &r->failed);
}

/* By one scheme, two boards, two blocks, two refusals, and a block found in the pack and sealed there. */
static void do_scheme(scheme s, const work *w, scheme_result *r) {
    const scheme_functions *its = &boards.by[s];
    size_t least = least_data[s], length = least + w->round_seed * 977 % (BOARD + 1 - least);
    size_t used = w->round_seed * 53 % 497;
    fill(r->enciphered, BOARD, w->round_seed + 3);
    fill(r->deciphered, BOARD, w->round_seed + 4);
    r->numbers[0] = its->encipher(w->key, w->k, w->tweak, 16, r->enciphered, length);
    r->numbers[1] = its->decipher(w->key, w->k, w->tweak, 16, r->deciphered, length);
    r->numbers[2] = its->seal(w->key, w->k, w->payload, used, w->pack, w->place, r->sealed, SIZE);
    memcpy(r->opened, r->sealed, SIZE);
    r->numbers[3] = its->open(w->key, w->k, w->pack, w->place, r->opened, SIZE);
    r->numbers[4] = its->open(w->key, w->k, w->pack + 1, w->place, r->sealed, SIZE);
    r->numbers[5] = its->encipher(w->key, w->k - 1, w->tweak, 16, r->enciphered, length);
    r->numbers[6] = boards.find(shared, sizeof shared, w->seed);
    uint8_t *part = boards_part(shared, w->seed);
    r->numbers[7] = its->seal(w->key, w->k, w->payload, used, w->pack, w->seed, part, SIZE);
    memcpy(r->part, part, SIZE);
}

/* The key has the other length in the next round and in the next thread. */
static void do_round(work *w, uint32_t round) {
    result *r = &w->results[round];
    uint32_t seed = w->seed * ROUNDS + round;
    w->round_seed = seed;
    w->place = seed * 7 % 65534;
    w->pack = (uint64_t)seed << 40 | seed;
    w->k = key_lengths[(w->seed + round) % KEYS];
    fill(w->key, sizeof w->key, seed);
    fill(w->tweak, sizeof w->tweak, seed + 1);
    fill(w->payload, sizeof w->payload, seed + 2);
    for (scheme s = HCH; s < SCHEMES; s++) do_scheme(s, w, &r->by[s]);
    do_run(w, r);
}

static void *do_work(void *given) {
    work *w = given;
    if (w->start != NULL) {
        report_on(w->signals, SIGNALS);
        pthread_barrier_wait(w->start);
    }
    for (uint32_t round = 0; round < ROUNDS; round++) do_round(w, round);
    return NULL;
}

static work *new_work(uint32_t seed, pthread_barrier_t *start) {
    work *w = calloc(1, sizeof *w);
    uint8_t *signals = malloc(SIGNALS);
    if (w == NULL || signals == NULL) DIFFERS("no memory");
    w->seed = seed;
    w->start = start;
    w->signals = signals;
    return w;
}

static int answers_right(const result *r) {
    for (int s = 0; s < SCHEMES; s++) {
        if (memcmp(r->by[s].numbers, numbers, sizeof numbers) != 0) return 0;
    }
    return memcmp(r->run_numbers, run_numbers, sizeof run_numbers) == 0;
}

static void compare(const work *alone, const work *together) {
    for (int round = 0; round < ROUNDS; round++) {
        const result *one = &alone->results[round], *other = &together->results[round];
        if (!answers_right(one)) DIFFERS("round %d, alone: other answers", round);
        if (!answers_right(other)) DIFFERS("round %d, together: other answers", round);
        if (memcmp(one, other, sizeof *one) != 0) DIFFERS("round %d, together: other bytes", round);
    }
}

static void work_together(work *together[THREADS], pthread_attr_t *attributes) {
    pthread_t ids[THREADS];
    for (int i = 0; i < THREADS; i++) {
        if (pthread_create(&ids[i], attributes, do_work, together[i]) != 0) DIFFERS("no thread %d", i);
    }
    for (int i = 0; i < THREADS; i++) {
        if (pthread_join(ids[i], NULL) != 0) DIFFERS("thread %d cannot be joined", i);
    }
}

void threads(void) {
    static work *alone[THREADS], *together[THREADS];
    pthread_barrier_t start;
    pthread_attr_t attributes;
    TRYING("eight threads");
    int failed = pthread_barrier_init(&start, NULL, THREADS) || pthread_attr_init(&attributes) ||
                 pthread_attr_setstacksize(&attributes, PTHREAD_STACK_MIN);
    if (failed) DIFFERS("no threads with a small stack");
    for (uint32_t i = 0; i < THREADS; i++) {
        alone[i] = new_work(i, NULL);
        together[i] = new_work(i, &start);
        do_work(alone[i]);
    }
    work_together(together, &attributes);
    for (int i = 0; i < THREADS; i++) {
        TRYING("thread %d of eight", i);
        compare(alone[i], together[i]);
    }
    printf("%d calls in each thread, on a stack of %ld bytes\n", CALLS * ROUNDS, (long)PTHREAD_STACK_MIN);
}
