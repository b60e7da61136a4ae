/* How much stack a call takes, which the header tells: each good call is made in a thread, on a stack that was filled
   with one byte before, and the deepest byte that is another one then was used. */
#define _DEFAULT_SOURCE
#include "good.h"
#include "groups.h"
#include "report.h"
#include <pthread.h>
#include <string.h>
#include <sys/mman.h>

enum { ROOM = 1 << 17, UNUSED = 0xa5, TOLD = 6 * 1024, NEAR = 512 };

static uint8_t *room;
static size_t deepest;

/* Where the stack of the thread stands when it makes the call: what is below is the call's. */
static const volatile uint8_t *before;

static void *make_call(void *given) {
    volatile uint8_t here = 0;
    before = &here;
    answer(given);
    return NULL;
}

static size_t depth_of(call *c, pthread_attr_t *attributes) {
    pthread_t thread;
    size_t unused = 0;
    memset(room, UNUSED, ROOM);
    if (pthread_create(&thread, attributes, make_call, c) != 0) DIFFERS("no thread");
    if (pthread_join(thread, NULL) != 0) DIFFERS("the thread cannot be joined");
    while (room[unused] == UNUSED) unused++;
    return (size_t)(before - (room + unused));
}

/* Every function was called once when the good calls were made, so that no depth is that of a program's loader. */
static void measure(slice key) {
    pthread_attr_t attributes;
    call good[FUNCTIONS];
    if (pthread_attr_init(&attributes) || pthread_attr_setstack(&attributes, room, ROOM)) DIFFERS("no stack");
    for (int f = 0; f < FUNCTIONS; f++) {
        TRYING("the stack of %s under a key of %zu", function_names[f], key.length);
        make_good(good, key);
        answer(&good[f]);
        make_good(good, key);
        size_t depth = depth_of(&good[f], &attributes);
        if (depth > deepest) deepest = depth;
        if (depth > TOLD + NEAR) DIFFERS("%zu bytes, where the header tells of some %d", depth, TOLD);
    }
}

void stack(void) {
    room = mmap(NULL, ROOM, PROT_READ | PROT_WRITE, MAP_PRIVATE | MAP_ANONYMOUS, -1, 0);
    if (room == MAP_FAILED) DIFFERS("no memory");
    under_each_key(measure);
    printf("a call takes up to %zu bytes\n", deepest);
}
