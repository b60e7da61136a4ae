#define _DEFAULT_SOURCE
#include "lent.h"
#include "report.h"
#include <string.h>
#include <sys/mman.h>
#include <unistd.h>

enum { MOST = 10 };

static lent *rooms[MOST];
static size_t count, page;

const char *position_name(position where) {
    switch (where) {
    case FRONT: return "lent at the front";
    case END: return "lent at the end";
    case NOWHERE: return "what is empty is NULL";
    case FORBIDDEN: return "what is empty is in a forbidden page";
    case NO_ADDRESS: return "what is empty has all bits of its pointer set";
    default: return "lent at an odd address";
    }
}

void lent_map(lent *l, const char *name, size_t most) {
    page = (size_t)sysconf(_SC_PAGESIZE);
    l->name = name;
    l->size = (most + page - 1) / page * page;
    l->image = malloc(l->size);
    uint8_t *start = mmap(NULL, l->size + 2 * page, PROT_NONE, MAP_PRIVATE | MAP_ANONYMOUS, -1, 0);
    if (start == MAP_FAILED || l->image == NULL || count == MOST) DIFFERS("no memory for the %s", name);
    l->room = start + page;
    rooms[count++] = l;
}

static void allow(lent *l, int access) {
    if (mprotect(l->room, l->size, access) != 0) DIFFERS("mprotect failed for the %s", l->name);
}

/* The byte of the room where the bytes start. */
static size_t start_of(const lent *l, size_t length, position where) {
    if (where == END) return l->size - length;
    return where < END ? (size_t)where : 0;
}

void lent_put(lent *l, const uint8_t *bytes, size_t length, position where) {
    size_t start = start_of(l, length, where);
    if (length > l->size - start) DIFFERS("the %s has no room for %zu bytes", l->name, length);
    for (size_t i = 0; i < l->size; i += 256) memset(l->image + i, (int)(0xa5 ^ i >> 8), 256);
    if (length > 0) memcpy(l->image + start, bytes, length);
    allow(l, PROT_READ | PROT_WRITE);
    memcpy(l->room, l->image, l->size);
    l->bytes = l->room + start;
    l->length = length;
    if (length > 0) return;
    if (where == NOWHERE) l->bytes = NULL;
    if (where == FORBIDDEN) l->bytes = l->room + l->size + page / 2;
    if (where == NO_ADDRESS) l->bytes = (uint8_t *)UINTPTR_MAX;
}

void lent_read_only(lent *l) { allow(l, PROT_READ); }

void lent_forbid(lent *l) { allow(l, PROT_NONE); }

void lent_check(lent *l, const uint8_t *bytes) {
    if (l->length > 0) memcpy(l->image + (l->bytes - l->room), bytes, l->length);
    allow(l, PROT_READ);
    if (memcmp(l->room, l->image, l->size) == 0) return;
    size_t at = 0;
    while (l->room[at] == l->image[at]) at++;
    const uint8_t *start = l->length > 0 ? l->bytes : l->room;
    DIFFERS("byte %ld of the %s, which has %zu bytes, is %02x in the place of %02x", (long)(l->room + at - start),
            l->name, l->length, l->room[at], l->image[at]);
}

void lent_describe(const void *address, char *text, size_t size) {
    uintptr_t at = (uintptr_t)address;
    for (size_t i = 0; i < count; i++) {
        const lent *l = rooms[i];
        uintptr_t room = (uintptr_t)l->room;
        if (at < room - page || at >= room + l->size + page) continue;
        snprintf(text, size, ", at byte %ld of the %s, which has %zu bytes", (long)(at - (uintptr_t)l->bytes), l->name,
                 l->length);
        return;
    }
    snprintf(text, size, ", at address %p", address);
}
