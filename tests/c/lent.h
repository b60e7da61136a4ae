/* Bytes that are lent to a call. They stand between two pages that may not be touched, against the first or against the
   second, so that a read or a write past that end is a fault. */
#ifndef LENT_H
#define LENT_H

#include <stddef.h>
#include <stdint.h>

typedef struct {
    const char *name; /* of the argument, for the report */
    uint8_t *room;    /* the bytes between the two pages */
    size_t size;      /* their number, whole pages */
    uint8_t *image;   /* what the room has to hold: the bytes that are lent, and others around them */
    uint8_t *bytes;   /* what is lent */
    size_t length;
} lent;

/* Where in the room the bytes stand. */
typedef enum {
    FRONT,      /* right behind the first page, or, by the numbers from 1 to 15, so many bytes further on */
    END = 16,   /* right before the second page: an empty slice points to the first byte of that page */
    NOWHERE,    /* as FRONT, but for an empty slice, which is NULL */
    FORBIDDEN,  /* as FRONT, but for an empty slice, which points into the second page */
    NO_ADDRESS  /* as FRONT, but for an empty slice, of which all bits of the pointer are set */
} position;

const char *position_name(position where);

/* Makes a room for that many bytes. */
void lent_map(lent *l, const char *name, size_t most);

/* Lends a copy of the bytes, which may be written until lent_read_only. */
void lent_put(lent *l, const uint8_t *bytes, size_t length, position where);

/* The room may only be read from now on, until the next lent_put. */
void lent_read_only(lent *l);

/* The room may not even be read from now on, until the next lent_put or lent_check. */
void lent_forbid(lent *l);

/* The room has to hold these bytes, as many as were lent, and around them what it held: or else it differs. */
void lent_check(lent *l, const uint8_t *bytes);

/* Says which lent byte stands at an address, for the report of a fault. */
void lent_describe(const void *address, char *text, size_t size);

#endif
