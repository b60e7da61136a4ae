/* A call of the library, with the answer and the bytes that have to come of it. */
#ifndef CALL_H
#define CALL_H

#include "lent.h"
#include "library.h"

/* The functions. Those of a scheme stand together, in the same order for each. */
typedef enum {
    ENCIPHER, DECIPHER, SEAL, OPEN,
    FORWARD_ENCIPHER, FORWARD_DECIPHER, FORWARD_SEAL, FORWARD_OPEN,
    FIND, SEAL_RUN, OPEN_RUN,
    FUNCTIONS
} function;

extern const char *const function_names[FUNCTIONS];

/* What the function does: ENCIPHER, DECIPHER, SEAL or OPEN if it is a scheme's, or else the function itself. */
function kind_of(function name);

/* Its scheme, HCH where it has none. */
scheme scheme_of(function name);

/* The scheme's function of this kind. */
function by(scheme s, function kind);

typedef struct {
    const uint8_t *bytes;
    size_t length;
} slice;

typedef struct {
    function name;
    slice key;                 /* of all but FIND */
    slice tweak;               /* of ENCIPHER and DECIPHER alone, here and below by any scheme */
    slice payload;             /* of SEAL; of FIND the part that is found, or nothing, and then it is not compared */
    slice list;                /* of SEAL_RUN and OPEN_RUN: the bytes of its numbers, two each */
    size_t more;               /* of these two: by so much the count is above the numbers that the list has */
    slice data;                /* the board, the block, the run, or the pack, of which FIND may not even read a byte */
    uint64_t pack;             /* the number, of all that seal or open */
    uint32_t place;            /* of all but ENCIPHER and DECIPHER; of a run the first one */
    uint32_t *failed;          /* of OPEN_RUN alone, where hold and hold_at lend a number of their own */
    uint32_t number;           /* the answer */
    const uint8_t *after;      /* what data holds then, as many bytes as before */
    const uint8_t *list_after; /* and the list of OPEN_RUN */
    uint32_t failed_place;     /* what OPEN_RUN writes to *failed if the number is 8 or 12 */
    size_t payload_length;     /* what boards_payload_length says of a block that was opened */
} call;

/* The calls that were made. */
extern unsigned long calls;

/* Makes the call on the very bytes that it names, and compares nothing. */
uint32_t answer(const call *c);

/* The same by another library than the one under test. */
uint32_t answer_of(const library *l, const call *c);

/* Makes the call on copies that stand at this position, and compares. */
void hold_at(const call *c, position where);

/* The same at the front and at the end, and, where something lent is empty, with each kind of pointer for it. */
void hold(const call *c);

/* Bytes without a pattern, the same ones for the same seed. */
void fill(uint8_t *bytes, size_t length, uint32_t seed);

/* A key of so many bytes, up to LONGEST_KEY. A longer one begins with the shorter ones. */
enum { LONGEST_KEY = 288 };
slice key_of(size_t length);

/* The work under a good key of each length, and by each scheme. */
void under_each_key(void (*work)(slice key));
void by_each_scheme(void (*work)(scheme s, slice key));

#endif
