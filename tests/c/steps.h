/* The encryption-only scheme in plain C, in which a step can be done wrongly: wrong libraries are made of it. */
#ifndef STEPS_H
#define STEPS_H

#include "call.h"

/* In the order of the scheme's steps; the last three are made backwards alone. */
typedef enum {
    ALL_RIGHT,
    TWEAK_FOR_GAMMA,
    NO_LENGTH,
    LENGTH_IN_BYTES,
    BETA_1_FOR_BETA_2,
    TAU_FOR_TAU_PRIME,
    X_FOR_X_SQUARED,
    POWERS_OFF_BY_ONE,
    FIRST_BLOCK_HASHED_ALONE,
    NO_LAST_ROUND,
    M_WITHOUT_B,
    COUNTED_FROM_X,
    COUNTED_BY_ONE,
    HASHED_BEFORE_THE_CUT,
    BETAS_NOT_EXCHANGED,
    BLOCKS_NOT_SWAPPED,
    COUNTED_WITH_BETA_2,
    STEPS
} step;

extern const char *const step_names[STEPS];

/* The work on 33 to 4,096 bytes, under a key of 16 or 32. */
void forward_with(step wrong, int backwards, slice key, const uint8_t tweak[16], uint8_t *data, size_t length);

#endif
