/* One good call of each function under a key, with what the library itself leaves: the cases hold that to the
   reference. */
#ifndef GOOD_H
#define GOOD_H

#include "call.h"

enum { SIZE = 512, USED = 123, PACK = 3 * SIZE, RUN = 2 * SIZE }; /* bytes of what the calls are lent */

/* The calls stand until the next ones are made. What they are lent has bytes behind it, so that the same calls may be
   made with up to 4,097 bytes of data, a byte more of a pack or a run, and any length of a key up to LONGEST_KEY. */
void make_good(call good[FUNCTIONS], slice key);

#endif
