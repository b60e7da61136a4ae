/* The table of refusals and the order in which each function looks at them. */
#ifndef TABLE_H
#define TABLE_H

#include "call.h"

enum { LOOKS = 6, KEYS = 2 }; /* the most looks of one function; and the lengths of keys */

/* "Key expansion must accept 16 or 32 bytes"; "number 1 now means a key of neither length". */
extern const size_t key_lengths[KEYS];

int is_key(size_t length);

/* The fewest bytes of data that a scheme takes, and the most. */
enum { MOST_DATA = 4096 };
extern const size_t least_data[SCHEMES];

/* "HCH looks at 1, 2, 3, 4 in this order. Sealing looks at 1, 7, 5, 6. Opening looks at 1, 7, 6, 8." In 02, finding
   looks at 10 first, and at 6 next; of runs, "Sealing looks at 1, 10, 11, 5, 6; opening at 1, 10, 11, 6, 8"; 12 is
   "in the place of 8", here behind it; and 13 "stands where 3 stood". A 0 stands where a function has no more. */
extern const uint32_t looks[FUNCTIONS][LOOKS];

/* Whether both are numbers that can hold at once: data is never both too short and too long, and no block that fails
   its check is both of zeros and not. */
int can_meet(uint32_t a, uint32_t b);

/* Whether the number says that a block fails its check: 8 or 12. */
int says_failed(uint32_t number);

int all_zero(const uint8_t *bytes, size_t length);

/* Whether the condition of this number holds; failing is a block that fails its check, and a run with such a block, the
   first of them at the place that failed. */
int applies(uint32_t number, const call *c, int failing);

/* The number that the call has to answer: the first that applies, or 0. */
uint32_t first(const call *c, int failing);

#endif
