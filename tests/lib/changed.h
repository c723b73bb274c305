/* For programs that compare readings or walks: in what a mask that is refused with 13 is another one than the held one
   (document 02, Ask 2). The streams don't say it; it is found here, by the message's bits and the holding's bytes. */
#ifndef TESTS_CHANGED_H
#define TESTS_CHANGED_H

#include "streams.h"

/* The parts of a saved line. A change is counted at the first in which the two masks differ: what comes after it, as a
   cell mask after a satellite mask, may have to differ with it. */
enum { SYSTEM_COUNT, SYSTEM_ID, SYSTEM_ORDER, SATELLITE_MASK, SIGNAL_MASK, CELL_FLAG, CELL_MASK, CHANGES };

/* How often each came beside 13. */
typedef struct {
  unsigned long often[CHANGES];
} changed_counts;

/* Beside 13 the holding that was lent has become the empty one. */
void compare_dropped(uint64_t answer);

/* Counts the change, if the answer is 13, from what was held to the mask message at a place of the stretch. */
void count_changed(changed_counts *counts, uint64_t answer, uint64_t place, const uint8_t *held);

/* Prints how often each change came in each of so many kinds; in the one that is judged each must have come so
   often. */
void judge_changed(const changed_counts *kinds, size_t count, size_t judged, unsigned long least);

#endif
