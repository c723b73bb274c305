/* For programs that compare readings or walks: how many bits were missing, beside answer 3 (document 02, Ask 7). */
#ifndef TESTS_MISSING_H
#define TESTS_MISSING_H

#include "streams.h"

/* The longest that can be short: the body of sub type 6 with both flags for 256 cells, 11 bits and 17 each (document
   02, Ask 1). */
enum { MOST_MISSING = 256 * 28 };

/* How often each number came beside answer 3. */
typedef struct {
  unsigned long often[MOST_MISSING + 1];
} missing_counts;

/* The number beside an answer is the expected one; and it is 1 or more beside 3, 0 beside every other. */
void compare_missing(uint64_t answer, uint64_t got, uint64_t want);

/* Counts the number beside an answer, if that is 3. */
void count_missing(missing_counts *counts, uint64_t answer, uint64_t missing);

/* Prints how often each range of numbers came in each of so many kinds, and how many different numbers; in the one that
   is judged each range must have come so often, and so many different numbers. */
void judge_missing(const missing_counts *kinds, size_t count, size_t judged, unsigned long least,
                   unsigned long different);

#endif
