#include "missing.h"

#include <inttypes.h>
#include <stdio.h>

enum { SHORT = 3 };

/* Where each range begins: the least; within the narrow fields; within an epoch of 12 bits, and within a satellite mask
   of 40; more than any field of fixed width has; more than a byte holds. */
static const unsigned long ranges[] = {1, 2, 5, 13, 41, 256, MOST_MISSING + 1};
enum { RANGES = sizeof ranges / sizeof *ranges - 1 };

void compare_missing(uint64_t answer, uint64_t got, uint64_t want) {
  compare("bits missing", got, want);
  if ((answer == SHORT) != (got > 0)) differ("%" PRIu64 " bits missing beside answer %" PRIu64, got, answer);
}

void count_missing(missing_counts *counts, uint64_t answer, uint64_t missing) {
  if (answer != SHORT) return;
  if (missing > MOST_MISSING) broken("more bits missing than a body has");
  counts->often[missing]++;
}

static unsigned long times(const missing_counts *counts, size_t range) {
  unsigned long sum = 0;
  for (unsigned long n = ranges[range]; n < ranges[range + 1]; n++) sum += counts->often[n];
  return sum;
}

static unsigned long numbers_of(const missing_counts *counts) {
  unsigned long sum = 0;
  for (unsigned long n = 1; n <= MOST_MISSING; n++) sum += counts->often[n] > 0;
  return sum;
}

void judge_missing(const missing_counts *kinds, size_t count, size_t judged, unsigned long least,
                   unsigned long different) {
  for (size_t range = 0; range < RANGES; range++) {
    printf("%-15s %3lu", "missing from", ranges[range]);
    for (size_t k = 0; k < count; k++) printf(" %9lu", times(&kinds[k], range));
    printf("\n");
    need(times(&kinds[judged], range), least, "missing from", ranges[range]);
  }
  printf("%-19s", "different numbers");
  for (size_t k = 0; k < count; k++) printf(" %9lu", numbers_of(&kinds[k]));
  printf("\n");
  need(numbers_of(&kinds[judged]), different, "different numbers of missing bits", different);
}
