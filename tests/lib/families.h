/* Counting the families of cases that a stream must hold: by their names, which come with each case, and by answers. */
#ifndef TESTS_FAMILIES_H
#define TESTS_FAMILIES_H

#include "streams.h"

/* The answers: done, 12, 1; of writing also the other refusals. */
enum { DONE, REFUSED, ROOM, PLACE, SUBTYPE, NO_MASK, OTHER_ISSUE, NETWORK, ANSWERS };

/* A family of cases: how often each answer must come in it, and came. A case may be of several families. */
typedef struct {
  const char *name;
  unsigned long least[ANSWERS], counts[ANSWERS];
} family;

/* Counts the answer in the kind, and in each family of the case that is being compared. A name that isn't there is a
   broken stream. */
void count_answer(kind *k, family *families, size_t count, uint64_t answer);

/* Prints how often each answer came in each kind. */
void print_answers(const kind *kinds, size_t count);

/* Prints how often it came in each family, and needs what must come. */
void judge_families(const family *families, size_t count);

#endif
