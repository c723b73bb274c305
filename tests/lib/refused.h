/* For programs that compare readings or walks: for which field sub types 6 and 7 are refused with 3, and sub type 6
   with 11 (document 02, Ask 1). The streams don't say it; it is found here, by where the stretch ends. */
#ifndef TESTS_REFUSED_H
#define TESTS_REFUSED_H

#include "streams.h"

/* Counts the field of what stands at a place of the stretch and is answered so, if it is one of these. */
void count_refused(uint64_t answer, uint64_t place);

/* Prints how often it was each field, and needs each so often. */
void judge_refused(unsigned long least);

#endif
