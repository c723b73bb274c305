/* For programs that compare hundurzek_read: the readings of second/emit.rs. */
#ifndef TESTS_READINGS_H
#define TESTS_READINGS_H

#include "streams.h"

enum { ROW_BYTES = 4 * HUNDURZEK_ROW };

/* The next reading that is expected; the buffers are wanted as it leaves them. */
hundurzek_reading take_reading(void);

/* One reading at the place and under the length that is being compared (now), of these bytes, against that. */
void compare_reading(const buffer *bytes, const hundurzek_reading *want);

#endif
