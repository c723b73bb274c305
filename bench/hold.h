/* Where the parts of a holding's bytes lie (docs/HOST.md), for what makes other structs of them. */
#ifndef BENCH_HOLD_H
#define BENCH_HOLD_H

#include <stdint.h>

enum {
  HOLD_HELD = 0, HOLD_IOD = 1, HOLD_SYSTEMS = 2, HOLD_SATELLITES = 3, HOLD_CELLS = 4, HOLD_ID = 6, HOLD_FLAG = 11,
  HOLD_SIGNALS = 16, HOLD_PLACES = 26, HOLD_STRIPS = 66
};

/* The k-th number of so many bytes from some byte on. */
static inline uint64_t hold_number(const uint8_t *holding, int from, int width, int k) {
  uint64_t number = 0;
  for (int i = width - 1; i >= 0; i--) number = number << 8 | holding[from + width * k + i];
  return number;
}

#endif
