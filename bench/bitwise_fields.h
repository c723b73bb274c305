/* The bitwise writer's fields, what fits one and how it is put: a part of bitwise_write.c. */
#ifndef BENCH_BITWISE_FIELDS_H
#define BENCH_BITWISE_FIELDS_H

#include "hundurzek.h"
#include "setbit.h"

enum { ABSENT = HUNDURZEK_ABSENT };

/* ---- what fits a field */

static int fits(int32_t value, int width) { return value >= 0 && value < 1 << width; }

static int fits_signed(int32_t value, int width) { return value >= -(1 << (width - 1)) && value < 1 << (width - 1); }

static int absent(const int32_t *numbers, int from, int to) {
  for (int k = from; k < to; k++)
    if (numbers[k] != ABSENT) return 0;
  return 1;
}

static int names(const int32_t *row, int system, int satellite, int signal) {
  return row[0] == system && row[1] == satellite && row[2] == signal;
}

/* ---- fields one after another */

struct cursor {
  uint8_t *bytes;
  int place;
};

static void put(struct cursor *c, int width, int32_t value) {
  setbitu(c->bytes, c->place, width, (uint32_t)value);
  c->place += width;
}

static void put_signed(struct cursor *c, int width, int32_t value) {
  setbits(c->bytes, c->place, width, value);
  c->place += width;
}

/* A mask of over 32 bits, in two pieces. */
static void put_mask(struct cursor *c, int width, uint64_t mask) {
  if (width > 32) put(c, width - 32, (int32_t)(mask >> 32));
  put(c, width > 32 ? 32 : width, (int32_t)(uint32_t)mask);
}

#endif
