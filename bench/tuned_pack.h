/* The tuned writer's numbers, tests and packing, of fields and of rows: a part of tuned_write.c, so that all of it can
   be inlined there. Titles in comments are document 01's. */
#ifndef BENCH_TUNED_PACK_H
#define BENCH_TUNED_PACK_H

#include <stdbool.h>
#include <string.h>

#include "tuned_write.h"

/* "Answer numbers" that a writer gives, and the one of docs/HOST.md for a message written. */
enum {
  ROOM = 1, PLACE = 2, SUBTYPE = 5, NO_MASK = 6, OTHER_ISSUE = 7, NETWORK = 11, VALUE = 12,
  DONE = HUNDURZEK_DONE
};

/* The columns of a head; "Message layouts": bits of fields. */
enum { KIND, EPOCH, INTERVAL, INDICATOR, IOD, A, B, C };
enum {
  RADIAL = 15, TRACK = 13, CLOCK = 15, CODE = 11, PHASE = 15, DISCONTINUITY = 2, ACCURACY = 6, IODE = 8, LONG_IODE = 10
};

enum { HELD = 16, LONGEST = 50850, NUMBER = 4073 };

#define ABSENT ((uint32_t)HUNDURZEK_ABSENT)
#define ALWAYS static inline __attribute__((always_inline))

/* Numbers joined in a vector register take more instructions than their loads and stores. */
#pragma GCC optimize("no-tree-slp-vectorize", "no-tree-vectorize")

/* ---- tests without a branch: what is not 0 is bad */

/* Two numbers as they lie in a row. */
ALWAYS uint64_t two_at(const int32_t *numbers) {
  uint64_t two;
  memcpy(&two, numbers, sizeof two);
  return two;
}

ALWAYS uint64_t not_absent(int32_t number) { return (uint32_t)number ^ ABSENT; }

ALWAYS uint64_t not_absents(const int32_t *numbers) { return two_at(numbers) ^ (ABSENT | (uint64_t)ABSENT << 32); }

ALWAYS uint64_t over(int32_t value, unsigned width) { return (uint32_t)value >> width; }

ALWAYS uint64_t over_signed(int32_t value, unsigned width) {
  return ((uint32_t)value + (1u << (width - 1))) >> width;
}

ALWAYS uint64_t low(int32_t value, unsigned width) { return (uint32_t)value & ((1u << width) - 1); }

/* A plain x86-64 counts no ones. */
ALWAYS uint32_t ones(uint64_t bits) {
  bits -= bits >> 1 & UINT64_C(0x5555555555555555);
  bits = (bits & UINT64_C(0x3333333333333333)) + (bits >> 2 & UINT64_C(0x3333333333333333));
  bits = (bits + (bits >> 4)) & UINT64_C(0x0F0F0F0F0F0F0F0F);
  return (uint32_t)(bits * UINT64_C(0x0101010101010101) >> 56);
}

/* ---- packing: a message apart from the bytes lent, from the same bit of a byte on */

/* The longest message is of sub type 6 with a network and 256 cells, 7,277 bits. A store is of a window. */
enum { WINDOW = 8, PACKED = 912, MOST = 56 };

typedef struct {
  uint8_t *at;     /* the byte that holds the next bit */
  uint64_t carry;  /* its bits before that one, highest */
  unsigned filled; /* how many these are */
  uint64_t bad;    /* not 0 where no message reads back */
} packer;

/* The low bits of a value, 1 to MOST of them. */
ALWAYS packer push(packer p, uint64_t value, unsigned width) {
  uint64_t word = p.carry | value << (64 - width) >> p.filled, swapped = __builtin_bswap64(word);
  memcpy(p.at, &swapped, sizeof swapped);
  p.filled += width;
  p.at += p.filled / 8;
  p.carry = word << (p.filled & 56);
  p.filled &= 7;
  return p;
}

/* Up to 64 bits, or none. */
ALWAYS packer push_mask(packer p, uint64_t mask, unsigned width) {
  if (width > 32) {
    p = push(p, mask >> 32, width - 32);
    width = 32;
  }
  return width == 0 ? p : push(p, mask, width);
}

/* ---- rows of values from v1 on */

/* A field of a row, absent where it has no bits; what a row has: in v1, in v2 what is unsigned where it is the last and
   signed before a v3, in v3 what is unsigned; and whether it has a signal. All of it is known when this is compiled. */
typedef struct {
  unsigned width;
  bool sign;
} field;

typedef struct {
  field v1;
  unsigned v2, v3;
  bool signals;
} shape;

/* Rows, and the keys that they must have: the first two numbers, and the third. */
typedef struct {
  const int32_t *row;
  const uint64_t *key;
  const uint32_t *signal;
  uint64_t count;
} row_list;

/* A number that must be one, and after it a field: two tests in one. */
ALWAYS uint64_t not_before(uint64_t two, uint32_t number, field f) {
  const uint64_t fitting = ((UINT64_C(1) << f.width) - 1) << 32;
  if (f.width == 0) return two ^ (number | (uint64_t)ABSENT << 32);
  return ((two ^ number) + (f.sign ? UINT64_C(1) << (32 + f.width - 1) : 0)) & ~fitting;
}

/* Two fields after that, or an unsigned one before an absent one, or two absent ones. */
ALWAYS uint64_t not_after(uint64_t two, shape has) {
  if (has.v3) return over_signed((int32_t)two, has.v2) | two >> (32 + has.v3);
  if (has.v2) return (two ^ (uint64_t)ABSENT << 32) >> has.v2;
  return two ^ (ABSENT | (uint64_t)ABSENT << 32);
}

ALWAYS uint64_t row_bits(packer *p, const int32_t *row, uint64_t key, uint32_t signal, shape has) {
  uint64_t front = two_at(row + 2), back = two_at(row + 4);
  uint64_t bits = has.v1.width == 0 ? 0 : front >> 32 & ((1u << has.v1.width) - 1);
  p->bad |= (two_at(row) ^ key) | not_before(front, signal, has.v1) | not_after(back, has) | not_absents(row + 6);
  if (has.v2) bits = bits << has.v2 | low((int32_t)back, has.v2);
  return has.v3 ? bits << has.v3 | back >> 32 : bits;
}

/* As many rows in one window as have room in it; rows without bits one by one. */
ALWAYS packer push_rows(packer p, row_list l, shape has) {
  const unsigned step = has.v1.width + has.v2 + has.v3, batch = step == 0 ? 1 : MOST / step;
  for (; l.count >= batch; l.count -= batch) {
    uint64_t bits = 0;
#pragma GCC unroll 9
    for (unsigned k = 0; k < batch; k++, l.row += HUNDURZEK_ROW, l.key++)
      bits = bits << step | row_bits(&p, l.row, *l.key, has.signals ? *l.signal++ : ABSENT, has);
    if (step > 0) p = push(p, bits, batch * step);
  }
  for (; l.count > 0; l.count--, l.row += HUNDURZEK_ROW, l.key++) {
    uint64_t bits = row_bits(&p, l.row, *l.key, has.signals ? *l.signal++ : ABSENT, has);
    p = push(p, bits, step);
  }
  return p;
}

#endif
