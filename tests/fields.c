/* Compares crate probe with bit-by-bit code of its own on seeded random cases: every width, all eight
   alignments, the ends of strings and past them, widths 0, 40 and 56, and what is refused. */
#include <inttypes.h>
#include <stdio.h>
#include <string.h>

#include "probe.h"

enum { LONGEST = 24, CASES = 60000 };

static uint64_t seed = UINT64_C(0x9e3779b97f4a7c15);

static uint64_t next(void) {
  seed ^= seed << 13;
  seed ^= seed >> 7;
  seed ^= seed << 17;
  return seed;
}

static uint64_t below(uint64_t n) { return next() % n; }

static unsigned long passed, failed;

static void expect(bool good, const char *what) {
  if (good) {
    passed++;
  } else if (failed++ < 20) {
    printf("differs: %s\n", what);
  }
}

/* ---- the same, bit by bit */

static unsigned bit(const uint8_t *bytes, uint64_t count, uint64_t place) {
  if (place / 8 >= count) return 0;
  return bytes[place / 8] >> (7 - place % 8) & 1;
}

static uint64_t field(const uint8_t *bytes, uint64_t count, uint64_t place, uint64_t w) {
  uint64_t n = 0;
  for (uint64_t k = 0; k < w; k++) n = n << 1 | bit(bytes, count, place + k);
  return n;
}

static void set_bit(uint8_t *bytes, uint64_t place, unsigned value) {
  uint8_t mask = (uint8_t)(0x80 >> place % 8);
  bytes[place / 8] = (uint8_t)(value ? bytes[place / 8] | mask : bytes[place / 8] & ~mask);
}

static int64_t signed_of(uint64_t n, uint64_t w) {
  int64_t z = 0;
  for (uint64_t k = 0; k + 1 < w; k++) z += (int64_t)(n >> k & 1) << k;
  return z - ((int64_t)(n >> (w - 1) & 1) << (w - 1));
}

/* ---- cases */

static uint64_t fill(uint8_t *bytes) {
  uint64_t count = below(LONGEST + 1);
  unsigned kind = (unsigned)below(8);
  for (uint64_t i = 0; i < LONGEST; i++) bytes[i] = kind == 0 ? 0 : kind == 1 ? 0xff : (uint8_t)next();
  return count;
}

static uint64_t width(void) {
  switch (below(8)) {
    case 0: return 0;
    case 1: return 40;
    case 2: return 56;
    case 3: return 57 + below(20);
    default: return below(57);
  }
}

static uint64_t somewhere(uint64_t bits) { return below(16) ? below(bits + 20) : next(); }

static void read_one(void) {
  uint8_t bytes[LONGEST];
  uint64_t count = fill(bytes), w = width(), place = somewhere(8 * count);
  uint64_t got = hundurzek_read_field(bytes, count, w, place);
  expect(got == (w > 56 ? UINT64_MAX : field(bytes, count, place, w)), "read_field");
}

static void write_one(void) {
  uint8_t part[LONGEST], want[LONGEST];
  uint64_t count = fill(part), w = width(), skip = below(9);
  uint64_t value = below(6) ? (w == 0 || w > 63 ? 0 : next() >> (64 - w)) : next();
  bool can = skip < 8 && w <= 56 && skip + w <= 8 * count && value >> w == 0;
  memcpy(want, part, LONGEST);
  for (uint64_t k = 0; can && k < w; k++) set_bit(want, skip + k, value >> (w - 1 - k) & 1);
  bool got = hundurzek_write_field(part, count, skip, w, value);
  expect(got == can && memcmp(part, want, LONGEST) == 0, "write_field");
}

static void zero_one(void) {
  uint8_t bytes[LONGEST] = {0};
  uint64_t count = below(LONGEST + 1), end = below(8 * count + 1), place = below(end + 2);
  if (count && below(3)) set_bit(bytes, below(8 * count), 1);
  bool zero = true;
  for (uint64_t k = place; k < end; k++) zero = zero && bit(bytes, count, k) == 0;
  expect(hundurzek_zero_from(bytes, count, end, place) == zero, "zero_from");
}

/* the bits of every width, by what they mean */
static void signed_one(void) {
  uint64_t w = 1 + below(32), n = next() >> (64 - w);
  expect(hundurzek_from_signed((int32_t)signed_of(n, w), w) == n, "from_signed of what bits mean");
}

static void unsigned_one(void) {
  uint64_t w = below(35);
  int32_t z = (int32_t)((int64_t)(next() >> 32) - INT64_C(0x80000000));
  if (below(4)) z /= (int32_t)1 << below(31);
  bool good = w >= 1 && w <= 32 && z >= -(INT64_C(1) << (w - 1)) && z < INT64_C(1) << (w - 1);
  uint64_t got = hundurzek_from_signed(z, w);
  expect(got == (good ? (uint64_t)(int64_t)z & ((UINT64_C(1) << w) - 1) : UINT64_MAX), "from_signed");
}

int main(void) {
  for (int k = 0; k < CASES; k++) {
    read_one();
    write_one();
    zero_one();
    signed_one();
    unsigned_one();
  }
  printf("%lu passed, %lu failed\n", passed, failed);
  return failed != 0;
}
