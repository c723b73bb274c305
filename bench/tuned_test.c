/* Tests the bytes of a lent holding in few instructions: eight strips at once, as every x86-64 can, and with a branch
   only where what comes next needs it. What is not 0 is bad. */
#include <emmintrin.h>
#include <string.h>

#include "hold.h"
#include "tuned_write.h"

#define ALWAYS static inline __attribute__((always_inline))
#pragma GCC optimize("no-tree-slp-vectorize", "no-tree-vectorize")

/* "Held mask and assigned places": the house limits, and what has no assignment, by ID. */
enum { SYSTEMS = 5, CELLS = 256 };
#define PAST(places, width) (~(((UINT64_C(1) << (places)) - 1) << ((width) - (places))))
static const uint64_t no_satellites[SYSTEMS] = {PAST(40, 40), PAST(24, 40), PAST(37, 40), PAST(40, 40), PAST(10, 40)};
static const uint64_t no_signals[SYSTEMS] = {PAST(14, 16), PAST(13, 16), PAST(15, 16), PAST(9, 16), PAST(10, 16)};

enum { STRIP = 2, BLOCK = 16, STRIPS = BLOCK / STRIP };
typedef __m128i block;

ALWAYS uint64_t word(const uint8_t *at) {
  uint64_t bits;
  memcpy(&bits, at, sizeof bits);
  return bits;
}

ALWAYS uint64_t half_word(const uint8_t *at) {
  uint16_t bits;
  memcpy(&bits, at, sizeof bits);
  return bits;
}

ALWAYS block block_at(const uint8_t *at) { return _mm_loadu_si128((const void *)at); }

ALWAYS uint64_t not_zero(block b) {
  return (uint64_t)_mm_movemask_epi8(_mm_cmpeq_epi8(b, _mm_setzero_si128())) ^ 0xFFFF;
}

/* A plain x86-64 counts no ones: of a number with room for the sum in each of its bytes, */
ALWAYS uint64_t ones(uint64_t bits) {
  bits -= bits >> 1 & UINT64_C(0x5555555555555555);
  bits = (bits & UINT64_C(0x3333333333333333)) + (bits >> 2 & UINT64_C(0x3333333333333333));
  return ((bits + (bits >> 4)) & UINT64_C(0x0F0F0F0F0F0F0F0F)) * UINT64_C(0x0101010101010101) >> 56;
}

/* and of a block, as two sums. */
ALWAYS block block_ones(block b) {
  const block fives = _mm_set1_epi8(0x55), threes = _mm_set1_epi8(0x33), low = _mm_set1_epi8(0x0F);
  b = _mm_sub_epi8(b, _mm_and_si128(_mm_srli_epi64(b, 1), fives));
  b = _mm_add_epi8(_mm_and_si128(b, threes), _mm_and_si128(_mm_srli_epi64(b, 2), threes));
  b = _mm_and_si128(_mm_add_epi8(b, _mm_srli_epi64(b, 4)), low);
  return _mm_sad_epu8(b, _mm_setzero_si128());
}

/* What is gathered: what is bad; the cells, in two sums; the next strip; the systems named. */
typedef struct {
  uint64_t bad;
  block strays;
  block cells;
  const uint8_t *strip;
  uint32_t named;
} gathered;

/* A system's strips: the bits that all of them have, and those that tell. */
typedef struct {
  block wanted, told;
} pattern;

ALWAYS gathered test_block(gathered g, pattern of, block used) {
  block strips = _mm_and_si128(block_at(g.strip), used);
  block stray = _mm_and_si128(_mm_xor_si128(strips, of.wanted), of.told);
  g.strays = _mm_or_si128(g.strays, _mm_and_si128(stray, used));
  g.cells = _mm_add_epi64(g.cells, block_ones(strips));
  return g;
}

/* So many strips of a system: within its signals, with flag 0 all of them. */
ALWAYS gathered test_strips(gathered g, uint64_t count, uint64_t signals, uint64_t flag) {
  static const uint8_t edge[2 * BLOCK] = {0xFF, 0xFF, 0xFF, 0xFF, 0xFF, 0xFF, 0xFF, 0xFF,
                                          0xFF, 0xFF, 0xFF, 0xFF, 0xFF, 0xFF, 0xFF, 0xFF};
  pattern of = {_mm_set1_epi16(flag ? 0 : (short)signals), _mm_set1_epi16(flag ? (short)~signals : -1)};
  for (; count >= STRIPS; count -= STRIPS, g.strip += BLOCK) g = test_block(g, of, _mm_set1_epi8(-1));
  if (count == 0) return g;
  g = test_block(g, of, block_at(edge + BLOCK - STRIP * count));
  g.strip += STRIP * count;
  return g;
}

/* Its satellites must not be more than there are strips, or the strips would not be lent. */
ALWAYS gathered test_system(gathered g, const uint8_t *holding, uint32_t k) {
  uint32_t id = holding[HOLD_ID + k];
  uint64_t flag = holding[HOLD_FLAG + k], signals = half_word(holding + HOLD_SIGNALS + 2 * k);
  uint64_t places = word(holding + HOLD_PLACES + 8 * k), count = ones(places);
  if (id >= SYSTEMS || g.strip + STRIP * count > holding + HUNDURZEK_HOLDING) {
    g.bad = 1;
    return g;
  }
  g.bad |= flag >> 1 | (places & no_satellites[id]) | (signals & no_signals[id]) | (g.named >> id & 1);
  g.named |= 1u << id;
  return test_strips(g, count, signals, flag);
}

/* What no system uses: the blocks of strips go into the zeros after the holding. */
ALWAYS uint64_t unused(const uint8_t *holding, uint32_t systems, gathered g) {
  const uint64_t five = (UINT64_C(1) << 40) - 1;
  uint64_t bad = ((word(holding + HOLD_ID) | word(holding + HOLD_FLAG)) & five) >> 8 * systems;
  for (uint32_t k = systems; k < SYSTEMS; k++)
    bad |= word(holding + HOLD_PLACES + 8 * k) | half_word(holding + HOLD_SIGNALS + 2 * k);
  for (; g.strip < holding + HUNDURZEK_HOLDING; g.strip += BLOCK) g.strays = _mm_or_si128(g.strays, block_at(g.strip));
  return bad | not_zero(g.strays);
}

/* By words: what is joined need not be loaded first. */
ALWAYS uint64_t not_empty(const uint8_t *holding) {
  uint64_t all = 0;
#pragma GCC unroll 26
  for (int k = 0; k < TUNED_HOLDING; k += (int)sizeof all) all |= word(holding + k);
  return all;
}

uint64_t tuned_stray(const uint8_t *holding) {
  uint32_t systems = holding[HOLD_SYSTEMS];
  gathered g = {0, _mm_setzero_si128(), _mm_setzero_si128(), holding + HOLD_STRIPS, 0};
  if (!holding[HOLD_HELD]) return not_empty(holding);
  if (systems > SYSTEMS) return 1;
  for (uint32_t k = 0; k < systems; k++) {
    g = test_system(g, holding, k);
    if (g.bad) return g.bad;
  }
  uint64_t satellites = (uint64_t)(g.strip - holding - HOLD_STRIPS) / STRIP;
  uint64_t cells = (uint64_t)_mm_cvtsi128_si64(_mm_add_epi64(g.cells, _mm_srli_si128(g.cells, 8)));
  g.bad = holding[HOLD_HELD] >> 1 | holding[HOLD_IOD] >> 4 | (satellites ^ holding[HOLD_SATELLITES]);
  g.bad |= (cells ^ half_word(holding + HOLD_CELLS)) | (cells > CELLS);
  return g.bad | unused(holding, systems, g);
}
