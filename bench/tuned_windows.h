/* The tuned reader's numbers and windows: a part of tuned.c, so that all of it can be inlined there. Titles in comments
   are document 01's. */
#ifndef BENCH_TUNED_WINDOWS_H
#define BENCH_TUNED_WINDOWS_H

#include <stdbool.h>
#include <string.h>

#include "tuned.h"

/* "Answer numbers", and the one of docs/HOST.md for a message. */
enum {
  IDLE, ROOM, PLACE, SHORT, NUMBER, SUBTYPE, NO_MASK, OTHER_ISSUE, SYSTEM, RESERVED, SIZE, NETWORK, VALUE, CHANGED,
  MESSAGE = HUNDURZEK_MESSAGE
};

/* "Message layouts": bits before a body or a mask's systems, and of one element after them. */
enum {
  HEAD = 37, MASK_HEAD = 49, SERVICE_HEAD = 22, FLAGS = 40, NETWORK_END = 45,
  ORBIT = 49, LONG_ORBIT = 51, CLOCK = 15, CODE = 11, PHASE = 15, DISCONTINUITY = 2, ACCURACY = 6, SERVICE = 40
};

/* Where the fields of a head end, a bit for each: sub type 1's, those of 2 to 7 and 11, sub type 10's. */
#define END(place) (UINT64_C(1) << (place))
static const uint64_t mask_ends = END(36) | END(40) | END(41) | END(45) | END(MASK_HEAD);
static const uint64_t head_ends = END(28) | END(32) | END(33) | END(HEAD);
static const uint64_t service_ends = END(17) | END(20) | END(SERVICE_HEAD);

/* "Held mask and assigned places": places without assignment, the first place highest; the longest stretch. */
enum { GALILEO = 2, SYSTEMS = 5, LONGEST = 50850, HELD = 16 };
static const uint64_t reserved_satellites[SYSTEMS] = {0, 0xFFFF, 0x7, 0, 0x3FFFFFFF};
static const uint32_t reserved_signals[SYSTEMS] = {0x3, 0x7, 0x1, 0x7F, 0x3F};

/* Four numbers joined in a vector register take more instructions than four stores. */
#pragma GCC optimize("no-tree-slp-vectorize")
#define ALWAYS static inline __attribute__((always_inline))

static const tuned_half absent = {{HUNDURZEK_ABSENT, HUNDURZEK_ABSENT, HUNDURZEK_ABSENT, HUNDURZEK_ABSENT}};
static const hundurzek_head nothing = {HUNDURZEK_ABSENT, HUNDURZEK_ABSENT, HUNDURZEK_ABSENT, HUNDURZEK_ABSENT,
                                       HUNDURZEK_ABSENT, HUNDURZEK_ABSENT, HUNDURZEK_ABSENT, HUNDURZEK_ABSENT};

/* ---- windows: the bits from a place on, the first highest */

ALWAYS uint64_t load(const uint8_t *at) {
  uint64_t word;
  memcpy(&word, at, sizeof word);
  return __builtin_bswap64(word);
}

/* 57 of the bits, at least; eight bytes are there. */
ALWAYS uint64_t window(const uint8_t *bytes, uint64_t place) { return load(bytes + place / 8) << place % 8; }

/* A number of width bits, from bit 'from' of a window on. */
ALWAYS int32_t cut(uint64_t window, unsigned from, unsigned width) {
  return (int32_t)(window << from >> (64 - width));
}

ALWAYS int32_t cut_signed(uint64_t window, unsigned from, unsigned width) {
  return (int32_t)((int64_t)(window << from) >> (64 - width));
}

/* A plain x86-64 counts no ones. */
ALWAYS uint32_t ones(uint64_t bits) {
  bits -= bits >> 1 & UINT64_C(0x5555555555555555);
  bits = (bits & UINT64_C(0x3333333333333333)) + (bits >> 2 & UINT64_C(0x3333333333333333));
  bits = (bits + (bits >> 4)) & UINT64_C(0x0F0F0F0F0F0F0F0F);
  return (uint32_t)(bits * UINT64_C(0x0101010101010101) >> 56);
}

/* ---- where the stretch ends: copies with eight bytes after them */

/* The longest body is sub type 6's of 256 cells, 7,168 bits. */
enum { WINDOW = 8, COPIED = 904 };

typedef struct {
  const uint8_t *bytes;
  uint64_t count;
  uint64_t end;
  int32_t *rows;
  tuned_holding *holding;
  const tuned_mask *held; /* the holding's current mask */
  uint64_t answer;        /* where no message was read: why, */
  uint64_t missing;       /* and where that is SHORT, how many bits of a field or a body lie past the end */
  uint8_t copy[COPIED + WINDOW];
} stretch;

/* What a reading gives where there is no message; with one it gives the place after it, which is never 0. */
enum { STOPPED = 0 };

ALWAYS uint64_t stop(stretch *s, uint64_t answer) {
  s->answer = answer;
  return STOPPED;
}

/* Document 02, Ask 7: "the needed bits less those left". */
ALWAYS uint64_t stop_short(stretch *s, uint64_t needed, uint64_t left) {
  s->missing = needed - left;
  return stop(s, SHORT);
}

/* Of what comes after a head, apart: inlined, it takes an instruction of each message that is not short. */
__attribute__((noinline)) static uint64_t stop_in_body(stretch *s, uint64_t needed, uint64_t left) {
  return stop_short(s, needed, left);
}

/* Of a head the first field is short that ends past what is left. */
ALWAYS uint64_t stop_in_head(stretch *s, uint64_t ends, uint64_t left) {
  return stop_short(s, left + 1 + (uint64_t)__builtin_ctzll(ends >> (left + 1)), left);
}

ALWAYS uint64_t missing(const stretch *s) { return s->answer == SHORT ? s->missing : 0; }

typedef struct {
  const uint8_t *bytes;
  uint64_t place;
} source;

__attribute__((noinline)) static source copy_end(stretch *s, uint64_t place, uint64_t past) {
  uint64_t first = place / 8, count = (past + 7) / 8 - first;
  memcpy(s->copy, s->bytes + first, count);
  memset(s->copy + count, 0, WINDOW);
  return (source){s->copy, place % 8};
}

/* So many bits at a place, where each window that begins in them or right after them can be loaded. */
ALWAYS source source_of(stretch *s, uint64_t place, uint64_t bits) {
  if (__builtin_expect((place + bits) / 8 + WINDOW <= s->count, 1)) return (source){s->bytes, place};
  return copy_end(s, place, place + bits);
}

__attribute__((noinline)) static uint64_t last_window(const stretch *s, uint64_t place) {
  uint64_t word = 0;
  for (uint64_t byte = place / 8; byte < place / 8 + WINDOW; byte++)
    word = word << 8 | (byte < s->count ? s->bytes[byte] : 0);
  return word << place % 8;
}

ALWAYS uint64_t first_window(const stretch *s, uint64_t place) {
  if (__builtin_expect(place / 8 + WINDOW <= s->count, 1)) return window(s->bytes, place);
  return last_window(s, place);
}

#endif
