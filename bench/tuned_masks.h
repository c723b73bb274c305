/* The tuned reader's sub type 1, and what it lists of a mask: a part of tuned.c, so that all of it can be inlined
   there. Titles in comments are document 01's. */
#ifndef BENCH_TUNED_MASKS_H
#define BENCH_TUNED_MASKS_H

#include "tuned_rows.h"
#include "tuned_windows.h"

typedef struct {
  const uint8_t *bytes;
  uint64_t place;
  uint64_t end;
  uint32_t named; /* a bit for each system */
} mask_source;

ALWAYS void put_half(tuned_half *half, uint64_t low, uint64_t high) {
  memcpy(&half->number[0], &low, sizeof low);
  memcpy(&half->number[2], &high, sizeof high);
}

/* Two numbers of a row, as they lie in it. */
ALWAYS uint64_t two(uint32_t first, uint32_t second) { return first | (uint64_t)second << 32; }

/* From the last satellite on, which has the lowest bit. */
ALWAYS void list_satellites(tuned_half *key, uint32_t id, uint64_t places) {
  const uint64_t number = UINT64_C(1) << 32, low = id + 40 * number;
  const uint64_t high = two((uint32_t)HUNDURZEK_ABSENT, (uint32_t)HUNDURZEK_ABSENT);
  for (; places; places &= places - 1) put_half(key++, low - number * (uint64_t)__builtin_ctzll(places), high);
}

/* The places of the set bits, the last first, each before an absent v1: the j-th lowest bit is the j-th number. */
ALWAYS void list_signals(uint32_t signals, uint64_t *places) {
  const uint64_t last = two(15, (uint32_t)HUNDURZEK_ABSENT);
  for (; signals; signals &= signals - 1) *places++ = last - (uint64_t)__builtin_ctz(signals);
}

/* Where a cell mask stands: its bits for one satellite after another. */
static uint32_t count_cells(const mask_source *m, uint32_t bits) {
  enum { STEP = 56 };
  uint32_t count = 0;
  uint64_t place = m->place;
  for (; bits > STEP; bits -= STEP, place += STEP) count += ones(window(m->bytes, place) >> (64 - STEP));
  return bits == 0 ? count : count + ones(window(m->bytes, place) >> (64 - bits));
}

/* A satellite's cells, before those of the satellites after it; answers where the list begins then. */
ALWAYS tuned_half *list_strip(tuned_half *end, uint64_t cells, const tuned_half *satellite, const uint64_t *places) {
  uint64_t low;
  memcpy(&low, satellite, sizeof low);
  for (; cells; cells &= cells - 1) put_half(--end, low, places[__builtin_ctzll(cells)]);
  return end;
}

/* The cells of the count last satellites: those of a cell mask, or all. Answers which of these satellites have one. */
static uint64_t list_cells(tuned_mask *mask, const mask_source *m, uint32_t count, uint32_t signals, bool flag) {
  uint64_t places[16], celled = 0, satellite_bit = 1;
  const uint32_t width = ones(signals);
  tuned_half *end = mask->cell + mask->cells;
  const tuned_half *satellite = last_satellite(mask), *past = satellite + count;
  tuned_strip *strip = mask->strip + TUNED_SATELLITES - mask->satellites;
  uint16_t past_cell = (uint16_t)mask->cells;
  uint64_t place = m->place + width * count;
  list_signals(signals, places);
  for (; satellite < past; satellite++, satellite_bit <<= 1) {
    place -= width;
    uint64_t cells = flag ? window(m->bytes, place) >> (64 - width) : (UINT64_C(1) << width) - 1;
    end = list_strip(end, cells, satellite, places);
    *strip = (tuned_strip){(uint16_t)(end - mask->cell), past_cell};
    past_cell = strip++->first;
    if (cells) celled |= satellite_bit;
  }
  return celled;
}

/* After the signal mask: the cells of the count last satellites. */
ALWAYS uint64_t read_cells(stretch *s, mask_source *m, tuned_mask *mask, uint32_t count, uint32_t signals, bool flag) {
  uint32_t bits = count * ones(signals), cells = bits;
  if (flag) {
    if (m->end - m->place < bits) return stop_short(s, bits, m->end - m->place);
    cells = count_cells(m, bits);
  }
  mask->cells += cells;
  mask->celled <<= count;
  if (mask->cells > TUNED_CELLS) return stop(s, SIZE);
  if (cells > 0) mask->celled |= list_cells(mask, m, count, signals, flag);
  if (flag) m->place += bits;
  return MESSAGE;
}

ALWAYS uint64_t read_system(stretch *s, mask_source *m, tuned_mask *mask) {
  uint64_t left = m->end - m->place, bits = window(m->bytes, m->place), satellites = bits << 4 >> 24;
  uint32_t id = (uint32_t)(bits >> 60), count = ones(satellites);
  if (left < 4) return stop_short(s, 4, left);
  if (id >= SYSTEMS || m->named >> id & 1) return stop(s, SYSTEM);
  if (left < 44) return stop_short(s, 44, left);
  if (satellites & reserved_satellites[id]) return stop(s, RESERVED);
  if (mask->satellites + count > TUNED_SATELLITES) return stop(s, SIZE);
  if (left < 60) return stop_short(s, 60, left);
  bits = window(m->bytes, m->place + 44);
  uint32_t signals = (uint32_t)(bits >> 48);
  if (signals & reserved_signals[id]) return stop(s, RESERVED);
  if (left < 61) return stop_short(s, 61, left);
  m->named |= 1u << id;
  m->place += 61;
  mask->satellites += count;
  mask->after_galileo += count;
  if (id == GALILEO) {
    mask->galileo = count;
    mask->after_galileo = 0;
  }
  list_satellites(mask->satellite + TUNED_SATELLITES - mask->satellites, id, satellites);
  return read_cells(s, m, mask, count, signals, bits >> 47 & 1);
}

/* Keeps the systems that are sent from a place on, so many bits; what is not 0 says that another mask has others. A
   step is whole bytes, so that all windows are shifted alike. */
__attribute__((noinline)) static uint64_t keep_sent(tuned_mask *mask, const tuned_mask *other, source from,
                                                    uint64_t bits) {
  enum { STEP = 56 };
  const uint8_t *at = from.bytes + from.place / 8;
  const unsigned skip = from.place % 8;
  uint64_t k = 0, differing = bits ^ other->sent_bits;
  mask->sent_bits = bits;
  for (; bits > STEP; k++, bits -= STEP, at += STEP / 8) {
    mask->sent[k] = load(at) << skip >> (64 - STEP);
    differing |= mask->sent[k] ^ other->sent[k];
  }
  if (bits == 0) return differing;
  mask->sent[k] = load(at) << skip >> (64 - bits);
  return differing | (mask->sent[k] ^ other->sent[k]);
}

/* Document 02, Ask 2: "Refuse it and drop the held mask, so that the next mask is taken." */
ALWAYS uint64_t drop_mask(stretch *s) {
  s->holding->masks[s->holding->current].gate = 0;
  return stop(s, CHANGED);
}

enum { MASK_MOST = MASK_HEAD + TUNED_BITS };

/* "Each good mask message is adopted as the new holding and replaces the old one whole." */
__attribute__((noinline)) static uint64_t read_mask(stretch *s, uint64_t place, uint64_t first) {
  uint64_t left = s->end - place;
  if (left < MASK_HEAD) return stop_in_head(s, mask_ends, left);
  source from = source_of(s, place, left < MASK_MOST ? left : MASK_MOST);
  mask_source m = {from.bytes, from.place + MASK_HEAD, from.place + left, 0};
  tuned_mask *mask = &s->holding->masks[s->holding->current ^ 1];
  mask->gate = HELD | (uint32_t)cut(first, 41, 4);
  mask->satellites = mask->cells = mask->galileo = mask->after_galileo = 0;
  mask->celled = 0;
  for (int32_t systems = cut(first, 45, 4); systems > 0; systems--)
    if (read_system(s, &m, mask) == STOPPED) return STOPPED;
  source sent = {from.bytes, from.place + MASK_HEAD};
  uint64_t differing = keep_sent(mask, s->held, sent, m.place - sent.place);
  if (differing && mask->gate == s->held->gate) return drop_mask(s);
  mask->orbit_bits = ORBIT * mask->satellites + (LONG_ORBIT - ORBIT) * mask->galileo;
  s->holding->current ^= 1;
  s->held = mask;
  return place + (m.place - from.place);
}

#endif
