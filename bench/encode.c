/* Titles in comments are document 01's. Bodies are random bits: each combination of them is a body. */
#include "encode.h"

#include <assert.h>

/* ---- random numbers, from a fixed seed */

static uint64_t seed = 1;

unsigned below(unsigned n) {
  seed = seed * UINT64_C(6364136223846793005) + UINT64_C(1442695040888963407);
  return (unsigned)((seed >> 33) % n);
}

/* A number of so many bits, wanted of which are set. */
uint64_t choose(unsigned wanted, unsigned bits) {
  uint64_t chosen = 0;
  for (unsigned k = 0; k < bits; k++)
    if (below(bits - k) < wanted) {
      chosen |= UINT64_C(1) << k;
      wanted--;
    }
  return chosen;
}

/* ---- putting bits at a stretch's end */

void put(stretch *s, unsigned width, uint64_t value) {
  assert(s->end + width <= LONGEST);
  while (width-- > 0) {
    s->bytes[s->end / 8] |= (uint8_t)((value >> width & 1) << (7 - s->end % 8));
    s->end++;
  }
}

static void put_random(stretch *s, unsigned width) {
  while (width-- > 0) put(s, 1, below(2));
}

/* ---- masks */

unsigned ones(uint64_t bits) { return (unsigned)__builtin_popcountll(bits); }

unsigned satellite_count(const mask *m) {
  unsigned count = 0;
  for (unsigned k = 0; k < m->systems; k++) count += ones(m->system[k].satellites);
  return count;
}

/* How many cells the selected satellites have; all are selected by all ones. */
static unsigned cells_of(const mask *m, uint64_t selected) {
  unsigned count = 0, after = satellite_count(m);
  for (unsigned k = 0; k < m->systems; k++)
    for (unsigned j = 0; j < ones(m->system[k].satellites); j++)
      if (selected >> --after & 1) count += ones(m->system[k].cells[j]);
  return count;
}

unsigned cell_count(const mask *m) { return cells_of(m, UINT64_MAX); }

/* How many of the selected satellites are Galileo's, whose IODE has two bits more. */
static unsigned galileo_count(const mask *m, uint64_t selected) {
  unsigned after = satellite_count(m);
  for (unsigned k = 0; k < m->systems; k++) {
    unsigned own = ones(m->system[k].satellites);
    after -= own;
    if (m->system[k].id == GALILEO) return ones(selected >> after & ((UINT64_C(1) << own) - 1));
  }
  return 0;
}

/* ---- messages */

static void put_opening(stretch *s, unsigned subtype) {
  put(s, 12, 4073);
  put(s, 4, subtype);
}

void put_mask(stretch *s, const mask *m, unsigned epoch) {
  put_opening(s, 1);
  put(s, 20, epoch);
  put(s, 4, 5); /* update interval: 30 s */
  put(s, 1, 0);
  put(s, 4, m->iod);
  put(s, 4, m->systems);
  for (unsigned k = 0; k < m->systems; k++) {
    const constellation *system = &m->system[k];
    put(s, 4, system->id);
    put(s, 40, system->satellites);
    put(s, 16, system->signals);
    put(s, 1, system->flag);
    if (!system->flag) continue;
    for (unsigned j = 0; j < ones(system->satellites); j++) put(s, ones(system->signals), system->cells[j]);
  }
}

static void put_head(stretch *s, unsigned subtype, unsigned epoch, unsigned interval, unsigned iod) {
  put_opening(s, subtype);
  put(s, 12, epoch % 3600);
  put(s, 4, interval);
  put(s, 1, 0);
  put(s, 4, iod);
}

void put_orbits(stretch *s, const mask *m, unsigned epoch) {
  put_head(s, 2, epoch, 5, m->iod);
  put_random(s, 49 * satellite_count(m) + 2 * galileo_count(m, UINT64_MAX));
}

void put_clocks(stretch *s, const mask *m, unsigned epoch) {
  put_head(s, 3, epoch, 2, m->iod); /* 5 s */
  put_random(s, 15 * satellite_count(m));
}

void put_code_biases(stretch *s, const mask *m, unsigned epoch) {
  put_head(s, 4, epoch, 5, m->iod);
  put_random(s, 11 * cell_count(m));
}

void put_phase_biases(stretch *s, const mask *m, unsigned epoch) {
  put_head(s, 5, epoch, 5, m->iod);
  put_random(s, 17 * cell_count(m));
}

void put_accuracy(stretch *s, const mask *m, unsigned epoch) {
  put_head(s, 7, epoch, 5, m->iod);
  put_random(s, 6 * satellite_count(m));
}

void put_service(stretch *s, unsigned counter, unsigned size) {
  put_opening(s, 10);
  put(s, 1, counter < 7);
  put(s, 3, counter);
  put(s, 2, size);
  put_random(s, 40 * (size + 1));
}

/* The flags of sub types 6 and 11, and what a network has after them, its ID being 1 or more; answers the satellites
   selected. */
static uint64_t put_selection(stretch *s, const mask *m, const combination *c) {
  unsigned satellites = satellite_count(m);
  put(s, 1, c->first);
  put(s, 1, c->second);
  put(s, 1, c->network != NO_NETWORK);
  if (c->network == NO_NETWORK) return satellites == 0 ? 0 : UINT64_MAX >> (64 - satellites);
  put(s, 5, c->network + 1);
  put(s, satellites, m->selections[c->network]);
  return m->selections[c->network];
}

/* The update interval of orbits is 15 s, else 5 s. */
void put_combined(stretch *s, const mask *m, unsigned epoch, const combination *c) {
  put_head(s, 11, epoch, c->first ? 4 : 2, m->iod);
  uint64_t selected = put_selection(s, m, c);
  if (c->first) put_random(s, 49 * ones(selected) + 2 * galileo_count(m, selected));
  if (c->second) put_random(s, 15 * ones(selected));
}

void put_combined_biases(stretch *s, const mask *m, unsigned epoch, const combination *c) {
  put_head(s, 6, epoch, 5, m->iod);
  uint64_t selected = put_selection(s, m, c);
  put_random(s, ((c->first ? 11 : 0) + (c->second ? 15 + 2 : 0)) * cells_of(m, selected));
}
