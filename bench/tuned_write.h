/* A writer of messages in C that is written to take few instructions: a message is packed by windows of 64 bits, one
   store each, apart from the bytes lent, while its rows are tested without a branch for each number; what a mask needs
   is made once: the keys of rows, where a satellite stands, and the bits of its own message. It gives the answers and
   the bytes of hundurzek_write and takes what that takes, but has, beside a holding's bytes, which it tests at each
   call, what it made of them. */
#ifndef BENCH_TUNED_WRITE_H
#define BENCH_TUNED_WRITE_H

#include "hundurzek.h"

/* Satellites and cells that a mask has at most; bytes of its systems as they are sent, and eight to load past them; a
   power of two over all systems, and over all satellite numbers; a holding's bytes, and zeros up to whole blocks of
   16. */
enum {
  TUNED_KEYS = 64, TUNED_CELL_KEYS = 256, TUNED_SYSTEMS_BYTES = (5 * 61 + 15 * 64) / 8 + 9, TUNED_IDS = 8,
  TUNED_NUMBERS = 64, TUNED_HOLDING = 208
};

typedef struct {
  uint8_t holding[TUNED_HOLDING];
  uint32_t gate; /* the IOD SSR, and 16 where the mask is held: 0 holds nothing */
  uint32_t systems;
  uint32_t satellites;
  uint32_t cells;
  uint32_t galileo;                       /* how many satellites are Galileo's, */
  uint32_t first_galileo;                 /* and which is the first of them */
  uint64_t satellite[TUNED_KEYS];         /* the first two numbers of each row, as they lie in it */
  uint64_t cell[TUNED_CELL_KEYS];         /* the same of cells, */
  uint32_t cell_signal[TUNED_CELL_KEYS];  /* and the third */
  uint32_t first_cell[TUNED_KEYS + 1];    /* of each satellite, and after the last one's */
  uint64_t celled;                        /* the satellites with a cell, the first one highest */
  uint8_t index[TUNED_IDS][TUNED_NUMBERS]; /* which satellite it is, from 1 on; 0 where the mask has no such */
  uint32_t systems_bits;
  uint8_t systems_sent[TUNED_SYSTEMS_BYTES];
} tuned_sent_mask;

/* Not 0 where a holding's bytes (docs/HOST.md) are none; there are TUNED_HOLDING of them. */
uint64_t tuned_stray(const uint8_t *holding);

/* Makes it of any such bytes, once for a mask. */
void tuned_hold(tuned_sent_mask *to, const uint8_t *holding);

/* As hundurzek_write; the bytes lent as a holding are those of a tuned_sent_mask. */
__typeof__(hundurzek_write) tuned_write;

#endif
