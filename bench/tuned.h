/* A reader of messages in C that is written to take few instructions: windows of 64 bits, one load and one swap each;
   a mask's satellites and cells listed when it is adopted, as the keys of rows; rows stored by halves. It gives the
   answers, heads and rows of hundurzek_read and hundurzek_walk and takes what those take, but keeps its holding as a
   struct of its own and does not test a lent one: what is lent is what it left there. */
#ifndef BENCH_TUNED_H
#define BENCH_TUNED_H

#include "hundurzek.h"

/* The systems of a mask as they are sent: bits at most, five times 61 and fifteen signals of 64 satellites in cell
   masks, and words of 56 of them. */
enum { TUNED_SATELLITES = 64, TUNED_CELLS = 256, TUNED_BITS = 5 * 61 + 15 * 64, TUNED_WORDS = TUNED_BITS / 56 + 1 };

/* Half a row; of a key, the first half: system, satellite, signal place, v1. */
typedef struct {
  int32_t number[HUNDURZEK_ROW / 2];
} tuned_half;

/* A satellite's first cell, and the one after its last. */
typedef struct {
  uint16_t first;
  uint16_t past;
} tuned_strip;

/* The satellites' keys end where their list ends, the last satellite first: so a satellite's index in them is that of
   its bit in a selection. Galileo's, if any, stand together, with so many after them. Cells stand from the first on;
   which of them are a satellite's stands in its strip, if it has any. Two masks are the same where their gates and
   systems as sent are: no mask can be sent in two ways. */
typedef struct {
  uint32_t gate; /* the IOD SSR, and 16 where the mask is held: 0 holds nothing */
  uint32_t satellites;
  uint32_t cells;
  uint32_t orbit_bits; /* of all satellites */
  uint32_t galileo;
  uint32_t after_galileo;
  uint64_t celled; /* the satellites with a cell, as a selection has them */
  uint64_t sent_bits;
  uint64_t sent[TUNED_WORDS];
  tuned_strip strip[TUNED_SATELLITES];
  tuned_half satellite[TUNED_SATELLITES];
  tuned_half cell[TUNED_CELLS];
} tuned_mask;

/* The mask held, and beside it room for the next, so that a good one need not be copied. All zero is the empty
   holding. */
typedef struct {
  uint64_t current;
  tuned_mask masks[2];
} tuned_holding;

/* As hundurzek_read; the bytes lent as a holding are those of a tuned_holding. */
__typeof__(hundurzek_read) tuned_read;

/* As hundurzek_walk; what is lent is tested once. */
__typeof__(hundurzek_walk) tuned_walk;

#endif
