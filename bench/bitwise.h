/* A reader of messages in the way that today's GNSS libraries are written: every field by getbitu or getbits, loops
   over satellites and signals. It gives the answers, heads and rows of hundurzek_read and hundurzek_walk, and takes
   what those take, but keeps its holding as a struct of its own. */
#ifndef BENCH_BITWISE_H
#define BENCH_BITWISE_H

#include "hundurzek.h"

/* One system of the mask: how many signals, and their places, ascending. */
typedef struct {
  int id;
  int signals;
  int signal[16];
} bitwise_system;

/* One satellite of the mask: its system's index, its number, a bit for each of the system's signals, first signal
   highest, that is set where the signal counts for it, and how many are. */
typedef struct {
  int system;
  int number;
  uint32_t cells;
  int cell_count;
} bitwise_satellite;

/* All zero is the empty holding. */
typedef struct {
  int held;
  int iod;
  int systems;
  int satellites;
  int cells;
  bitwise_system system[5];
  bitwise_satellite satellite[64];
  int flag[5]; /* each system's cell flag */
} bitwise_holding;

/* As hundurzek_read; the bytes lent as a holding are those of a bitwise_holding. */
__typeof__(hundurzek_read) bitwise_read;

/* As hundurzek_walk; what is lent is tested once. */
__typeof__(hundurzek_walk) bitwise_walk;

#endif
