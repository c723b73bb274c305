/* The stretches that the benches read; the same ones at every run. */
#ifndef BENCH_STRETCHES_H
#define BENCH_STRETCHES_H

#include "encode.h"

/* Five data parts, as one subframe of CLAS has; an hour of them; the most stretches that an input has. */
enum { SUBFRAME = 5 * PART, HOUR = 720, MOST = 8 * HOUR };

/* Makes at most MOST stretches of the input with this name, and answers how many: 0 where there is none.

     a        an hour as a CLAS receiver sees it
     b        64 satellites, 256 cells, sub type 5 back to back
     c        clocks of 37 bits under a mask of no systems, back to back
     d        (b)'s mask, sub type 6 with code and phase biases and no network back to back
     e1       masks back to back, of 64 satellites of five systems, four signals, 256 cells in cell masks
     e2       masks back to back, of no systems
     e3       masks back to back, of 64 satellites of five systems, with cell flags and no signals
     e4       the same of two systems, the fewest that have 64 satellites
     f        sub type 10 of size 0 back to back
     g2 .. g7, g11    that sub type back to back under a mask of one satellite with one signal
     h        sub type 11 with flags 000 under 64 satellites of five systems, back to back: rows of keys alone
     bare     sub type 6 with a network under 64 satellites of five systems, every other one without a cell
     N        for growth: HOUR data parts of (a)'s messages, a mask in each, always the same ones, back to back in
              stretches of N parts, which divides HOUR
     damaged  stretches of all of these but (b) and (c) with bits turned around, and cut */
#define DAMAGED "damaged"
size_t make_input(stretch *stretches, const char *name);

#endif
