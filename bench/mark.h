/* Tells the instruction counter (bench/lib/icount.c) where what is counted begins and ends. */
#ifndef BENCH_MARK_H
#define BENCH_MARK_H

#include <unistd.h>

static inline void mark(void) { getppid(); }

#endif
