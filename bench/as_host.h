/* The tuned writer with hundurzek_write's own holding, so that what compares that one can compare it: makes what it has
   beside the lent bytes at every call. */
#ifndef BENCH_AS_HOST_H
#define BENCH_AS_HOST_H

#include "hundurzek.h"

__typeof__(hundurzek_write) tuned_as_host;

#endif
