/* How GNSS libraries in C get a field today: one turn of a loop for each bit. These stand in a file of their
   own, as they do there, so that each field is a call. */
#ifndef BENCH_GETBIT_H
#define BENCH_GETBIT_H

#include <stdint.h>

/* The unsigned number, and the two's complement number, in len bits (at most 32) at bit place pos. */
uint32_t getbitu(const uint8_t *buff, int pos, int len);
int32_t getbits(const uint8_t *buff, int pos, int len);

#endif
