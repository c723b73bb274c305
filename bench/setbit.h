/* How GNSS libraries in C set a field today: one turn of a loop for each bit. These stand in a file of their own, as
   they do there, so that each field is a call. */
#ifndef BENCH_SETBIT_H
#define BENCH_SETBIT_H

#include <stdint.h>

/* Sets len bits (at most 32) at bit place pos to the unsigned number, or to the two's complement number. */
void setbitu(uint8_t *buff, int pos, int len, uint32_t data);
void setbits(uint8_t *buff, int pos, int len, int32_t data);

#endif
