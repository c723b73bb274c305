/* A writer of messages in the way that today's GNSS libraries are written: every field by setbitu or setbits, loops
   over satellites and signals. It gives the answers and the bytes of hundurzek_write, makes every test of document
   01's writer before it sets a bit, and takes what hundurzek_write takes: the lent holding is tested at each call
   while a struct is made of it, the one that the reader (bitwise.h) has. */
#ifndef BENCH_BITWISE_WRITE_H
#define BENCH_BITWISE_WRITE_H

#include "bitwise.h"

/* Makes what the reader holds of the bytes of a holding (docs/HOST.md): whether they are one. */
int bitwise_hold(bitwise_holding *held, const uint8_t *holding);

__typeof__(hundurzek_write) bitwise_write;

#endif
