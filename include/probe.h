/* Crate probe for C: fields of a byte string, most significant bit first, places counted from 0. All passes as
   docs/HOST.md has it. Each function takes every number there is; crates/probe/src/lib.rt states what it answers. */
#ifndef HUNDURZEK_PROBE_H
#define HUNDURZEK_PROBE_H

#include <stdbool.h>
#include <stdint.h>

/* The number in w bits at a place, bits past the last byte being 0; UINT64_MAX where w is over 56. */
uint64_t hundurzek_read_field(const uint8_t *bytes, uint64_t count, uint64_t w, uint64_t place);

/* Sets the w bits after the first skip to a number. False, and nothing changed, where skip is over 7,
   w over 56, the part too short or the number too large. */
bool hundurzek_write_field(uint8_t *part, uint64_t count, uint64_t skip, uint64_t w, uint64_t value);

/* Whether every bit from a place to end is zero. */
bool hundurzek_zero_from(const uint8_t *bytes, uint64_t count, uint64_t end, uint64_t place);

/* The w bits, 1 to 32, that mean an integer; UINT64_MAX for another width or an integer out of their range. */
uint64_t hundurzek_from_signed(int32_t z, uint64_t w);

#endif
