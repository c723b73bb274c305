/* Calls of one kind at one width, with eight bytes left, for an instruction counter.

     fields KIND WIDTH ROUNDS    a round more is a call more at each of the eight alignments

   KIND is read or write; with -bits, a plain loop in C; with none- before it, a function that is one return. */
#include <stdint.h>
#include <stdlib.h>
#include <string.h>

#include "probe.h"

enum { COUNT = 16 };

/* The plain way: a loop over the bits. */
__attribute__((noinline)) static uint64_t read_bits(const uint8_t *bytes, uint64_t count, uint64_t w, uint64_t place) {
  uint64_t n = 0;
  (void)count;
  for (uint64_t k = place; k < place + w; k++) n = n << 1 | (bytes[k / 8] >> (7 - k % 8) & 1);
  return n;
}

__attribute__((noinline)) static bool write_bits(uint8_t *bytes, uint64_t count, uint64_t skip, uint64_t w,
                                                 uint64_t value) {
  (void)count;
  for (uint64_t k = 0; k < w; k++) {
    uint64_t place = skip + k;
    uint8_t mask = (uint8_t)(0x80 >> place % 8);
    if (value >> (w - 1 - k) & 1)
      bytes[place / 8] |= mask;
    else
      bytes[place / 8] &= (uint8_t)~mask;
  }
  return true;
}

typedef __typeof__(hundurzek_read_field) reader;
typedef __typeof__(hundurzek_write_field) writer;

__attribute__((naked)) static void nothing(void) { __asm__("ret"); }

static void read_all(int rounds, reader *f, const uint8_t *bytes, uint64_t w) {
  for (; rounds > 0; rounds--)
    for (uint64_t place = 0; place < 8; place++) f(bytes, COUNT, w, place);
}

static void write_all(int rounds, writer *f, uint8_t *bytes, uint64_t w, uint64_t value) {
  for (; rounds > 0; rounds--)
    for (uint64_t skip = 0; skip < 8; skip++) f(bytes, COUNT, skip, w, value);
}

int main(int argc, char **argv) {
  static uint8_t bytes[COUNT];
  if (argc != 4) return 2;
  int rounds = atoi(argv[3]);
  uint64_t w = (uint64_t)atoi(argv[2]);
  uint64_t value = (UINT64_C(1) << w) - 2;
  for (uint64_t i = 0; i < COUNT; i++) bytes[i] = (uint8_t)(37 * i + 11);
  if (!strcmp(argv[1], "none-read")) read_all(rounds, (reader *)nothing, bytes, w);
  else if (!strcmp(argv[1], "read")) read_all(rounds, hundurzek_read_field, bytes, w);
  else if (!strcmp(argv[1], "read-bits")) read_all(rounds, read_bits, bytes, w);
  else if (!strcmp(argv[1], "none-write")) write_all(rounds, (writer *)nothing, bytes, w, value);
  else if (!strcmp(argv[1], "write")) write_all(rounds, hundurzek_write_field, bytes, w, value);
  else if (!strcmp(argv[1], "write-bits")) write_all(rounds, write_bits, bytes, w, value);
  else return 2;
  return 0;
}
