/* Prints an input of the benches (bench/stretches.h) as lines of the listing's input: bit count, tab, hex. */
#include <inttypes.h>
#include <stdio.h>
#include <stdlib.h>

#include "stretches.h"

static void print_line(const stretch *s) {
  printf("%" PRIu64 "\t", s->end);
  for (uint64_t digit = 0; 4 * digit < s->end; digit++)
    printf("%X", s->bytes[digit / 2] >> (digit % 2 ? 0 : 4) & 15U);
  putchar('\n');
}

int main(int argc, char **argv) {
  stretch *stretches = malloc(MOST * sizeof *stretches);
  if (argc != 2 || !stretches) return 2;
  size_t count = make_input(stretches, argv[1]);
  for (size_t i = 0; i < count; i++) print_line(&stretches[i]);
  free(stretches);
  return count > 0 ? 0 : 1;
}
