#include "streams.h"

#include <fcntl.h>
#include <inttypes.h>
#include <stdarg.h>
#include <stdio.h>
#include <stdlib.h>
#include <string.h>
#include <unistd.h>

/* Differing calls that are told; the rest is only counted. */
enum { TOLD = 10 };

case_name now;

static unsigned long passed, failed;

/* ---- the streams */

int finish(void) {
  printf("%lu passed, %lu failed\n", passed, failed);
  return failed != 0;
}

void broken(const char *what) {
  printf("the stream is broken: %s\n", what);
  failed++;
  exit(finish());
}

/* The next block of the standard input, which is a file for a machine without a system, too: the emulator reads it. */
static size_t next_block(uint8_t *block, size_t size) {
  static int input = -1;
  if (input < 0) input = open("/dev/stdin", O_RDONLY);
  ssize_t count = read(input, block, size);
  if (count < 0) broken("it cannot be read");
  return (size_t)count;
}

/* The next bytes, up to so many: fewer only at the end. */
static size_t take(uint8_t *to, size_t count) {
  static uint8_t block[1 << 16];
  static size_t at, filled;
  size_t taken = 0;
  while (taken < count) {
    if (at == filled) {
      at = 0;
      filled = next_block(block, sizeof block);
      if (filled == 0) break;
    }
    size_t some = count - taken < filled - at ? count - taken : filled - at;
    memcpy(to + taken, block + at, some);
    taken += some;
    at += some;
  }
  return taken;
}

void get(void *to, size_t count) {
  if (take(to, count) != count) broken("it ends early");
}

uint64_t number(size_t width) {
  uint8_t bytes[8];
  uint64_t n = 0;
  get(bytes, width);
  while (width-- > 0) n = n << 8 | bytes[width];
  return n;
}

/* ---- what comes in a record */

void take_lent(buffer *b, size_t count) {
  lend(b, count);
  get(b->got, count);
  memcpy(b->want, b->got, count);
}

void take_family(void) {
  size_t letters = number(1);
  get(now.family, letters);
  now.family[letters] = 0;
  now.end = now.place = 0;
  now.call = 1;
}

void take_stretch(void) {
  take_lent(&holding, number(2));
  take_lent(&stretch, number(4));
  now.end = number(8);
  now.place = number(8);
  size_t row_count = number(4);
  fill_numbers(&rows, row_count, number(8));
}

uint64_t bits(uint64_t place, unsigned count) {
  uint64_t n = 0;
  for (; count > 0; count--, place++) n = n << 1 | (stretch.want[place / 8] >> (7 - place % 8) & 1);
  return n;
}

/* ---- comparing */

static bool same = true;
static unsigned long told;

static void tell_case(void) {
  printf("%s %lu (%s), call %lu", now.kind, now.record, now.family, now.call);
  if (now.end > 0) printf(" at place %" PRIu64 " of %" PRIu64 " bits", now.place, now.end);
  tell_lent();
}

void differ(const char *format, ...) {
  if (same && told++ < TOLD) tell_case();
  same = false;
  if (told > TOLD) return;
  va_list values;
  va_start(values, format);
  printf("  ");
  vprintf(format, values);
  printf("\n");
  va_end(values);
}

void compare(const char *what, uint64_t got, uint64_t want) {
  if (got != want) differ("%s %" PRIu64 ", expected %" PRIu64, what, got, want);
}

void compare_lent(void) {
  compare_buffers();
  if (same)
    passed++;
  else
    failed++;
  same = true;
}

void compare_done(const hundurzek_done *got, const void *out, const hundurzek_done *want) {
  if (out != got) differ("another pointer is returned");
  compare("answer", got->answer, want->answer);
  compare("place", got->place, want->place);
  compare("count", got->count, want->count);
}

/* ---- all streams, and what came */

static void compare_stream(kind *k, void compare_record(kind *k)) {
  uint64_t records = number(8);
  now.kind = k->name;
  for (now.record = 1; now.record <= records; now.record++, k->records++) {
    take_family();
    compare_record(k);
  }
}

static kind *kind_of(kind *kinds, size_t count, const char *name) {
  for (kind *k = kinds; k < kinds + count; k++)
    if (strncmp(k->name, name, 8) == 0) return k;
  broken("no such kind");
}

void compare_streams(kind *kinds, size_t count, void compare_record(kind *k)) {
  uint8_t name[8];
  size_t letters;
  while ((letters = take(name, sizeof name)) == sizeof name)
    compare_stream(kind_of(kinds, count, (const char *)name), compare_record);
  if (letters > 0) broken("it ends early");
  for (size_t k = 0; k < count; k++) need(kinds[k].records, kinds[k].least, kinds[k].name, kinds[k].records);
  printf("%19s", "");
  for (size_t k = 0; k < count; k++) printf(" %9s", kinds[k].name);
  printf("\n");
}

void print_counts(const char *what, unsigned long which, const kind *kinds, size_t count, size_t counted) {
  printf("%-15s %3lu", what, which);
  for (size_t k = 0; k < count; k++) printf(" %9lu", kinds[k].counts[counted]);
  printf("\n");
}

void need(unsigned long came, unsigned long least, const char *what, unsigned long which) {
  if (came >= (least + PART - 1) / PART) return;
  printf("too few: %s %lu\n", what, which);
  failed++;
}
