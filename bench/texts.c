/* The functions for lines of text, called for each stretch of an input.

     texts FUNCTION INPUT    the deepest stack of a call, in bytes

   FUNCTION is save, of the holding that walks up to the stretch leave; load, of what that says, and of the same with its
   last character gone; or line, of the stretch as a line of the listing's input. INPUT is one of stretches.h. */
#include <inttypes.h>
#include <stdbool.h>
#include <stdio.h>
#include <string.h>

#include "hundurzek.h"
#include "meter.h"
#include "stretches.h"

/* ---- functions: ours, and those that do nothing, whose stack is their return address */

typedef struct {
  __typeof__(hundurzek_save) *save;
  __typeof__(hundurzek_load) *load;
  __typeof__(hundurzek_line) *line;
} functions;

static hundurzek_done *no_save(hundurzek_done *out, const uint8_t *holding, uint64_t holding_count, uint8_t *line,
                               uint64_t line_count) {
  (void)holding, (void)holding_count, (void)line, (void)line_count;
  return out;
}

static hundurzek_loaded *no_load(hundurzek_loaded *out, const uint8_t *line, uint64_t line_count) {
  (void)line, (void)line_count;
  return out;
}

static hundurzek_done *no_line(hundurzek_done *out, const uint8_t *line, uint64_t line_count, uint8_t *bytes,
                               uint64_t count) {
  (void)line, (void)line_count, (void)bytes, (void)count;
  return out;
}

static const functions ours = {hundurzek_save, hundurzek_load, hundurzek_line}, none = {no_save, no_load, no_line};
static const functions *called;

/* ---- what they are called with */

enum { LINE = 6 + (8 * HUNDURZEK_STRETCH) / 4 + 2 };
static stretch stretches[MOST];
static size_t stretch_count;
static struct {
  uint8_t holding[HUNDURZEK_HOLDING];
  uint8_t saved[HUNDURZEK_LINE];
  uint64_t saved_count;
} kept[MOST];
static uint8_t lines[MOST][LINE];
static uint64_t line_counts[MOST];

static void keep_line(size_t k) {
  const stretch *s = &stretches[k];
  int at = sprintf((char *)lines[k], "%" PRIu64 "\t", s->end);
  for (uint64_t digit = 0; 4 * digit < s->end; digit++)
    at += sprintf((char *)lines[k] + at, "%X", s->bytes[digit / 2] >> (digit % 2 ? 0 : 4) & 15U);
  lines[k][at] = '\n';
  line_counts[k] = (uint64_t)at + 1;
}

static bool keep_all(void) {
  static int32_t rows[HUNDURZEK_ROOM];
  uint8_t holding[HUNDURZEK_HOLDING];
  hundurzek_empty(holding, sizeof holding);
  for (size_t k = 0; k < stretch_count; k++) {
    hundurzek_walked walked;
    hundurzek_done done;
    hundurzek_walk(&walked, holding, sizeof holding, stretches[k].bytes, (stretches[k].end + 7) / 8, stretches[k].end,
                   rows, HUNDURZEK_ROOM);
    memcpy(kept[k].holding, holding, sizeof holding);
    hundurzek_save(&done, holding, sizeof holding, kept[k].saved, sizeof kept[k].saved);
    if (done.answer != HUNDURZEK_DONE) return false;
    kept[k].saved_count = done.count;
    keep_line(k);
  }
  return true;
}

/* ---- the calls */

static void save_all(void) {
  uint8_t line[HUNDURZEK_LINE];
  hundurzek_done done;
  for (size_t k = 0; k < stretch_count; k++)
    called->save(&done, kept[k].holding, sizeof kept[k].holding, line, sizeof line);
}

static void load_all(void) {
  hundurzek_loaded loaded;
  for (size_t k = 0; k < stretch_count; k++) {
    called->load(&loaded, kept[k].saved, kept[k].saved_count);
    called->load(&loaded, kept[k].saved, kept[k].saved_count - 1);
  }
}

static void take_all(void) {
  static uint8_t bytes[HUNDURZEK_STRETCH];
  hundurzek_done done;
  for (size_t k = 0; k < stretch_count; k++) called->line(&done, lines[k], line_counts[k], bytes, sizeof bytes);
}

/* The return address and all below it. */
static size_t deepest(job *all) {
  called = &none;
  size_t returning = painted_after(all) + sizeof(void *);
  called = &ours;
  return returning - painted_after(all);
}

int main(int argc, char **argv) {
  if (argc != 3) return 2;
  job *all = !strcmp(argv[1], "save") ? save_all : !strcmp(argv[1], "load") ? load_all : take_all;
  stretch_count = make_input(stretches, argv[2]);
  if (stretch_count == 0 || !keep_all()) return 1;
  printf("%zu\n", deepest(all));
  return 0;
}
