/* Compares hundurzek_save and hundurzek_load with the second program (lib/streams.h, lib/texts.h). */
#include "texts.h"

enum { SAVE, LOAD, KINDS };
static kind kinds[KINDS] = {
    [SAVE] = {.name = "save", .least = 150000},
    [LOAD] = {.name = "load", .least = 200000},
};

/* Done, 12 and 1 that must come with good holdings, with bytes that are none, and with each kind of line buffer. */
static family savings[] = {
    {.name = "sweep of savings", .least = {300, 6000, 400}},
    {.name = "empty", .least = {2500, 0, 1000}},
    {.name = "no systems", .least = {2500, 0, 1000}},
    {.name = "any mask", .least = {10000, 0, 5000}},
    {.name = "limit met", .least = {2500, 0, 1000}},
    {.name = "wide cell mask", .least = {2500, 0, 1000}},
    {.name = "cell mask of no bits", .least = {2500, 0, 500}},
    {.name = "byte 0 over 1", .least = {0, 1000, 0}},
    {.name = "byte 0 under a mask", .least = {0, 1000, 0}},
    {.name = "IOD byte over 15", .least = {0, 1000, 0}},
    {.name = "number of systems", .least = {50, 1000, 50}},
    {.name = "number of satellites", .least = {0, 1000, 0}},
    {.name = "number of cells", .least = {0, 1000, 0}},
    {.name = "ID byte", .least = {200, 1000, 50}},
    {.name = "flag byte over 1", .least = {0, 1000, 0}},
    {.name = "other flag byte", .least = {500, 500, 200}},
    {.name = "satellite place 40", .least = {0, 1000, 0}},
    {.name = "unused system", .least = {0, 1000, 0}},
    {.name = "unused satellite", .least = {0, 1000, 0}},
    {.name = "strip", .least = {0, 1000, 0}},
    {.name = "cells counted anew", .least = {50, 1000, 0}},
    {.name = "satellites counted anew", .least = {50, 1000, 0}},
    {.name = "bad system", .least = {0, 1000, 0}},
    {.name = "reserved place", .least = {0, 1000, 0}},
    {.name = "over a limit", .least = {0, 1000, 0}},
    {.name = "one bit", .least = {50, 1000, 0}},
    {.name = "empty but for a byte", .least = {0, 1000, 0}},
    {.name = "random holding", .least = {0, 1000, 0}},
    {.name = "fewer bytes", .least = {0, 1000, 0}},
    {.name = "exact room", .least = {10000, 10000, 50}},
    {.name = "one byte less", .least = {0, 2500, 5000}},
    {.name = "less room", .least = {0, 1000, 2500}},
    {.name = "no room", .least = {0, 1000, 2500}},
    {.name = "one byte more", .least = {5000, 2500, 50}},
    {.name = "more room", .least = {5000, 2500, 0}},
    {.name = "room for all", .least = {5000, 2500, 0}},
};

/* The same with good lines of each kind of holding, with lines after an edit, and with each other kind of bad line. */
static family loadings[] = {
    {.name = "sweep of loadings", .least = {1000, 80000, 0}},
    {.name = "good line", .least = {50000, 0, 0}},
    {.name = "empty", .least = {2500, 0, 0}},
    {.name = "no systems", .least = {2500, 0, 0}},
    {.name = "any mask", .least = {10000, 0, 0}},
    {.name = "limit met", .least = {5000, 0, 0}},
    {.name = "wide cell mask", .least = {5000, 0, 0}},
    {.name = "cell mask of no bits", .least = {2500, 0, 0}},
    {.name = "another character", .least = {50, 500, 0}},
    {.name = "two other characters", .least = {0, 500, 0}},
    {.name = "any byte", .least = {0, 500, 0}},
    {.name = "one bit of a character", .least = {50, 500, 0}},
    {.name = "character dropped", .least = {0, 500, 0}},
    {.name = "character doubled", .least = {0, 500, 0}},
    {.name = "character put in", .least = {0, 500, 0}},
    {.name = "neighbours swapped", .least = {200, 200, 0}},
    {.name = "lower case", .least = {0, 500, 0}},
    {.name = "space for a tab", .least = {0, 500, 0}},
    {.name = "NUL", .least = {0, 500, 0}},
    {.name = "cut short", .least = {0, 500, 0}},
    {.name = "no line feed", .least = {0, 500, 0}},
    {.name = "CR for the line feed", .least = {0, 500, 0}},
    {.name = "CR LF", .least = {0, 500, 0}},
    {.name = "behind the line feed", .least = {0, 500, 0}},
    {.name = "in front", .least = {0, 500, 0}},
    {.name = "leading zero", .least = {0, 500, 0}},
    {.name = "wrapping number", .least = {0, 500, 0}},
    {.name = "sign or space", .least = {0, 500, 0}},
    {.name = "IOD over 15", .least = {0, 500, 0}},
    {.name = "ID over 4", .least = {0, 500, 0}},
    {.name = "ID doubled", .least = {0, 500, 0}},
    {.name = "place without assignment", .least = {0, 500, 0}},
    {.name = "limit passed", .least = {0, 1000, 0}},
    {.name = "another flag", .least = {200, 1000, 0}},
    {.name = "spare bits set", .least = {0, 1000, 0}},
    {.name = "cells padded in front", .least = {500, 500, 0}},
    {.name = "zero digit at the cells", .least = {0, 500, 0}},
    {.name = "cell digit missing", .least = {0, 500, 0}},
    {.name = "other cells for none", .least = {0, 500, 0}},
    {.name = "mask with a digit more", .least = {0, 500, 0}},
    {.name = "mask with a digit less", .least = {0, 500, 0}},
    {.name = "field dropped", .least = {0, 500, 0}},
    {.name = "field doubled", .least = {0, 500, 0}},
    {.name = "field put in", .least = {0, 500, 0}},
    {.name = "field emptied", .least = {0, 500, 0}},
    {.name = "fields swapped", .least = {50, 500, 0}},
    {.name = "fields cut", .least = {50, 500, 0}},
    {.name = "near the empty one", .least = {50, 1000, 0}},
    {.name = "no bytes", .least = {0, 200, 0}},
    {.name = "random bytes", .least = {0, 200, 0}},
    {.name = "random characters", .least = {0, 500, 0}},
    {.name = "long line", .least = {0, 200, 0}},
};

enum { SAVINGS = sizeof savings / sizeof *savings, LOADINGS = sizeof loadings / sizeof *loadings };

static void compare_save(kind *k) {
  take_text(&line);
  hundurzek_done want = take_done(&line), *got = lend_result(sizeof *got);
  const void *out = hundurzek_save(got, holding.got, holding.count, line.got, line.count);
  compare_done(got, out, &want);
  compare_lent();
  count_answer(k, savings, SAVINGS, want.answer);
}

/* The loading that is expected. */
static hundurzek_loaded take_loaded(void) {
  hundurzek_loaded want;
  want.answer = number(1);
  if (number(8) != 0 || number(4) != sizeof want.holding) broken("no holding is loaded");
  get(want.holding, sizeof want.holding);
  return want;
}

static void compare_load(kind *k) {
  take_text(&stretch);
  hundurzek_loaded want = take_loaded(), *got = lend_result(sizeof *got);
  const void *out = hundurzek_load(got, line.got, line.count);
  if (out != got) differ("another pointer is returned");
  compare("answer", got->answer, want.answer);
  for (size_t i = 0; i < sizeof want.holding; i++)
    if (got->holding[i] != want.holding[i])
      differ("loaded byte %zu is %u, expected %u", i, got->holding[i], want.holding[i]);
  compare_lent();
  count_answer(k, loadings, LOADINGS, want.answer);
}

static void compare_saved(kind *k) {
  if (k == &kinds[SAVE])
    compare_save(k);
  else
    compare_load(k);
}

int main(void) {
  compare_streams(kinds, KINDS, compare_saved);
  print_answers(kinds, KINDS);
  judge_families(savings, SAVINGS);
  judge_families(loadings, LOADINGS);
  return finish();
}
