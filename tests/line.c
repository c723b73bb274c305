/* Compares hundurzek_line with the second program (lib/streams.h, lib/texts.h). */
#include "texts.h"

enum { LINE, KINDS };
static kind kinds[KINDS] = {
    [LINE] = {.name = "line", .least = 200000},
};

/* Done, 12 and 1 that must come with good lines by their lengths, with lines after an edit, with each other kind of bad
   line, and with each kind of buffer. */
static family families[] = {
    {.name = "sweep of inputs", .least = {2000, 80000, 20}},
    {.name = "good line", .least = {50000, 0, 5000}},
    {.name = "no bits", .least = {1000, 0, 0}},
    {.name = "up to 16 bits", .least = {5000, 0, 2500}},
    {.name = "up to 600 bits", .least = {10000, 0, 2500}},
    {.name = "up to 6000 bits", .least = {1000, 0, 200}},
    {.name = "up to 50840 bits", .least = {500, 0, 50}},
    {.name = "up to 50850 bits", .least = {500, 0, 200}},
    {.name = "another character", .least = {50, 500, 50}},
    {.name = "two other characters", .least = {50, 500, 0}},
    {.name = "any byte", .least = {0, 500, 0}},
    {.name = "one bit of a character", .least = {50, 500, 50}},
    {.name = "character dropped", .least = {0, 500, 0}},
    {.name = "character doubled", .least = {0, 500, 0}},
    {.name = "character put in", .least = {0, 500, 0}},
    {.name = "neighbours swapped", .least = {200, 200, 50}},
    {.name = "lower case", .least = {50, 500, 50}},
    {.name = "space for a tab", .least = {0, 500, 0}},
    {.name = "NUL", .least = {0, 500, 0}},
    {.name = "cut short", .least = {0, 500, 0}},
    {.name = "no line feed", .least = {0, 500, 0}},
    {.name = "CR for the line feed", .least = {0, 500, 0}},
    {.name = "CR LF", .least = {0, 500, 0}},
    {.name = "behind the line feed", .least = {0, 500, 0}},
    {.name = "in front", .least = {0, 500, 0}},
    {.name = "another count", .least = {50, 1000, 50}},
    {.name = "leading zero", .least = {0, 1000, 0}},
    {.name = "wrapping count", .least = {0, 1000, 0}},
    {.name = "sign or space", .least = {0, 1000, 0}},
    {.name = "count in hex", .least = {50, 200, 0}},
    {.name = "no count", .least = {0, 1000, 0}},
    {.name = "no tab", .least = {0, 1000, 0}},
    {.name = "two tabs", .least = {0, 1000, 0}},
    {.name = "digits before the count", .least = {0, 500, 0}},
    {.name = "digit missing", .least = {0, 1000, 0}},
    {.name = "digit too many", .least = {0, 1000, 0}},
    {.name = "spare bits set", .least = {0, 1000, 0}},
    {.name = "lower case digit", .least = {0, 1000, 0}},
    {.name = "over 50850 bits", .least = {0, 1000, 0}},
    {.name = "count over 50850", .least = {0, 1000, 0}},
    {.name = "empty line", .least = {0, 500, 0}},
    {.name = "no bytes", .least = {0, 500, 0}},
    {.name = "random bytes", .least = {0, 500, 0}},
    {.name = "random characters", .least = {0, 1000, 0}},
    {.name = "long line", .least = {0, 500, 0}},
    {.name = "exact room", .least = {10000, 10000, 0}},
    {.name = "one byte less", .least = {200, 5000, 2500}},
    {.name = "less room", .least = {50, 2500, 1000}},
    {.name = "no room", .least = {50, 2500, 1000}},
    {.name = "one byte more", .least = {2500, 5000, 0}},
    {.name = "more room", .least = {2500, 5000, 0}},
    {.name = "room for all", .least = {2500, 5000, 0}},
};
enum { FAMILIES = sizeof families / sizeof *families };

static void compare_line(kind *k) {
  take_text(&stretch);
  hundurzek_done want = take_done(&stretch), *got = lend_result(sizeof *got);
  const void *out = hundurzek_line(got, line.got, line.count, stretch.got, stretch.count);
  compare_done(got, out, &want);
  compare_lent();
  count_answer(k, families, FAMILIES, want.answer);
}

int main(void) {
  compare_streams(kinds, KINDS, compare_line);
  print_answers(kinds, KINDS);
  judge_families(families, FAMILIES);
  return finish();
}
