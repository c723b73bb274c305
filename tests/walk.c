/* Compares hundurzek_walk with the second program (lib/streams.h). */
#include <stdio.h>
#include <string.h>

#include "changed.h"
#include "missing.h"
#include "refused.h"
#include "streams.h"

/* What is counted: each stop, each stop after a message, walks of many messages, walks that were lent what the walk
   before left, and of these the ones that took a mask where it had stopped with 13. */
enum { AFTER = STOPS, LONG = 2 * STOPS, KEPT, TAKEN, MANY = 30 };

enum { BENCH, WALK, KINDS };
static kind kinds[KINDS] = {
    [BENCH] = {.name = "bench", .least = 5000},
    [WALK] = {.name = "walk", .least = 20000},
};

static missing_counts missing[KINDS];
static changed_counts changed[KINDS];

/* The walk that is expected; the buffers are wanted as it leaves them. */
static hundurzek_walked take_expected(void) {
  hundurzek_walked want;
  want.answer = number(1);
  want.place = number(8);
  want.missing = number(8);
  want.messages = number(8);
  want.rows = number(8);
  get(holding.want, holding.count);
  size_t changed = number(4);
  if (want.answer >= STOPS || changed > rows.count / 4) broken("no such answer");
  get(rows.want, 4 * changed);
  return want;
}

/* What is held at a place where a walk stops: what the stretch leaves that ends there. */
static const uint8_t *held_at(uint64_t place) {
  static uint8_t held[HUNDURZEK_HOLDING];
  static int32_t unused[HUNDURZEK_ROOM];
  hundurzek_walked walked;
  memcpy(held, holding.got, sizeof held);
  hundurzek_walk(&walked, held, sizeof held, stretch.got, stretch.count, place, unused, HUNDURZEK_ROOM);
  return held;
}

/* While the holding is still the one that is lent. */
static void count_walk(kind *k, const hundurzek_walked *want, bool kept) {
  static bool dropped; /* by the walk before */
  k->counts[want->answer]++;
  if (want->messages > 0) k->counts[AFTER + want->answer]++;
  if (want->messages > MANY) k->counts[LONG]++;
  if (kept) k->counts[KEPT]++;
  if (kept && dropped && holding.want[HELD]) k->counts[TAKEN]++;
  dropped = want->answer == CHANGED_MASK;
  count_missing(&missing[k - kinds], want->answer, want->missing);
  if (dropped) count_changed(&changed[k - kinds], want->answer, want->place, held_at(want->place));
  count_refused(want->answer, want->place);
}

static void compare_walk(kind *k) {
  static uint8_t left[HUNDURZEK_HOLDING]; /* by the walk before */
  take_stretch();
  bool sufficient = holding.count >= sizeof left;
  bool kept = sufficient && memcmp(holding.got, left, sizeof left) == 0;
  hundurzek_walked want = take_expected(), *got = lend_result(sizeof *got);
  count_walk(k, &want, kept);
  const void *out = hundurzek_walk(got, holding.got, holding.count, stretch.got, stretch.count,
                                   now.end, numbers(rows.got), rows.count / 4);
  if (sufficient) memcpy(left, holding.got, sizeof left);
  if (out != got) differ("another pointer is returned");
  compare("stop", got->answer, want.answer);
  compare("place", got->place, want.place);
  compare_missing(got->answer, got->missing, want.missing);
  compare("messages", got->messages, want.messages);
  compare("rows", got->rows, want.rows);
  compare_dropped(want.answer);
  compare_lent();
}

/* How often it came; in the random walks so often at least. */
static void judge(const char *what, unsigned long which, size_t count, unsigned long least) {
  print_counts(what, which, kinds, KINDS, count);
  need(kinds[WALK].counts[count], least, what, which);
}

/* Every stop often; also after a message, but for those that come before any; beside 3 few bits missing, and many; 13
   by each kind of change, and a mask taken in the next walk; sub types 6 and 7 refused for each field; the holding kept
   in most walks. */
static void judge_all(void) {
  unsigned long kept = kinds[WALK].counts[KEPT];
  for (unsigned i = 0; i < STOPS; i++) judge("stop", i, i, i == CHANGED_MASK ? 2000 : 100);
  for (unsigned i = 0; i < STOPS; i++) judge("after a message", i, AFTER + i, i == 1 || i == 2 || i == 12 ? 0 : 100);
  judge("messages over", MANY, LONG, 100);
  judge_missing(missing, KINDS, WALK, 300, 500);
  judge("mask after", CHANGED_MASK, TAKEN, 1000);
  judge_changed(changed, KINDS, WALK, 100);
  judge_refused(100);
  printf("%lu random walks were lent what the walk before left\n", kept);
  need(kept, kinds[WALK].records / 2, "kept", kept);
}

int main(void) {
  compare_streams(kinds, KINDS, compare_walk);
  judge_all();
  return finish();
}
