/* Compares hundurzek_read, and hundurzek_empty, with the second program (lib/streams.h). */
#include <string.h>

#include "changed.h"
#include "missing.h"
#include "readings.h"
#include "refused.h"

/* What is counted: each stop, messages, each sub type of these, and masks that were taken right after 13. */
enum { MESSAGES = STOPS, SUBTYPE, TAKEN = SUBTYPE + 16 };

enum { FIXED, READ, STRETCH, KINDS };
static kind kinds[KINDS] = {
    [FIXED] = {.name = "fixed", .least = 10000},
    [READ] = {.name = "read", .least = 300000},
    [STRETCH] = {.name = "stretch", .least = 20000},
};

/* ---- readings */

static missing_counts missing[KINDS];
static changed_counts changed[KINDS];

/* While the holding is still the one that is lent. */
static void count_answer(kind *k, const hundurzek_reading *want) {
  bool message = want->answer == HUNDURZEK_MESSAGE;
  k->calls++;
  k->counts[message ? MESSAGES : want->answer]++;
  if (message) k->counts[SUBTYPE + want->head.subtype]++;
  count_missing(&missing[k - kinds], want->answer, want->missing);
  count_changed(&changed[k - kinds], want->answer, want->place, holding.got);
  count_refused(want->answer, want->place);
}

/* Readings one after another, each at the place where the one before must end: after 13 the same message again, which
   is taken now that nothing is held. */
static void compare_readings(kind *k) {
  take_stretch();
  unsigned long readings = number(4);
  bool dropped = false;
  for (; now.call <= readings; now.call++) {
    hundurzek_reading want = take_reading();
    count_answer(k, &want);
    compare_reading(&stretch, &want);
    k->counts[TAKEN] += dropped && want.answer == HUNDURZEK_MESSAGE && want.head.subtype == 1;
    dropped = want.answer == CHANGED_MASK;
    now.place = want.place;
  }
}

/* hundurzek_empty: the empty holding where there is room for it, else nothing changed. */
static void compare_empty(void) {
  now.kind = "hundurzek_empty";
  lend(&stretch, 0);
  lend(&rows, 0);
  for (size_t count = 0; count <= 2 * HUNDURZEK_HOLDING; count++) {
    bool room = count >= HUNDURZEK_HOLDING;
    now.record = count;
    lend(&holding, count);
    memset(holding.got, 0x5A, count);
    memset(holding.want, 0x5A, count);
    if (room) memset(holding.want, 0, HUNDURZEK_HOLDING);
    compare("answer", hundurzek_empty(holding.got, count), room ? 0 : 1);
    compare_lent();
  }
}

/* ---- what came */

/* How often it came in each stream; in the single readings so often at least. */
static void judge(const char *what, unsigned long which, size_t count, unsigned long least) {
  print_counts(what, which, kinds, KINDS, count);
  need(kinds[READ].counts[count], least, what, which);
}

/* Every stop and every sub type often, messages over a third of the single readings; beside 3 few bits missing, and
   many; 13 by each kind of change, and masks taken after it; in all streams together sub types 6 and 7 refused often
   for each field. */
static void judge_all(void) {
  static const unsigned subtypes[] = {1, 2, 3, 4, 5, 6, 7, 10, 11};
  for (unsigned i = 0; i < STOPS; i++) judge("answer", i, i, i == CHANGED_MASK ? 2000 : 1000);
  judge("answer", HUNDURZEK_MESSAGE, MESSAGES, kinds[READ].calls / 3 + 1);
  for (size_t i = 0; i < sizeof subtypes / sizeof *subtypes; i++)
    judge("sub type", subtypes[i], SUBTYPE + subtypes[i], 1000);
  judge_missing(missing, KINDS, READ, 1000, 1000);
  judge("mask after", CHANGED_MASK, TAKEN, 2000);
  judge_changed(changed, KINDS, READ, 1000);
  judge_refused(1000);
}

int main(void) {
  compare_empty();
  compare_streams(kinds, KINDS, compare_readings);
  judge_all();
  return finish();
}
