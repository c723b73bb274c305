#include "changed.h"

#include <stdio.h>
#include <string.h>

static const char *const names[CHANGES] = {"number of systems", "system ID", "order of systems", "satellite mask",
                                           "signal mask",       "cell flag", "cell mask"};

/* The numbers of a system, in the order sent: bits in the message, where they are in a holding, and in how many bytes
   (docs/HOST.md). */
enum { ID, PLACES, SIGNALS, FLAG, PARTS };
static const unsigned widths[PARTS] = {4, 40, 16, 1}, offsets[PARTS] = {6, 26, 16, 11}, sizes[PARTS] = {1, 8, 2, 1};

/* Number of systems: in a message before the systems, and a holding's byte. */
enum { MOST = 5, HEAD = 45, COUNT = 4, HELD_COUNT = 2 };

typedef struct {
  uint64_t count, number[MOST][PARTS];
} mask;

void compare_dropped(uint64_t answer) {
  static const uint8_t empty[HUNDURZEK_HOLDING];
  if (answer == CHANGED_MASK && memcmp(holding.got, empty, sizeof empty) != 0)
    differ("a mask is held after answer 13");
}

/* ---- the two masks, but for their cells */

/* Only a good mask is refused with 13, and only a good one is held. */
static mask mask_of(uint64_t count) {
  if (count > MOST) broken("13 for what is no mask");
  return (mask){.count = count};
}

static mask mask_held(const uint8_t *bytes) {
  mask m = mask_of(bytes[HELD_COUNT]);
  for (size_t k = 0; k < m.count; k++)
    for (size_t part = 0; part < PARTS; part++)
      for (size_t i = sizes[part]; i-- > 0;)
        m.number[k][part] = m.number[k][part] << 8 | bytes[offsets[part] + sizes[part] * k + i];
  return m;
}

/* Where a system's flag is set its cell mask stands behind it. */
static mask mask_sent(uint64_t place) {
  mask m = mask_of(bits(place + HEAD, COUNT));
  place += HEAD + COUNT;
  for (size_t k = 0; k < m.count; k++) {
    uint64_t *system = m.number[k];
    for (size_t part = 0; part < PARTS; place += widths[part++]) system[part] = bits(place, widths[part]);
    if (system[FLAG])
      place += (uint64_t)(__builtin_popcountll(system[PLACES]) * __builtin_popcountll(system[SIGNALS]));
  }
  return m;
}

/* ---- in what they differ */

static bool has_system(const mask *m, uint64_t id) {
  for (size_t k = 0; k < m->count; k++)
    if (m->number[k][ID] == id) return true;
  return false;
}

static bool same_systems(const mask *a, const mask *b) {
  for (size_t k = 0; k < a->count; k++)
    if (!has_system(b, a->number[k][ID])) return false;
  return true;
}

static bool same_part(const mask *a, const mask *b, size_t part) {
  for (size_t k = 0; k < a->count; k++)
    if (a->number[k][part] != b->number[k][part]) return false;
  return true;
}

/* The numbers of a system change in the order in which changes are counted; where all are the same it is the cells. */
static size_t change_of(const mask *held, const mask *sent) {
  if (held->count != sent->count) return SYSTEM_COUNT;
  if (!same_systems(held, sent)) return SYSTEM_ID;
  for (size_t part = ID; part < PARTS; part++)
    if (!same_part(held, sent, part)) return SYSTEM_ORDER + part;
  return CELL_MASK;
}

void count_changed(changed_counts *counts, uint64_t answer, uint64_t place, const uint8_t *held) {
  if (answer != CHANGED_MASK) return;
  mask before = mask_held(held), sent = mask_sent(place);
  counts->often[change_of(&before, &sent)]++;
}

void judge_changed(const changed_counts *kinds, size_t count, size_t judged, unsigned long least) {
  for (size_t change = 0; change < CHANGES; change++) {
    printf("13 by: %-17s", names[change]);
    for (size_t k = 0; k < count; k++) printf(" %9lu", kinds[k].often[change]);
    printf("\n");
    need(kinds[judged].often[change], least, names[change], kinds[judged].often[change]);
  }
}
