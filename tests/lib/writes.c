#include "writes.h"

#include <inttypes.h>
#include <stdio.h>

slice_counts lent;
uint64_t counted;

/* ---- records */

void lend_all(void) { lent = (slice_counts){holding.count, head.count / 4, rows.count / 4}; }

/* A slice of elements of this size, of whose counts each has this width. */
static size_t take_slice(buffer *b, size_t size, size_t width) {
  size_t count = number(width);
  take_lent(b, size * number(width));
  if (size * count > b->count) broken("more is lent than there is");
  return count;
}

void take_writing(void) {
  lent.holding = take_slice(&holding, 1, 2);
  lent.head = take_slice(&head, 4, 2);
  lent.rows = take_slice(&rows, 4, 4);
  counted = number(8);
  size_t room = number(4);
  fill_bytes(&target, room, number(8));
  now.place = number(8);
}

hundurzek_done take_written(void) {
  hundurzek_done want;
  want.answer = number(1);
  want.place = number(8);
  want.count = number(8);
  if (want.answer != HUNDURZEK_DONE) return want;
  uint64_t from = now.place / 8, to = (want.place + 7) / 8;
  if (from > to || to > target.count) broken("more is written than there is room for");
  get(target.want + from, to - from);
  return want;
}

int32_t head_number(size_t column) {
  return column < lent.head ? numbers(head.want)[column] : HUNDURZEK_ABSENT;
}

/* ---- facts: their numbers are those of answers and sub types in documents 01 and 02 (Ask 1) */

enum { LONGEST = 50850, ROW_BYTES = 4 * HUNDURZEK_ROW };

static int32_t subtype(void) { return head_number(0); }

static int32_t network(void) { return head_number(7); }

static uint64_t limit(void) { return 8 * target.count < LONGEST ? 8 * target.count : LONGEST; }

static bool is_written(const hundurzek_done *want) { return want->answer == HUNDURZEK_DONE; }

static bool of_subtype(const hundurzek_done *w, uint64_t n) { return is_written(w) && subtype() == (int32_t)n; }

static bool aligned(const hundurzek_done *w, uint64_t n) { return is_written(w) && now.place % 8 == n; }

static bool left_over(const hundurzek_done *w, uint64_t n) { return is_written(w) && w->place + n == limit(); }

static bool to_longest(const hundurzek_done *w, uint64_t n) { return is_written(w) && w->place == n; }

static bool fewer_head(const hundurzek_done *w, uint64_t n) { return is_written(w) && lent.head < n; }

static bool more_head(const hundurzek_done *w, uint64_t n) { return is_written(w) && lent.head > n; }

static bool more_numbers(const hundurzek_done *w, uint64_t n) {
  return is_written(w) && lent.rows > n * counted;
}

static bool bare_rows(const hundurzek_done *w, uint64_t n) {
  return of_subtype(w, n) && head_number(5) == 0 && head_number(6) == 0 && counted > 0;
}

static bool no_rows(const hundurzek_done *w, uint64_t n) {
  return of_subtype(w, n) && network() != HUNDURZEK_ABSENT && counted == 0;
}

static bool no_satellites(const hundurzek_done *w, uint64_t n) {
  return no_rows(w, n) && holding.want[SATELLITES] == 0;
}

static bool unheld(const hundurzek_done *w, uint64_t n) { return of_subtype(w, n) && holding.want[0] == 0; }

static bool full(const hundurzek_done *w, uint64_t n) { return w->answer == n && now.place == limit(); }

static bool short_of_longest(const hundurzek_done *w, uint64_t n) { return w->answer == n && limit() == LONGEST; }

static bool one_past(const hundurzek_done *w, uint64_t n) { return w->answer == n && now.place == limit() + 1; }

static bool far_start(const hundurzek_done *w, uint64_t n) { return w->answer == n && now.place >> 32 > 0; }

static bool far_count(const hundurzek_done *w, uint64_t n) { return w->answer == n && counted >> 32 > 0; }

static bool greatest(const hundurzek_done *w, uint64_t n) {
  return (now.place == n || counted == n) && !is_written(w);
}

/* What is behind a slice would be enough. */
static bool rows_behind(const hundurzek_done *w, uint64_t n) {
  return w->answer == n && counted > lent.rows / HUNDURZEK_ROW && counted <= rows.count / ROW_BYTES;
}

static bool head_behind(const hundurzek_done *w, uint64_t n) {
  return w->answer == n && lent.head < HUNDURZEK_ROW && HUNDURZEK_ROW <= head.count / 4;
}

static bool holding_behind(const hundurzek_done *w, uint64_t n) {
  return w->answer == n && lent.holding < HUNDURZEK_HOLDING && HUNDURZEK_HOLDING <= holding.count;
}

static bool of_mask(const hundurzek_done *w, uint64_t n) { return w->answer == n && subtype() == 1; }

static bool network_is(const hundurzek_done *w, uint64_t n, int32_t id) {
  return w->answer == n && (subtype() == 6 || subtype() == 11) && network() == id;
}

static bool network_0(const hundurzek_done *w, uint64_t n) { return network_is(w, n, 0); }

static bool biases_0(const hundurzek_done *w, uint64_t n) { return network_0(w, n) && subtype() == 6; }

static bool network_32(const hundurzek_done *w, uint64_t n) { return network_is(w, n, 32); }

static bool network_below(const hundurzek_done *w, uint64_t n) { return network_is(w, n, -1); }

/* A fact with a number, how often it must hold, and did. */
static struct {
  const char *name;
  bool (*holds)(const hundurzek_done *want, uint64_t n);
  uint64_t n;
  unsigned long least, count;
} facts[] = {
    {"written, start modulo 8", aligned, 0, 5000, 0},
    {"written, start modulo 8", aligned, 1, 5000, 0},
    {"written, start modulo 8", aligned, 2, 5000, 0},
    {"written, start modulo 8", aligned, 3, 5000, 0},
    {"written, start modulo 8", aligned, 4, 5000, 0},
    {"written, start modulo 8", aligned, 5, 5000, 0},
    {"written, start modulo 8", aligned, 6, 5000, 0},
    {"written, start modulo 8", aligned, 7, 5000, 0},
    {"written, bits to the limit", left_over, 0, 10000, 0},
    {"written up to bit", to_longest, LONGEST, 1000, 0},
    {"written, head numbers under", fewer_head, HUNDURZEK_ROW, 500, 0},
    {"written, head numbers over", more_head, HUNDURZEK_ROW, 1000, 0},
    {"written, numbers past rows of", more_numbers, HUNDURZEK_ROW, 10000, 0},
    {"written, flags 0, sub type", bare_rows, 6, 1000, 0},
    {"written, flags 0, sub type", bare_rows, 11, 1000, 0},
    {"written, no row, sub type", no_rows, 6, 1000, 0},
    {"written, no row, sub type", no_rows, 11, 1000, 0},
    {"same, of no satellite, sub type", no_satellites, 6, 500, 0},
    {"same, of no satellite, sub type", no_satellites, 11, 500, 0},
    {"written, no mask, sub type", unheld, 10, 1000, 0},
    {"start at the limit, answer", full, 1, 1000, 0},
    {"limit 50850, answer", short_of_longest, 1, 1000, 0},
    {"limit 50850, answer", short_of_longest, 2, 1000, 0},
    {"start one past the limit, answer", one_past, 2, 1000, 0},
    {"start over 32 bits, answer", far_start, 2, 5000, 0},
    {"count over 32 bits, answer", far_count, 12, 1000, 0},
    {"start or count", greatest, UINT64_MAX, 200, 0},
    {"rows behind what is lent, answer", rows_behind, 12, 2000, 0},
    {"head behind what is lent, answer", head_behind, HUNDURZEK_DONE, 500, 0},
    {"head behind what is lent, answer", head_behind, 5, 200, 0},
    {"head behind what is lent, answer", head_behind, 7, 1000, 0},
    {"head behind what is lent, answer", head_behind, 12, 500, 0},
    {"holding behind it, answer", holding_behind, 12, 200, 0},
    {"sub type 1, answer", of_mask, 6, 1000, 0},
    {"sub type 1, answer", of_mask, 7, 1000, 0},
    {"sub type 1, answer", of_mask, 12, 1000, 0},
    {"sub type 1, answer", of_mask, 1, 1000, 0},
    {"sub type 1, answer", of_mask, 2, 1000, 0},
    {"network ID 0, answer", network_0, 2, 200, 0},
    {"network ID 0, answer", network_0, 6, 200, 0},
    {"network ID 0, answer", network_0, 7, 200, 0},
    {"network ID 0, answer", network_0, 11, 5000, 0},
    {"network ID 0, answer", network_0, 12, 200, 0},
    {"same, sub type 6, answer", biases_0, 11, 2000, 0},
    {"same, sub type 6, answer", biases_0, 12, 100, 0},
    {"network ID 32, answer", network_32, 2, 100, 0},
    {"network ID 32, answer", network_32, 6, 200, 0},
    {"network ID 32, answer", network_32, 7, 200, 0},
    {"network ID 32, answer", network_32, 12, 500, 0},
    {"network ID -1, answer", network_below, 2, 100, 0},
    {"network ID -1, answer", network_below, 6, 200, 0},
    {"network ID -1, answer", network_below, 7, 200, 0},
    {"network ID -1, answer", network_below, 12, 500, 0},
};
enum { FACTS = sizeof facts / sizeof *facts };

void count_facts(const hundurzek_done *want) {
  for (size_t i = 0; i < FACTS; i++) facts[i].count += facts[i].holds(want, facts[i].n);
}

void judge_facts(void) {
  for (size_t i = 0; i < FACTS; i++) {
    printf("%-33s %20" PRIu64 " %7lu\n", facts[i].name, facts[i].n, facts[i].count);
    need(facts[i].count, facts[i].least, facts[i].name, facts[i].n);
  }
}
