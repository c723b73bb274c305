/* Compares hundurzek_write with the second program (lib/streams.h, lib/writes.h): random writes, every single change of
   good ones, and messages that are read, written back and read again. */
#include <stdio.h>
#include <string.h>

#include "families.h"
#include "readings.h"
#include "writes.h"

static const unsigned subtypes[] = {1, 2, 3, 4, 5, 6, 7, 10, 11};
enum { NINE = sizeof subtypes / sizeof *subtypes };

enum { WRITE, CHANGES, ROUNDS, KINDS };
static kind kinds[KINDS] = {
    [WRITE] = {.name = "write", .least = 300000},
    [CHANGES] = {.name = "changes", .least = 2000},
    [ROUNDS] = {.name = "rounds", .least = 100000},
};

/* Written, 12, 1, 2, 5, 6, 7 and 11 that must come with each thing that is wrong, and with each kind of buffer. */
static family writes[] = {
    {.name = "good", .least = {20000, 1000, 5000, 2000, 100, 100, 200}},
    {.name = "stray holding", .least = {0, 5000, 0, 500, 0, 0, 200}},
    {.name = "empty holding", .least = {500, 50, 100, 500, 0, 5000}},
    {.name = "empty holding for sub type 1", .least = {0, 0, 0, 200, 0, 2000}},
    {.name = "no mask and any IOD SSR", .least = {20, 200, 0, 200, 0, 2000}},
    {.name = "another issue held", .least = {200, 0, 100, 200, 0, 0, 2000}},
    {.name = "another issue for sub type 1", .least = {0, 0, 0, 200, 0, 0, 2000}},
    {.name = "another mask held", .least = {500, 2000, 100, 200}},
    {.name = "sub type", .least = {50, 500, 0, 500, 5000}},
    {.name = "epoch", .least = {500, 2000, 100, 200}},
    {.name = "interval", .least = {500, 2000, 100, 200}},
    {.name = "indicator", .least = {200, 2000, 100, 200}},
    {.name = "IOD SSR", .least = {100, 200, 0, 200, 0, 0, 2000}},
    {.name = "a", .least = {200, 2000, 100, 200}},
    {.name = "b", .least = {500, 2000, 100, 200}},
    {.name = "c", .least = {500, 2000, 100, 200}},
    {.name = "head of sub type 1", .least = {500, 2000, 100, 200, 500, 0, 500}},
    {.name = "network 0", .least = {0, 0, 0, 500, 0, 0, 50, 5000}},
    {.name = "network 32 or -1", .least = {0, 2000, 0, 200}},
    {.name = "network and something earlier", .least = {0, 500, 0, 200, 0, 1000, 1000}},
    {.name = "no network", .least = {1000, 500, 200, 200}},
    {.name = "network without rows", .least = {2000, 0, 200, 200}},
    {.name = "flag turned", .least = {500, 1000, 100, 200}},
    {.name = "cell missing", .least = {500, 1000, 100, 200}},
    {.name = "row without a cell", .least = {500, 1000, 100, 200}},
    {.name = "shorter head", .least = {500, 500, 100, 200, 200, 0, 1000}},
    {.name = "longer head", .least = {2000, 50, 500, 200}},
    {.name = "key", .least = {1000, 2000, 200, 500}},
    {.name = "value", .least = {2000, 2000, 500, 500}},
    {.name = "fewer rows lent", .least = {500, 2000, 100, 200}},
    {.name = "far count", .least = {0, 2000, 0, 200}},
    {.name = "row too few", .least = {1000, 2000, 200, 200}},
    {.name = "row too many", .least = {0, 2000, 0, 200}},
    {.name = "row doubled", .least = {0, 2000, 0, 200}},
    {.name = "rows swapped", .least = {500, 2000, 200, 200}},
    {.name = "foreign row", .least = {0, 2000, 0, 200}},
    {.name = "something else", .least = {1000, 5000, 200, 1000, 500, 1000, 1000, 200}},
    {.name = "room to spare", .least = {20000, 20000, 0, 0, 2000, 5000, 5000, 2000}},
    {.name = "exactly fitting", .least = {5000, 5000, 0, 0, 1000, 1000, 2000, 500}},
    {.name = "one bit too small", .least = {0, 5000, 5000, 0, 500, 1000, 1000, 500}},
    {.name = "too small", .least = {0, 2000, 2000, 0, 200, 200, 500, 200}},
    {.name = "no bytes", .least = {0, 500, 500, 0, 50, 100, 100, 50}},
    {.name = "start at the end", .least = {0, 2000, 2000, 0, 200, 200, 500, 200}},
    {.name = "start past the end", .least = {0, 0, 0, 5000}},
    {.name = "far start", .least = {0, 0, 0, 5000}},
    {.name = "ends at 50850", .least = {1000, 1000, 0, 0, 100, 200, 200, 100}},
    {.name = "ends past 50850", .least = {0, 500, 500, 0, 50, 100, 100, 50}},
    {.name = "start at 50850", .least = {0, 500, 500, 0, 50, 100, 100, 50}},
    {.name = "start past 50850", .least = {0, 0, 0, 1000}},
    {.name = "long bytes", .least = {500, 500, 0, 0, 50, 100, 100, 50}},
};

/* The same with each single change of a good write. */
static family changes[] = {
    {.name = "unchanged", .least = {2000}},
    {.name = "sub type", .least = {100, 1000, 0, 0, 5000, 0, 100}},
    {.name = "head at an end", .least = {2000}},
    {.name = "head past an end", .least = {0, 10000}},
    {.name = "head absent", .least = {0, 2000}},
    {.name = "IOD SSR", .least = {0, 0, 0, 0, 0, 0, 5000}},
    {.name = "number of systems", .least = {0, 1000}},
    {.name = "head for absent", .least = {0, 10000}},
    {.name = "row added", .least = {0, 2000}},
    {.name = "rows not lent", .least = {0, 5000}},
    {.name = "key", .least = {0, 20000}},
    {.name = "value at an end", .least = {10000}},
    {.name = "value past an end", .least = {0, 20000}},
    {.name = "value absent", .least = {0, 5000}},
    {.name = "value for absent", .least = {0, 20000}},
    {.name = "rows swapped", .least = {0, 5000}},
    {.name = "row doubled", .least = {0, 2000}},
    {.name = "row dropped", .least = {0, 2000}},
    {.name = "row not counted", .least = {0, 500}},
    {.name = "shape", .least = {50, 2000}},
    {.name = "network 0", .least = {0, 0, 0, 0, 0, 0, 0, 100}},
    {.name = "network past an end", .least = {0, 500}},
    {.name = "another network", .least = {200}},
    {.name = "no network", .least = {50, 50}},
    {.name = "selected row added", .least = {0, 200}},
    {.name = "selected too", .least = {100}},
    {.name = "selected at the end", .least = {100}},
    {.name = "selected key", .least = {0, 1000}},
    {.name = "selected rows swapped", .least = {0, 200}},
    {.name = "selected row doubled", .least = {0, 100}},
    {.name = "selected row dropped", .least = {100}},
    {.name = "selected row not counted", .least = {50}},
    {.name = "cell row added", .least = {0, 200}},
    {.name = "cells too", .least = {50}},
    {.name = "cells at the end", .least = {50, 10}},
    {.name = "cells in part", .least = {0, 100}},
    {.name = "row without a cell", .least = {0, 100}},
    {.name = "cell key", .least = {0, 1000}},
    {.name = "cell rows swapped", .least = {0, 200}},
    {.name = "cell row doubled", .least = {0, 100}},
    {.name = "cell row dropped", .least = {50, 100}},
    {.name = "cell row not counted", .least = {10, 20}},
};

enum { WRITES = sizeof writes / sizeof *writes, CHANGED = sizeof changes / sizeof *changes };

/* ---- single writes */

/* The write that is lent, at the place that is being compared; of what is written the sub type is counted. */
static void compare_write(kind *k, const hundurzek_done *want) {
  hundurzek_done *got = lend_result(sizeof *got);
  now.end = 8 * target.count;
  const void *out =
      hundurzek_write(got, holding.got, lent.holding, numbers(head.got), lent.head, numbers(rows.got),
                      lent.rows, counted, target.got, target.count, now.place);
  compare_done(got, out, want);
  compare_lent();
  if (want->answer == HUNDURZEK_DONE) k->counts[ANSWERS + head_number(0)]++;
}

static void compare_writing(kind *k) {
  take_writing();
  hundurzek_done want = take_written();
  count_facts(&want);
  count_answer(k, writes, WRITES, want.answer);
  compare_write(k, &want);
}

/* ---- single changes */

/* What a change is made to: the numbers of a head or of rows, and the bytes to write into. */
typedef struct {
  size_t count;
  uint8_t bytes[16384];
} saved;

static saved base_head, base_rows, base_target;

static void save(saved *to, const buffer *from) {
  if (from->count > sizeof to->bytes) broken("too long for changes");
  to->count = from->count;
  memcpy(to->bytes, from->got, from->count);
}

static void put_back(buffer *to, const saved *from) {
  lend(to, from->count);
  memcpy(to->got, from->bytes, from->count);
  memcpy(to->want, from->bytes, from->count);
}

/* How often each number of the head, and of a row, was changed by itself, by sub type. */
enum { HEAD, ROW, PARTS, SUBTYPES = 12 };
static unsigned long single[PARTS][SUBTYPES][HUNDURZEK_ROW];

static void count_single(size_t part, size_t at) {
  int32_t subtype;
  memcpy(&subtype, base_head.bytes, sizeof subtype);
  if (subtype < 0 || subtype >= SUBTYPES) broken("a change of no message");
  single[part][subtype][at % HUNDURZEK_ROW]++;
}

/* In place of the numbers from one to before another come others. */
static void splice(size_t part) {
  buffer *to = part == HEAD ? &head : &rows;
  const saved *base = part == HEAD ? &base_head : &base_rows;
  size_t from = 4 * number(2), past = 4 * number(2), count = 4 * number(2);
  if (from > past || past > base->count) broken("a change of what isn't there");
  lend(to, base->count - (past - from) + count);
  memcpy(to->got, base->bytes, from);
  get(to->got + from, count);
  memcpy(to->got + from + count, base->bytes + past, base->count - past);
  memcpy(to->want, to->got, to->count);
  if (count == 4 && past - from == 4) count_single(part, from / 4);
}

static void compare_change(kind *k, uint64_t place, unsigned long call) {
  take_family();
  now.place = place;
  now.call = call;
  put_back(&head, &base_head);
  put_back(&rows, &base_rows);
  put_back(&target, &base_target);
  splice(number(1) ? ROW : HEAD);
  lend_all();
  counted = number(8);
  hundurzek_done want = take_written();
  count_answer(k, changes, CHANGED, want.answer);
  compare_write(k, &want);
}

static void compare_changes(kind *k) {
  take_writing();
  hundurzek_done want = take_written();
  save(&base_head, &head);
  save(&base_rows, &rows);
  save(&base_target, &target);
  count_answer(k, changes, CHANGED, want.answer);
  compare_write(k, &want);
  unsigned long made = number(4);
  for (unsigned long i = 1; i <= made; i++) compare_change(k, now.place, 1 + i);
}

/* Each number of each sub type's head often, and of its rows, of which a mask has none. */
static void judge_singles(void) {
  for (size_t k = 0; k < NINE; k++)
    for (size_t part = subtypes[k] == 1 ? ROW : PARTS; part-- > 0;) {
      printf("numbers changed, %s %2u", part == HEAD ? "head" : "rows", subtypes[k]);
      for (size_t i = 0; i < HUNDURZEK_ROW; i++) {
        printf(" %6lu", single[part][subtypes[k]][i]);
        need(single[part][subtypes[k]][i], 500, "numbers changed, sub type", subtypes[k]);
      }
      printf("\n");
    }
}

/* ---- rounds */

static void copy_bits(uint8_t *to, uint64_t at, const uint8_t *from, uint64_t start, uint64_t count) {
  for (; count > 0; count--, at++, start++) {
    uint8_t one = (uint8_t)(0x80 >> at % 8);
    to[at / 8] = from[start / 8] << start % 8 & 0x80 ? to[at / 8] | one : to[at / 8] & (uint8_t)~one;
  }
}

/* What was read is written over other bits: the very bits of the stretch, all else kept. */
static void write_back(kind *k, uint64_t start, const hundurzek_reading *message, uint64_t place, size_t room,
                       uint64_t seed) {
  uint64_t count = message->place - start;
  hundurzek_done want = {HUNDURZEK_DONE, place + count, count};
  fill_bytes(&target, room, seed);
  if (want.place > 8 * target.count) broken("no room for the message");
  copy_bits(target.want, place, stretch.want, start, count);
  now.place = place;
  now.call++;
  compare_write(k, &want);
}

/* Other numbers where the rows were read, so that they must be read again. */
static void forget_rows(uint64_t count) {
  static int32_t read[HUNDURZEK_ROOM];
  memcpy(read, numbers(rows.got), ROW_BYTES * count);
  for (size_t i = 0; i < HUNDURZEK_ROW * count; i++) numbers(rows.got)[i] = ~read[i];
  memcpy(numbers(rows.want), read, ROW_BYTES * count);
}

/* What was written is read under what was held before the first reading: the same head, rows and holding. */
static void read_again(const uint8_t *before, uint64_t start, const hundurzek_reading *message) {
  hundurzek_reading want = *message;
  want.place = now.place + (message->place - start);
  want.raw_offset = now.place / 8;
  want.raw_count = (want.place + 7) / 8 - want.raw_offset;
  memcpy(holding.got, before, holding.count);
  forget_rows(message->rows);
  now.call++;
  compare_reading(&target, &want);
}

static void lend_head(const hundurzek_head *from) {
  lend(&head, sizeof *from);
  memcpy(head.got, from, sizeof *from);
  memcpy(head.want, from, sizeof *from);
}

static void compare_round(kind *k) {
  static saved before;
  take_stretch();
  save(&before, &holding);
  if (number(4) != 1) broken("not one reading");
  uint64_t start = now.place;
  hundurzek_reading message = take_reading();
  if (message.answer != HUNDURZEK_MESSAGE) broken("no message");
  compare_reading(&stretch, &message);
  uint64_t place = number(8);
  size_t room = number(4);
  uint64_t seed = number(8);
  lend_head(&message.head);
  lend_all();
  counted = message.rows;
  write_back(k, start, &message, start, stretch.count, seed);
  write_back(k, start, &message, place, room, seed);
  read_again(before.bytes, start, &message);
  k->counts[DONE] += 2;
}

/* ---- all of it */

static void compare_record(kind *k) {
  if (k == &kinds[WRITE])
    compare_writing(k);
  else if (k == &kinds[CHANGES])
    compare_changes(k);
  else
    compare_round(k);
}

/* Each sub type that was written often in each kind. */
static void judge_subtypes(void) {
  static const unsigned long least[KINDS] = {[WRITE] = 5000, [CHANGES] = 300, [ROUNDS] = 5000};
  for (size_t i = 0; i < NINE; i++) {
    print_counts("sub type", subtypes[i], kinds, KINDS, ANSWERS + subtypes[i]);
    for (size_t k = 0; k < KINDS; k++)
      need(kinds[k].counts[ANSWERS + subtypes[i]], least[k], kinds[k].name, subtypes[i]);
  }
}

int main(void) {
  compare_streams(kinds, KINDS, compare_record);
  print_answers(kinds, KINDS);
  judge_subtypes();
  judge_families(writes, WRITES);
  judge_families(changes, CHANGED);
  judge_singles();
  judge_facts();
  return finish();
}
