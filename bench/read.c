/* Reads an input's stretches with one decoder, the holding kept from stretch to stretch.

     read DECODER INPUT check        by walks and message by message: all that was handed out, as a checksum; totals
     read DECODER INPUT WAY stack    the deepest stack of a call, in bytes
     read DECODER INPUT WAY marked   for an instruction counter (meter.h); the second time the holding is the one that
                                     the last stretch left

   DECODER is host, tuned or bitwise. INPUT is one of stretches.h. WAY is walks, a call for each stretch, messages, a
   call for each message, or empty, a call of hundurzek_empty for each stretch. */
#include <inttypes.h>
#include <stdbool.h>
#include <stdio.h>
#include <stdlib.h>
#include <string.h>

#include "bitwise.h"
#include "changes.h"
#include "hundurzek.h"
#include "meter.h"
#include "stretches.h"
#include "tuned.h"

/* ---- decoders */

typedef struct {
  const char *name;
  __typeof__(hundurzek_read) *read;
  __typeof__(hundurzek_walk) *walk;
  __typeof__(hundurzek_empty) *empty;
} decoder;

static hundurzek_reading *no_read(hundurzek_reading *out, uint8_t *holding, uint64_t holding_count,
                                  const uint8_t *bytes, uint64_t count, uint64_t end, uint64_t start, int32_t *rows,
                                  uint64_t row_count) {
  (void)holding, (void)holding_count, (void)bytes, (void)count, (void)end, (void)start, (void)rows, (void)row_count;
  out->answer = 0;
  return out;
}

static hundurzek_walked *no_walk(hundurzek_walked *out, uint8_t *holding, uint64_t holding_count, const uint8_t *bytes,
                                 uint64_t count, uint64_t end, int32_t *rows, uint64_t row_count) {
  (void)holding, (void)holding_count, (void)bytes, (void)count, (void)end, (void)rows, (void)row_count;
  out->answer = 0;
  return out;
}

static uint64_t no_empty(uint8_t *holding, uint64_t holding_count) {
  (void)holding, (void)holding_count;
  return 0;
}

/* The last is always idle; its stack is its return address. */
enum { DECODERS = 3, NONE = DECODERS };
static const decoder decoders[] = {{"host", hundurzek_read, hundurzek_walk, hundurzek_empty},
                                   {"tuned", tuned_read, tuned_walk, no_empty},
                                   {"bitwise", bitwise_read, bitwise_walk, no_empty},
                                   [NONE] = {"", no_read, no_walk, no_empty}};

/* ---- receivers: what is lent to a decoder */

/* Each decoder's holding, empty where all of it is zero; bytes after the host's are left alone. Where things lie is
   fixed, to a line of the cache: how many instructions a copy takes depends on it. */
enum { LINE = 64 };
typedef struct {
  _Alignas(LINE) union {
    uint8_t host[HUNDURZEK_HOLDING];
    tuned_holding tuned;
    bitwise_holding bitwise;
  } holding;
  _Alignas(LINE) int32_t rows[HUNDURZEK_ROOM];
} receiver;

static const decoder *decoding;
static receiver by_message, by_walk;
static _Alignas(LINE) stretch stretches[MOST];
static size_t stretch_count;

/* Reads on, from the place where a reading of the stretch ended; whether there was a message. */
static bool read_on(hundurzek_reading *reading, const stretch *s) {
  decoding->read(reading, (uint8_t *)&by_message.holding, sizeof by_message.holding, s->bytes, (s->end + 7) / 8, s->end,
                 reading->place, by_message.rows, HUNDURZEK_ROOM);
  return reading->answer == HUNDURZEK_MESSAGE;
}

static void walk(hundurzek_walked *walked, const stretch *s) {
  decoding->walk(walked, (uint8_t *)&by_walk.holding, sizeof by_walk.holding, s->bytes, (s->end + 7) / 8, s->end,
                 by_walk.rows, HUNDURZEK_ROOM);
}

/* Each reads, or else calls for, all stretches. */

static void read_messages(void) {
  for (size_t k = 0; k < stretch_count; k++) {
    hundurzek_reading reading = {.place = 0};
    while (read_on(&reading, &stretches[k])) continue;
  }
}

static void read_walks(void) {
  hundurzek_walked walked;
  for (size_t k = 0; k < stretch_count; k++) walk(&walked, &stretches[k]);
}

static void make_empty(void) {
  for (size_t k = 0; k < stretch_count; k++) decoding->empty((uint8_t *)&by_walk.holding, sizeof by_walk.holding);
}

/* ---- what was handed out */

/* Documents 01 and 02: 0 to 13. */
enum { STOPS = 14 };

static struct {
  uint64_t checksum;
  uint64_t bits, padding, rows, messages;
  uint64_t subtypes[16];
  uint64_t stops[STOPS];
} totals;

static void fold(uint64_t number) { totals.checksum = (totals.checksum ^ number) * UINT64_C(1099511628211); }

/* The words of an answer, and all of the row buffer: the numbers after the rows must be the old ones. */
static void tell(const void *answer, size_t size, const int32_t *rows) {
  uint64_t words[sizeof(hundurzek_reading) / sizeof(uint64_t)];
  memcpy(words, answer, size);
  for (size_t k = 0; k < size / sizeof *words; k++) fold(words[k]);
  for (size_t k = 0; k < HUNDURZEK_ROOM; k++) fold((uint64_t)rows[k]);
}

/* Tells the readings of a stretch one by one; answers the walk that they make up. */
static hundurzek_walked check_messages(const stretch *s) {
  hundurzek_walked made = {0};
  hundurzek_reading reading = {.place = 0};
  for (;;) {
    bool message = read_on(&reading, s);
    tell(&reading, sizeof reading, by_message.rows);
    made.answer = reading.answer;
    made.place = reading.place;
    made.missing = reading.missing;
    if (!message) return made;
    made.messages++;
    made.rows += reading.rows;
    totals.subtypes[reading.head.subtype]++;
  }
}

static _Noreturn void fail(const char *why, const hundurzek_walked *walked) {
  fprintf(stderr, "stop %" PRIu64 " at %" PRIu64 ": %s\n", walked->answer, walked->place, why);
  exit(1);
}

/* Walks over a stretch, too. */
static hundurzek_walked check_both_ways(const stretch *s) {
  hundurzek_walked made = check_messages(s), walked;
  walk(&walked, s);
  tell(&walked, sizeof walked, by_walk.rows);
  if (memcmp(&made, &walked, sizeof made) || memcmp(&by_message, &by_walk, sizeof by_walk))
    fail("the readings, one after another, leave something else", &walked);
  return walked;
}

/* Only damaged stretches may end with a refusal. */
static void check_stretch(const stretch *s, bool damaged) {
  hundurzek_walked walked = check_both_ways(s);
  if (walked.answer != 0 && !damaged) fail("the inputs have no such message", &walked);
  totals.messages += walked.messages;
  totals.rows += walked.rows;
  totals.bits += s->end;
  totals.padding += s->end - walked.place;
  totals.stops[walked.answer]++;
}

/* What can be wrong with what is lent, and two things at once, for the order; tells what is answered. */
static void check_lent(const uint8_t *bytes) {
  enum { WHOLE = sizeof by_walk.holding, COUNT = 10, END = 8 * COUNT, ENOUGH = (LONGEST + 8) / 8 };
  static const struct {
    uint64_t rows, count, end, start, holding;
  } lent[] = {{HUNDURZEK_ROOM, COUNT, END, END + 1, WHOLE},      {HUNDURZEK_ROOM, COUNT, END + 1, 0, WHOLE},
              {HUNDURZEK_ROOM, ENOUGH, LONGEST + 1, 0, WHOLE},   {HUNDURZEK_ROOM, COUNT, END, 0, 0},
              {HUNDURZEK_ROOM, COUNT, END + 1, 0, 0},            {HUNDURZEK_ROOM - 1, COUNT, END, 0, WHOLE},
              {HUNDURZEK_ROOM - 1, COUNT, END + 1, END + 2, 0}};
  for (size_t k = 0; k < sizeof lent / sizeof *lent; k++) {
    hundurzek_reading reading;
    hundurzek_walked walked;
    decoding->read(&reading, (uint8_t *)&by_walk.holding, lent[k].holding, bytes, lent[k].count, lent[k].end,
                   lent[k].start, by_walk.rows, lent[k].rows);
    tell(&reading, sizeof reading, by_walk.rows);
    decoding->walk(&walked, (uint8_t *)&by_walk.holding, lent[k].holding, bytes, lent[k].count, lent[k].end,
                   by_walk.rows, lent[k].rows);
    tell(&walked, sizeof walked, by_walk.rows);
  }
}

/* From the empty holding on. A changed mask is not taken, and the held one is dropped: clocks have no mask then, and
   the other mask is taken when it comes again. */
static void check_change(size_t which, int back) {
  const uint64_t stops[STEPS] = {changes[which].stop, changes[which].stop == CHANGED ? NO_MASK : IDLE, IDLE};
  static stretch steps[STEPS];
  memset(&by_message.holding, 0, sizeof by_message.holding);
  memset(&by_walk.holding, 0, sizeof by_walk.holding);
  make_change(steps, which, back);
  for (size_t step = BOTH; step < STEPS; step++) {
    hundurzek_walked walked = check_both_ways(&steps[step]);
    if (walked.answer != stops[step]) fail("masks that follow one another are taken otherwise", &walked);
  }
}

static void check_changes(void) {
  for (size_t which = 0; which < CHANGES; which++)
    for (int back = 0; back <= 1; back++) check_change(which, back);
}

/* Prints the checksum, the stretches and totals; of damaged ones, how often each stop from 0 on was. */
static void check(bool damaged) {
  static const int subtypes[] = {1, 2, 3, 4, 5, 6, 7, 10, 11};
  for (size_t k = 0; k < HUNDURZEK_ROOM; k++) by_message.rows[k] = by_walk.rows[k] = (int32_t)(3 * k + 1);
  for (size_t k = 0; k < stretch_count; k++) check_stretch(&stretches[k], damaged);
  if (damaged) check_lent(stretches[0].bytes);
  if (damaged) check_changes();
  printf("%016" PRIx64 " %zu %" PRIu64 " %" PRIu64, totals.checksum, stretch_count, totals.bits, totals.padding);
  printf(" %" PRIu64 " %" PRIu64, totals.rows, totals.messages);
  for (size_t k = 0; k < 9; k++) printf(" %" PRIu64, totals.subtypes[subtypes[k]]);
  for (size_t k = 0; damaged && k < STOPS; k++) printf(" %" PRIu64, totals.stops[k]);
  printf("\n");
}

/* ---- the deepest stack */

/* The return address and all below it. */
static size_t deepest(job *read_all, const decoder *d) {
  decoding = &decoders[NONE];
  size_t returning = painted_after(read_all) + sizeof(void *);
  decoding = d;
  return returning - painted_after(read_all);
}

/* ---- the command line */

static job *job_of(const char *way) {
  return !strcmp(way, "walks") ? read_walks : !strcmp(way, "messages") ? read_messages : make_empty;
}

int main(int argc, char **argv) {
  bool checking = argc == 4 && !strcmp(argv[3], "check");
  if (!checking && argc != 5) return 2;
  decoding = decoders;
  while (decoding < decoders + DECODERS && strcmp(decoding->name, argv[1])) decoding++;
  if (decoding == decoders + DECODERS) return 2;
  stretch_count = make_input(stretches, argv[2]);
  if (stretch_count == 0) return 2;
  job *read_all = job_of(argv[3]);
  if (checking) check(!strcmp(argv[2], DAMAGED));
  else if (!strcmp(argv[4], "stack")) printf("%zu\n", deepest(read_all, decoding));
  else if (!strcmp(argv[4], "marked")) do_marked(read_all);
  else return 2;
  return 0;
}
