/* Writes all messages of an input's stretches back with one writer, each at its own place, the holding lent each time.

     write WRITER INPUT check    the bytes must be the stretches' own: how many messages, bits and rows
     write WRITER INPUT strays   every holding of the input with each byte changed: all answers, as a checksum
     write WRITER INPUT stack    the deepest stack of a call, in bytes
     write WRITER INPUT marked   for an instruction counter (meter.h)
     write WRITER INPUT tested   the same with heads of no sub type, so that each call ends with the holding's test

   WRITER is host, tuned or bitwise. INPUT is one of stretches.h, not the damaged ones. */
#include <inttypes.h>
#include <stdbool.h>
#include <stdio.h>
#include <stdlib.h>
#include <string.h>

#include "bitwise_write.h"
#include "hundurzek.h"
#include "meter.h"
#include "stretches.h"
#include "tuned_write.h"

/* ---- writers */

typedef struct {
  const char *name;
  __typeof__(hundurzek_write) *write;
  bool tuned; /* whether it is lent what the tuned writer has */
} writer;

static hundurzek_done *no_write(hundurzek_done *out, const uint8_t *holding, uint64_t holding_count,
                                const int32_t *head, uint64_t head_count, const int32_t *numbers,
                                uint64_t number_count, uint64_t rows, uint8_t *bytes, uint64_t count, uint64_t start) {
  (void)holding, (void)holding_count, (void)head, (void)head_count, (void)numbers, (void)number_count, (void)rows;
  (void)bytes, (void)count, (void)start;
  return out;
}

/* The last writes nothing; its stack is its return address. */
enum { WRITERS = 3, NONE = WRITERS };
static const writer writers[] = {{"host", hundurzek_write, false},
                                 {"tuned", tuned_write, true},
                                 {"bitwise", bitwise_write, false},
                                 [NONE] = {"", no_write, false}};
static const writer *writing;

/* ---- what is written: all of it read before, and kept */

/* Where things lie is fixed, to a line of the cache: how many instructions a copy takes depends on it. */
enum { LINE = 64, MESSAGES = 1 << 15, ROWS = 1 << 19, HOLDINGS = 64 };

/* The bytes that a receiver holds; for the tuned writer also what it has beside them. */
typedef union {
  _Alignas(LINE) uint8_t host[HUNDURZEK_HOLDING];
  tuned_sent_mask tuned;
} kept_holding;

typedef struct {
  uint8_t *bytes;        /* to write into, */
  uint64_t start, place; /* from its first bit to before the one after its last */
  hundurzek_head head;
  const kept_holding *holding; /* as it is after the message */
  const int32_t *numbers;
  uint64_t rows;
} kept_message;

static _Alignas(LINE) stretch stretches[MOST], written[MOST];
static _Alignas(LINE) kept_message messages[MESSAGES];
static _Alignas(LINE) int32_t numbers[HUNDURZEK_ROW * ROWS + HUNDURZEK_ROOM];
static kept_holding holdings[HOLDINGS];
static size_t stretch_count, message_count, holding_count;
static uint64_t row_count;

static void fail(const char *why) {
  fprintf(stderr, "%s\n", why);
  exit(1);
}

static void make_holding(kept_holding *to, const uint8_t *bytes) {
  if (writing->tuned)
    tuned_hold(&to->tuned, bytes);
  else
    memcpy(to->host, bytes, sizeof to->host);
}

/* The last holding, if it is still that one. */
static const kept_holding *keep_holding(const uint8_t *bytes) {
  if (holding_count == 0 || memcmp(holdings[holding_count - 1].host, bytes, HUNDURZEK_HOLDING)) {
    if (holding_count == HOLDINGS) fail("too many holdings");
    make_holding(&holdings[holding_count++], bytes);
  }
  return &holdings[holding_count - 1];
}

/* Reads on, into the rows that are kept, from the place where a reading of the stretch ended. */
static bool keep_message(hundurzek_reading *reading, uint8_t *held, size_t k) {
  const stretch *s = &stretches[k];
  int32_t *rows = numbers + HUNDURZEK_ROW * row_count;
  uint64_t start = reading->place;
  hundurzek_read(reading, held, HUNDURZEK_HOLDING, s->bytes, (s->end + 7) / 8, s->end, start, rows, HUNDURZEK_ROOM);
  if (reading->answer != HUNDURZEK_MESSAGE) return false;
  if (message_count == MESSAGES || row_count + reading->rows > ROWS) fail("too much for what is kept");
  messages[message_count++] =
      (kept_message){written[k].bytes, start, reading->place, reading->head, keep_holding(held), rows, reading->rows};
  row_count += reading->rows;
  return true;
}

/* Where the messages of a stretch end. */
static uint64_t ends[MOST];

static void keep_messages(void) {
  uint8_t held[HUNDURZEK_HOLDING];
  hundurzek_empty(held, sizeof held);
  for (size_t k = 0; k < stretch_count; k++) {
    hundurzek_reading reading = {.place = 0};
    while (keep_message(&reading, held, k)) continue;
    if (reading.answer != 0) fail("the inputs have no such message");
    ends[k] = reading.place;
  }
}

/* ---- writing */

static void write_with(hundurzek_done *done, const kept_message *m, const kept_holding *holding) {
  writing->write(done, holding->host, sizeof *holding, &m->head.subtype, HUNDURZEK_ROW, m->numbers,
                 HUNDURZEK_ROW * m->rows, m->rows, m->bytes, sizeof written->bytes, m->start);
}

static void write_messages(void) {
  hundurzek_done done;
  for (size_t k = 0; k < message_count; k++) write_with(&done, &messages[k], messages[k].holding);
}

/* Refused with 5, which comes right after the holding. */
static void forget_subtypes(void) {
  for (size_t k = 0; k < message_count; k++) messages[k].head.subtype = 0;
}

/* ---- what was written */

/* Turns every bit around of which no message is written. */
static void turn_around(void) {
  for (size_t k = 0; k < stretch_count; k++)
    for (size_t i = 0; i < sizeof written[k].bytes; i++) written[k].bytes[i] = (uint8_t)~stretches[k].bytes[i];
}

static bool is_done(const kept_message *m) {
  hundurzek_done done, want = {HUNDURZEK_DONE, m->place, m->place - m->start};
  write_with(&done, m, m->holding);
  return !memcmp(&done, &want, sizeof done);
}

/* Up to the end of its messages a stretch is as it was, and turned around after it. */
static bool is_stretch(size_t k) {
  for (uint64_t i = 0; i < sizeof written[k].bytes; i++) {
    uint8_t after = 8 * i >= ends[k] ? 0xFF : 8 * i + 8 <= ends[k] ? 0 : (uint8_t)(0xFF >> ends[k] % 8);
    if (written[k].bytes[i] != (stretches[k].bytes[i] ^ after)) return false;
  }
  return true;
}

static void check(void) {
  uint64_t bits = 0;
  turn_around();
  for (size_t k = 0; k < message_count; k++) {
    if (!is_done(&messages[k])) fail("a message is not written");
    bits += messages[k].place - messages[k].start;
  }
  for (size_t k = 0; k < stretch_count; k++)
    if (!is_stretch(k)) fail("the bytes are not the stretch's own");
  printf("%zu %" PRIu64 " %" PRIu64 "\n", message_count, bits, row_count);
}

/* ---- strays */

/* The answers to a message under its holding with one byte changed, to each number that a byte has. */
static uint64_t fold_strays(uint64_t checksum, const kept_message *m) {
  static kept_holding stray;
  uint8_t bytes[HUNDURZEK_HOLDING];
  memcpy(bytes, m->holding->host, sizeof bytes);
  for (size_t k = 0; k < sizeof bytes; k++)
    for (unsigned turn = 1; turn <= UINT8_MAX; turn++) {
      hundurzek_done done;
      bytes[k] ^= (uint8_t)turn;
      make_holding(&stray, bytes);
      write_with(&done, m, &stray);
      bytes[k] ^= (uint8_t)turn;
      checksum = (checksum ^ done.answer) * UINT64_C(1099511628211);
    }
  return checksum;
}

/* The first message under each holding that is another than the last. */
static void tell_strays(void) {
  const kept_holding *last = NULL;
  uint64_t checksum = 0;
  for (size_t k = 0; k < message_count; k++) {
    if (messages[k].holding != last) checksum = fold_strays(checksum, &messages[k]);
    last = messages[k].holding;
  }
  printf("%016" PRIx64 "\n", checksum);
}

/* ---- the deepest stack */

/* The return address and all below it. */
static size_t deepest(const writer *w) {
  writing = &writers[NONE];
  size_t returning = painted_after(write_messages) + sizeof(void *);
  writing = w;
  return returning - painted_after(write_messages);
}

/* ---- the command line */

int main(int argc, char **argv) {
  if (argc != 4) return 2;
  writing = writers;
  while (writing < writers + WRITERS && strcmp(writing->name, argv[1])) writing++;
  stretch_count = make_input(stretches, argv[2]);
  if (writing == writers + WRITERS || stretch_count == 0) return 2;
  keep_messages();
  bool tested = !strcmp(argv[3], "tested");
  if (tested) forget_subtypes();
  if (!strcmp(argv[3], "check")) check();
  else if (!strcmp(argv[3], "strays")) tell_strays();
  else if (!strcmp(argv[3], "stack")) printf("%zu\n", deepest(writing));
  else if (tested || !strcmp(argv[3], "marked")) do_marked(write_messages);
  else return 2;
  return 0;
}
