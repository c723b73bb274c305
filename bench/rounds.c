/* Reads and writes input (a) of stretches.h, an hour of stretches, on any processor, for an instruction counter.

   Everything is done once, as a check, and then what WAY says once more: NOTHING; WALKS, a call for each stretch;
   MESSAGES, a call for each message; WRITES, a call for each message, which puts it where it stands already. What a way
   takes is what the program takes more than with NOTHING. Prints how many messages, rows and bits were read, and how
   many bits there are with the padding; fails where walks are not the readings, or the bytes written are not the bytes
   read.

   WAY is a macro: a machine without a system hands main nothing. */
#include <stdbool.h>
#include <stdint.h>
#include <stdio.h>
#include <stdlib.h>
#include <string.h>

#include "hundurzek.h"
#include "stretches.h"

/* ---- what is read, and kept of it to be written */

/* Where things lie is fixed, to a line of the cache: how many instructions a copy takes depends on it. */
enum { LINE = 64, MESSAGE_COUNT = 9000, ROW_COUNT = 182625, HOLDINGS = 6 };

typedef struct {
  _Alignas(LINE) uint8_t bytes[HUNDURZEK_HOLDING];
} kept_holding;

typedef struct {
  uint8_t *bytes; /* of its stretch */
  uint64_t start;
  hundurzek_head head;
  const kept_holding *holding; /* as it is after the message */
  const int32_t *numbers;
  uint64_t rows;
} kept_message;

static _Alignas(LINE) stretch stretches[HOUR];
static _Alignas(LINE) kept_message messages[MESSAGE_COUNT];
static _Alignas(LINE) int32_t numbers[HUNDURZEK_ROW * ROW_COUNT + HUNDURZEK_ROOM];
static kept_holding holdings[HOLDINGS], held;
static _Alignas(LINE) int32_t rows[HUNDURZEK_ROOM];
static size_t holding_count;
static uint64_t message_count, row_count, message_bits, all_bits;

static void require(bool good, const char *why) {
  if (good) return;
  printf("%s\n", why);
  exit(1);
}

/* The last holding, if it is still that one. */
static const kept_holding *keep_holding(void) {
  if (holding_count == 0 || memcmp(&holdings[holding_count - 1], &held, sizeof held)) {
    require(holding_count < HOLDINGS, "too many holdings");
    holdings[holding_count++] = held;
  }
  return &holdings[holding_count - 1];
}

/* Reads on, from the place where a reading of the stretch ended. */
static bool read_on(hundurzek_reading *reading, const stretch *s, int32_t *to) {
  hundurzek_read(reading, held.bytes, sizeof held.bytes, s->bytes, (s->end + 7) / 8, s->end, reading->place, to,
                 HUNDURZEK_ROOM);
  return reading->answer == HUNDURZEK_MESSAGE;
}

static bool keep_message(hundurzek_reading *reading, stretch *s) {
  int32_t *to = numbers + HUNDURZEK_ROW * row_count;
  uint64_t start = reading->place;
  if (!read_on(reading, s, to)) return false;
  require(message_count < MESSAGE_COUNT && row_count + reading->rows <= ROW_COUNT, "too much for what is kept");
  messages[message_count++] = (kept_message){s->bytes, start, reading->head, keep_holding(), to, reading->rows};
  row_count += reading->rows;
  return true;
}

static void keep_messages(void) {
  hundurzek_empty(held.bytes, sizeof held.bytes);
  for (size_t k = 0; k < HOUR; k++) {
    hundurzek_reading reading = {.place = 0};
    while (keep_message(&reading, &stretches[k])) continue;
    require(reading.answer == 0, "a message is refused");
    message_bits += reading.place;
    all_bits += stretches[k].end;
  }
}

/* ---- the ways */

static void walk(hundurzek_walked *walked, const stretch *s) {
  hundurzek_walk(walked, held.bytes, sizeof held.bytes, s->bytes, (s->end + 7) / 8, s->end, rows, HUNDURZEK_ROOM);
}

static void write_one(hundurzek_done *done, const kept_message *m) {
  hundurzek_write(done, m->holding->bytes, sizeof m->holding->bytes, &m->head.subtype, HUNDURZEK_ROW, m->numbers,
                  HUNDURZEK_ROW * m->rows, m->rows, m->bytes, sizeof stretches->bytes, m->start);
}

static void do_nothing(void) {}

static void read_walks(void) {
  hundurzek_walked walked;
  for (size_t k = 0; k < HOUR; k++) walk(&walked, &stretches[k]);
}

static void read_messages(void) {
  for (size_t k = 0; k < HOUR; k++) {
    hundurzek_reading reading = {.place = 0};
    while (read_on(&reading, &stretches[k], rows)) continue;
  }
}

static void write_messages(void) {
  hundurzek_done done;
  for (size_t k = 0; k < MESSAGE_COUNT; k++) write_one(&done, &messages[k]);
}

/* ---- the check */

static void check_walks(void) {
  uint64_t walked_messages = 0, walked_rows = 0, walked_bits = 0;
  hundurzek_empty(held.bytes, sizeof held.bytes);
  for (size_t k = 0; k < HOUR; k++) {
    hundurzek_walked walked;
    walk(&walked, &stretches[k]);
    require(walked.answer == 0, "a walk is refused");
    walked_messages += walked.messages;
    walked_rows += walked.rows;
    walked_bits += walked.place;
  }
  require(walked_messages == message_count && walked_rows == row_count && walked_bits == message_bits,
          "walks and readings differ");
  require(!memcmp(&held, &holdings[holding_count - 1], sizeof held), "walks and readings hold another mask");
}

static uint64_t checksum(void) {
  uint64_t sum = 0;
  for (size_t k = 0; k < HOUR; k++)
    for (size_t i = 0; i < sizeof stretches->bytes; i++)
      sum = (sum ^ stretches[k].bytes[i]) * UINT64_C(1099511628211);
  return sum;
}

/* All bits are taken away before; those that are no message's were zero. */
static void check_writes(void) {
  uint64_t before = checksum();
  for (size_t k = 0; k < HOUR; k++) memset(stretches[k].bytes, 0, sizeof stretches->bytes);
  write_messages();
  require(checksum() == before, "the bytes written are not those read");
}

enum { NOTHING, WALKS, MESSAGES, WRITES };
static void (*const ways[])(void) = {do_nothing, read_walks, read_messages, write_messages};
static const volatile unsigned way = WAY; /* so the programs differ in this number only */

int main(void) {
  require(make_input(stretches, "a") == HOUR, "there is no such input");
  keep_messages();
  check_walks();
  check_writes();
  ways[way]();
  printf("%lu %lu %lu %lu\n", (unsigned long)message_count, (unsigned long)row_count, (unsigned long)message_bits,
         (unsigned long)all_bits);
  return 0;
}
