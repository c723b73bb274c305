/* Calling from C (docs/HOST.md): reads document 01's worked stretch message by message and prints it as its
   listing does, a line M and lines R for each message, a line E for the stop. Writes each message that it read, and
   fails where that does not give the stretch's very bytes. */
#include <inttypes.h>
#include <stdio.h>
#include <string.h>

#include "hundurzek.h"

enum { BITS = 181 };

static const uint8_t stretch[] = {0xFE, 0x91, 0x00, 0x06, 0x45, 0x18, 0x85, 0x00, 0x00, 0x00, 0x00, 0x04,
                                  0x08, 0x06, 0xFF, 0xA4, 0xC1, 0x90, 0x86, 0x00, 0x16, 0x00, 0x00};

static uint8_t holding[HUNDURZEK_HOLDING];
static int32_t rows[HUNDURZEK_ROOM];
static uint8_t written[sizeof stretch];

static void print_numbers(const int32_t *numbers) {
  for (int i = 0; i < HUNDURZEK_ROW; i++) {
    if (numbers[i] == HUNDURZEK_ABSENT)
      printf("\t-");
    else
      printf("\t%" PRId32, numbers[i]);
  }
}

static void print_message(uint64_t start, const hundurzek_reading *message, const int32_t *head) {
  printf("M\t%" PRIu64 "\t%" PRIu64, start, message->place - start);
  print_numbers(head);
  printf("\t%" PRIu64 "\n", message->rows);
  for (uint64_t row = 0; row < message->rows; row++) {
    printf("R");
    print_numbers(rows + row * HUNDURZEK_ROW);
    printf("\n");
  }
}

/* What was read, at the place where it was read; under the holding after it, since a mask message writes that one. */
static void write_message(uint64_t start, const hundurzek_reading *message, const int32_t *head) {
  hundurzek_done done;
  hundurzek_write(&done, holding, sizeof holding, head, HUNDURZEK_ROW, rows, HUNDURZEK_ROOM, message->rows, written,
                  sizeof written, start);
}

static void take_message(uint64_t start, const hundurzek_reading *message) {
  const hundurzek_head *head = &message->head;
  const int32_t numbers[HUNDURZEK_ROW] = {head->subtype, head->epoch, head->interval, head->indicator,
                                          head->iod,     head->a,     head->b,        head->c};
  print_message(start, message, numbers);
  write_message(start, message, numbers);
}

/* Why the walk stopped; how many bits were missing is there beside 3 alone. */
static void print_stop(const hundurzek_walked *walked) {
  printf("E\t%" PRIu64 "\t%" PRIu64, walked->answer, walked->place);
  printf("\t%" PRIu64 "\t%" PRIu64, walked->messages, walked->rows);
  if (walked->missing > 0)
    printf("\t%" PRIu64 "\n", walked->missing);
  else
    printf("\t-\n");
}

/* The messages one by one; then the whole stretch at once, by a receiver that starts anew. */
int main(void) {
  uint64_t place = 0;
  hundurzek_reading reading;
  hundurzek_walked walked;
  hundurzek_empty(holding, sizeof holding);
  for (;;) {
    hundurzek_read(&reading, holding, sizeof holding, stretch, sizeof stretch, BITS, place, rows, HUNDURZEK_ROOM);
    if (reading.answer != HUNDURZEK_MESSAGE) break;
    take_message(place, &reading);
    place = reading.place;
  }
  hundurzek_empty(holding, sizeof holding);
  hundurzek_walk(&walked, holding, sizeof holding, stretch, sizeof stretch, BITS, rows, HUNDURZEK_ROOM);
  print_stop(&walked);
  return memcmp(written, stretch, sizeof stretch) != 0;
}
