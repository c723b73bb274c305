/* The answers that no stretch earns, only a call: 1 (room), 2 (place) and 12 (value), each beside the nearest call that
   is not refused so; then the order of the tests, rows after a refusal, and the holding after 13 (changed mask); then
   the same answers to what is done with lines of text. A line for each call: what is lent, the answer, the place, and
   whether what was lent was kept as it was. training/README.md explains. */
#include <inttypes.h>
#include <stdio.h>
#include <string.h>

#include "hundurzek.h"

/* Document 01's worked stretch: 23 bytes are lent of it, or as many as the longest stretch has, zeros behind it. */
enum { BITS = 181, CLOCKS = 114, BYTES = 23, LONGEST = 50850, LONGEST_BYTES = 6357, SATELLITES = 3, ISSUE = 1 };
static uint8_t stretch[LONGEST_BYTES] = {0xFE, 0x91, 0x00, 0x06, 0x45, 0x18, 0x85, 0x00, 0x00, 0x00, 0x00, 0x04,
                                         0x08, 0x06, 0xFF, 0xA4, 0xC1, 0x90, 0x86, 0x00, 0x16, 0x00, 0x00};

/* What one call lends and asks. */
typedef struct {
  const uint8_t *holding;
  uint64_t holding_count, bytes, end, start, numbers;
} call;

static uint8_t empty[HUNDURZEK_HOLDING], masked[HUNDURZEK_HOLDING], spoilt[HUNDURZEK_HOLDING];

static const char *told(int same) { return same ? "kept" : "changed"; }

/* What a call left of a holding. */
static const char *left(const uint8_t *holding, const uint8_t *before) {
  int same = memcmp(holding, before, HUNDURZEK_HOLDING) == 0;
  int none = memcmp(holding, empty, HUNDURZEK_HOLDING) == 0;
  return !same && none ? "emptied" : told(same);
}

/* Reads with copies of what is lent, the row buffer full of sevens, and tells what came of it. */
static void try(const char *what, call c) {
  static uint8_t holding[HUNDURZEK_HOLDING];
  static int32_t rows[HUNDURZEK_ROOM], before[HUNDURZEK_ROOM];
  hundurzek_reading reading;
  for (int i = 0; i < HUNDURZEK_ROOM; i++) rows[i] = before[i] = 7;
  memcpy(holding, c.holding, sizeof holding);
  hundurzek_read(&reading, holding, c.holding_count, stretch, c.bytes, c.end, c.start, rows, c.numbers);
  printf("%s\tanswer %" PRIu64 "\tplace %" PRIu64, what, reading.answer, reading.place);
  printf("\tholding %s", left(holding, c.holding));
  printf("\trows %s\n", told(memcmp(rows, before, sizeof rows) == 0));
}

static void room(void) {
  call c = {empty, sizeof empty, BYTES, BITS, 0, HUNDURZEK_ROOM - 1};
  try("2047 numbers for rows", c);
  c.numbers++;
  try("2048 numbers for rows", c);
  for (uint64_t count = HUNDURZEK_HOLDING - 1; count <= HUNDURZEK_HOLDING; count++) {
    uint64_t answer = hundurzek_empty(spoilt, count);
    printf("empty holding in %" PRIu64 " bytes\tanswer %" PRIu64 "\n", count, answer);
  }
}

static void place(void) {
  call c = {empty, sizeof empty, LONGEST_BYTES, LONGEST + 1, 0, HUNDURZEK_ROOM};
  try("50851 bits", c);
  c.end--;
  try("50850 bits", c);
  c.bytes = BYTES;
  c.end = 8 * BYTES + 1;
  try("185 bits in 23 bytes", c);
  c.end--;
  try("184 bits in 23 bytes", c);
  c.end = BITS;
  c.start = BITS + 1;
  try("start 182 of 181 bits", c);
  c.start--;
  try("start 181 of 181 bits", c);
}

/* A holding as bytes (docs/HOST.md): a number of satellites that is not the masks' own, an issue of no mask. */
static void value(void) {
  call c = {spoilt, sizeof spoilt, BYTES, BITS, CLOCKS, HUNDURZEK_ROOM};
  memcpy(spoilt, masked, sizeof spoilt);
  spoilt[SATELLITES] ^= 1;
  try("holding says 3 satellites, masks name 2", c);
  c.holding = masked;
  try("holding says 2 satellites, masks name 2", c);
  c.holding_count--;
  try("holding in 193 bytes", c);
  c = (call){spoilt, sizeof spoilt, BYTES, BITS, 0, HUNDURZEK_ROOM};
  memcpy(spoilt, empty, sizeof spoilt);
  spoilt[ISSUE] ^= 1;
  try("empty holding with issue 1", c);
  c.holding = empty;
  try("empty holding", c);
}

/* Everything wrong at once; then one thing after another is put right. */
static void order(void) {
  call c = {spoilt, sizeof spoilt, BYTES, BITS, BITS + 1, HUNDURZEK_ROOM - 1};
  try("room, place and holding wrong", c);
  c.numbers++;
  try("place and holding wrong", c);
  c.start--;
  try("holding wrong, no bits left", c);
  c.holding = empty;
  try("no bits left", c);
}

/* The clocks of issue 3 under a mask of issue 2: whoever tests the issue after the rows has changed them by now. */
static void late(void) {
  call c = {spoilt, sizeof spoilt, BYTES, BITS, CLOCKS, HUNDURZEK_ROOM};
  memcpy(spoilt, masked, sizeof spoilt);
  spoilt[ISSUE] = 2;
  try("clocks of issue 3, mask of issue 2", c);
  spoilt[ISSUE] = 3;
  try("clocks of issue 3, mask of issue 3", c);
}

/* Document 01's mask as a saved line, and the number of its bytes; another mask of its issue, satellites 1 and 4; and
   how many bytes the empty holding's line has. */
static const char saved[] = "S\t3\t0\tA000000000\t8100\t1\tB\n", other[] = "S\t3\t0\t9000000000\t8100\t1\tB\n";
enum { SAVED = sizeof saved - 1, SAVED_EMPTY = 4 };

/* The worked mask where another one is held: under its issue it is refused with 13 once, and what was held is gone. */
static void changed(void) {
  hundurzek_loaded held;
  hundurzek_load(&held, (const uint8_t *)other, sizeof other - 1);
  call c = {held.holding, sizeof held.holding, BYTES, BITS, 0, HUNDURZEK_ROOM - 1};
  try("changed mask, 2047 numbers for rows", c);
  c.numbers++;
  try("changed mask", c);
  c.holding = empty;
  try("the same mask, nothing held", c);
  c.holding = masked;
  try("the same mask, held already", c);
  held.holding[ISSUE] = 2;
  c.holding = held.holding;
  try("the same mask, the other one of issue 2", c);
}

/* ---- lines of text */

/* A buffer full of sevens that is lent for text or for a stretch. */
static uint8_t lent[HUNDURZEK_LINE], sevens[HUNDURZEK_LINE];

static void lend(void) {
  memset(sevens, '7', sizeof sevens);
  memcpy(lent, sevens, sizeof lent);
}

static void tell(const char *what, const hundurzek_done *done) {
  printf("%s\tanswer %" PRIu64 "\tplace %" PRIu64, what, done->answer, done->place);
  printf("\tcount %" PRIu64 "\tbuffer %s\n", done->count, told(memcmp(lent, sevens, sizeof lent) == 0));
}

static void save(const char *what, const uint8_t *holding, uint64_t room) {
  hundurzek_done done;
  lend();
  hundurzek_save(&done, holding, HUNDURZEK_HOLDING, lent, room);
  tell(what, &done);
}

static const char *which(const uint8_t *holding) {
  if (memcmp(holding, masked, sizeof masked) == 0) return "the mask";
  return memcmp(holding, empty, sizeof empty) == 0 ? "the empty holding" : "another holding";
}

static void load(const char *what, const char *line, uint64_t count) {
  hundurzek_loaded loaded;
  hundurzek_load(&loaded, (const uint8_t *)line, count);
  printf("%s\tanswer %" PRIu64 "\tbeside it %s\n", what, loaded.answer, which(loaded.holding));
}

static void line(const char *what, const char *text, uint64_t room) {
  hundurzek_done done;
  lend();
  hundurzek_line(&done, (const uint8_t *)text, strlen(text), lent, room);
  tell(what, &done);
}

/* The worked mask saved and loaded, and a line of the listing's input; each with its faults, 12 before 1. */
static void lines(void) {
  memcpy(spoilt, masked, sizeof spoilt);
  spoilt[SATELLITES] ^= 1;
  save("save into 25 bytes", masked, SAVED - 1);
  save("save into 26 bytes", masked, SAVED);
  save("save 3 satellites said, 2 named", spoilt, SAVED);
  save("the same into 25 bytes", spoilt, SAVED - 1);
  save("save the empty holding into 3 bytes", empty, SAVED_EMPTY - 1);
  save("save the empty holding into 4 bytes", empty, SAVED_EMPTY);
  load("load the line", saved, SAVED);
  load("load it without its line feed", saved, SAVED - 1);
  load("load it with 0B for B", "S\t3\t0\tA000000000\t8100\t1\t0B\n", SAVED + 1);
  line("12 bits of a stretch into 1 byte", "12\tFE9\n", 1);
  line("12 bits of a stretch into 2 bytes", "12\tFE9\n", 2);
  line("the same in small letters", "12\tfe9\n", 2);
}

/* ---- writing */

/* Document 01's clocks: the head, and a row for each of the two satellites. */
enum { ABSENT = HUNDURZEK_ABSENT, CLOCK = 3, ROWS = 2, MESSAGE_BYTES = 9 };
static const int32_t head[HUNDURZEK_ROW] = {3, 100, 2, 0, 3, ABSENT, ABSENT, ABSENT};
static const int32_t clocks[ROWS][HUNDURZEK_ROW] = {
    {0, 1, ABSENT, 5, ABSENT, ABSENT, ABSENT, ABSENT},
    {0, 3, ABSENT, -16384, ABSENT, ABSENT, ABSENT, ABSENT},
};
static int32_t rows_asked[ROWS][HUNDURZEK_ROW];

static void write_clocks(const char *what, const uint8_t *holding, uint64_t bytes, uint64_t start) {
  hundurzek_done done;
  lend();
  hundurzek_write(&done, holding, HUNDURZEK_HOLDING, head, HUNDURZEK_ROW, rows_asked[0], ROWS * HUNDURZEK_ROW, ROWS,
                  lent, bytes, start);
  tell(what, &done);
}

/* The worked clocks written into too little room, past its end and with numbers that no message has; 12 before 1. */
static void writes(void) {
  memcpy(rows_asked, clocks, sizeof rows_asked);
  write_clocks("write 67 bits into 8 bytes", masked, MESSAGE_BYTES - 1, 0);
  write_clocks("write 67 bits into 9 bytes", masked, MESSAGE_BYTES, 0);
  write_clocks("write at place 73 of 9 bytes", masked, MESSAGE_BYTES, 8 * MESSAGE_BYTES + 1);
  write_clocks("write at place 72 of 9 bytes", masked, MESSAGE_BYTES, 8 * MESSAGE_BYTES);
  write_clocks("write without a mask", empty, MESSAGE_BYTES, 0);
  rows_asked[0][CLOCK] = 16384;
  write_clocks("write a clock of 16384", masked, MESSAGE_BYTES, 0);
  write_clocks("the same into 8 bytes", masked, MESSAGE_BYTES - 1, 0);
  rows_asked[0][CLOCK] = 16383;
  write_clocks("write a clock of 16383", masked, MESSAGE_BYTES, 0);
  rows_asked[1][1] = 2;
  write_clocks("write a row for satellite 2, which no mask names", masked, MESSAGE_BYTES, 0);
}

int main(void) {
  static int32_t rows[HUNDURZEK_ROOM];
  hundurzek_reading reading;
  hundurzek_empty(empty, sizeof empty);
  memcpy(masked, empty, sizeof masked);
  hundurzek_read(&reading, masked, sizeof masked, stretch, BYTES, BITS, 0, rows, HUNDURZEK_ROOM);
  room();
  place();
  value();
  order();
  late();
  changed();
  lines();
  writes();
  return 0;
}
