/* The deepest stack of each function over the inputs a and damaged of stretches.h, on any processor with Linux: each is
   called on a stack of its own that was painted before. A line has the function and its bytes: from where the stack
   pointer was before the call down to the deepest byte that was written. On x86-64 the return address is in it, by
   which meter.c tells where a function begins; others keep it in a register, so here a function that is called in the
   same place notes where that is. */
#include <inttypes.h>
#include <stdbool.h>
#include <stdio.h>
#include <string.h>
#include <ucontext.h>

#include "hundurzek.h"
#include "stretches.h"

/* ---- what the functions are called with */

enum { LINE = 6 + (8 * HUNDURZEK_STRETCH) / 4 + 2 };
static stretch stretches[MOST];
static const stretch *now = stretches;
static uint8_t held[HUNDURZEK_HOLDING], walked_held[HUNDURZEK_HOLDING], emptied[HUNDURZEK_HOLDING];
static uint8_t written[HUNDURZEK_STRETCH], saved[HUNDURZEK_LINE], line[LINE], said[HUNDURZEK_STRETCH];
static int32_t rows[HUNDURZEK_ROOM], walked_rows[HUNDURZEK_ROOM];
static uint64_t start, saved_count, line_count;
static hundurzek_reading reading;
static hundurzek_walked walked;
static hundurzek_loaded loaded;
static hundurzek_done done;

/* ---- what the library needs from outside, as functions that take no stack: a C library's own may take some */

void *memcpy(void *restrict to, const void *restrict from, size_t count) {
  for (size_t k = 0; k < count; k++) ((volatile uint8_t *)to)[k] = ((const uint8_t *)from)[k];
  return to;
}

void *memset(void *to, int byte, size_t count) {
  for (size_t k = 0; k < count; k++) ((volatile uint8_t *)to)[k] = (uint8_t)byte;
  return to;
}

/* ---- one call of each, or of what stands in its place */

typedef void function(void);
static function *volatile called;
#define CALL(name) ((__typeof__(name) *)called)

static void call_empty(void) { CALL(hundurzek_empty)(emptied, sizeof emptied); }

static void call_read(void) {
  CALL(hundurzek_read)(&reading, held, sizeof held, now->bytes, (now->end + 7) / 8, now->end, start, rows,
                       HUNDURZEK_ROOM);
}

static void call_walk(void) {
  CALL(hundurzek_walk)(&walked, walked_held, sizeof walked_held, now->bytes, (now->end + 7) / 8, now->end, walked_rows,
                       HUNDURZEK_ROOM);
}

static void call_write(void) {
  CALL(hundurzek_write)(&done, held, sizeof held, &reading.head.subtype, HUNDURZEK_ROW, rows,
                        HUNDURZEK_ROW * reading.rows, reading.rows, written, sizeof written, start);
}

static void call_save(void) { CALL(hundurzek_save)(&done, held, sizeof held, saved, sizeof saved); }
static void call_load(void) { CALL(hundurzek_load)(&loaded, saved, saved_count); }
static void call_line(void) { CALL(hundurzek_line)(&done, line, line_count, said, sizeof said); }

/* ---- painted stacks */

enum { STACK = 1 << 14, ROOM = 1 << 12, PAINT = 0xA5 };
enum { EMPTY, LINES, LOAD, READ, SAVE, WALK, WRITE, FUNCTIONS };
static struct {
  const char *name;
  function *own, *call;
  const uint8_t *entry; /* the stack pointer before the call */
  _Alignas(16) uint8_t stack[STACK];
} measured[FUNCTIONS] = {
    [EMPTY] = {.name = "empty", .own = (function *)hundurzek_empty, .call = call_empty},
    [LINES] = {.name = "line", .own = (function *)hundurzek_line, .call = call_line},
    [LOAD] = {.name = "load", .own = (function *)hundurzek_load, .call = call_load},
    [READ] = {.name = "read", .own = (function *)hundurzek_read, .call = call_read},
    [SAVE] = {.name = "save", .own = (function *)hundurzek_save, .call = call_save},
    [WALK] = {.name = "walk", .own = (function *)hundurzek_walk, .call = call_walk},
    [WRITE] = {.name = "write", .own = (function *)hundurzek_write, .call = call_write},
};

static const uint8_t *noted;
static void note(void) { noted = __builtin_dwarf_cfa(); }

/* What a context takes for itself when it ends lies in the room, above all that is measured. */
static function *volatile calling;
static void begin(void) {
  volatile uint8_t room[ROOM];
  room[0] = 0;
  calling();
  (void)room[0];
}

static void run(size_t which, function *f) {
  ucontext_t here, there;
  getcontext(&there);
  there.uc_stack.ss_sp = measured[which].stack;
  there.uc_stack.ss_size = STACK;
  there.uc_link = &here;
  makecontext(&there, begin, 0);
  calling = measured[which].call;
  called = f;
  swapcontext(&here, &there);
}

static void measure(size_t which) { run(which, measured[which].own); }

static void paint(size_t which) {
  run(which, note);
  measured[which].entry = noted;
  memset(measured[which].stack, PAINT, STACK);
}

static size_t deepest(size_t which) {
  const uint8_t *at = measured[which].stack;
  while (at < measured[which].entry && *at == PAINT) at++;
  return (size_t)(measured[which].entry - at);
}

/* ---- the calls */

static void make_line(void) {
  int at = sprintf((char *)line, "%" PRIu64 "\t", now->end);
  for (uint64_t digit = 0; 4 * digit < now->end; digit++)
    at += sprintf((char *)line + at, "%X", now->bytes[digit / 2] >> (digit % 2 ? 0 : 4) & 15U);
  line[at] = '\n';
  line_count = (uint64_t)at + 1;
}

/* A message is written where it was read; where none was, nothing is written. */
static bool read_and_write(void) {
  start = reading.place;
  measure(READ);
  if (reading.answer != HUNDURZEK_MESSAGE) return false;
  measure(WRITE);
  return true;
}

/* A saved line is loaded whole, and without its last character. */
static void measure_stretch(void) {
  measure(EMPTY);
  measure(WALK);
  reading.place = 0;
  while (read_and_write()) continue;
  measure(SAVE);
  saved_count = done.count;
  measure(LOAD);
  saved_count--;
  measure(LOAD);
  make_line();
  measure(LINES);
}

int main(void) {
  static const char *const inputs[] = {"a", DAMAGED};
  for (size_t which = 0; which < FUNCTIONS; which++) paint(which);
  for (size_t k = 0; k < sizeof inputs / sizeof *inputs; k++) {
    size_t count = make_input(stretches, inputs[k]);
    for (now = stretches; now < stretches + count; now++) measure_stretch();
  }
  for (size_t which = 0; which < FUNCTIONS; which++)
    printf("hundurzek_%s %zu\n", measured[which].name, deepest(which));
  return 0;
}
