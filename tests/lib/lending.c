#include "lending.h"

#include <inttypes.h>
#include <stdio.h>
#include <stdlib.h>
#include <string.h>

#include "streams.h"

/* A page's size, which is a multiple of every machine's own, and how many guard bytes lie at an end at a page. */
enum { GUARD = 64, GUARD_BYTE = 0xA5 };
#ifdef __linux__
#include <sys/mman.h>
enum { PAGE = 65536, EDGE = 0 };
#else
enum { PAGE = 64, EDGE = GUARD };
#endif

/* Of a line so many characters are shown. */
enum { SHOWN = 200 };

buffer holding = {.name = "holding", .space = 1024};
buffer stretch = {.name = "stretch", .space = 16384};
buffer head = {.name = "head", .space = 1024};
buffer rows = {.name = "row buffer", .space = 32768};
buffer line = {.name = "line", .space = 262144};
buffer target = {.name = "bytes written", .space = 16384};

static buffer result = {.name = "result", .space = 1024};
static buffer *const all[] = {&holding, &stretch, &head, &rows, &line, &target, &result};
enum { BUFFERS = sizeof all / sizeof *all };

int32_t *numbers(uint8_t *bytes) { return (int32_t *)bytes; }

/* ---- memory */

/* From page to page. */
static size_t room(const buffer *b) { return (b->space + 2 * GUARD + PAGE - 1) / PAGE * PAGE; }

/* No access to a page. */
static bool closed(uint8_t *page) {
#ifdef __linux__
  return mprotect(page, PAGE, PROT_NONE) == 0;
#else
  return page != NULL;
#endif
}

static void make(buffer *b) {
  uint8_t *all_of_it = aligned_alloc(PAGE, PAGE + room(b) + PAGE);
  b->want = malloc(b->space);
  if (!all_of_it || !b->want) broken("no memory for it");
  b->memory = all_of_it + PAGE;
  if (!closed(all_of_it) || !closed(b->memory + room(b))) broken("no page before or behind it");
}

/* The guard bytes before and behind what is lent. */
typedef struct {
  uint8_t *first;
  size_t count;
} span;

static span before(const buffer *b) {
  size_t count = b->last ? GUARD : EDGE;
  return (span){b->got - count, count};
}

static span behind(const buffer *b) { return (span){b->got + b->count, b->last ? EDGE : GUARD}; }

static void guard(span s) { memset(s.first, GUARD_BYTE, s.count); }

static bool guarded(span s) {
  for (size_t i = 0; i < s.count; i++)
    if (s.first[i] != GUARD_BYTE) return false;
  return true;
}

/* ---- lending */

void lend(buffer *b, size_t count) {
  if (!b->memory) make(b);
  if (count > b->space) broken("a buffer is too long");
  b->count = count;
  b->last = !b->last;
  b->got = b->last ? b->memory + room(b) - EDGE - count : b->memory + EDGE;
  guard(before(b));
  guard(behind(b));
}

/* The next number of the rule by which the second program fills what is lent. */
static uint64_t filling(uint64_t x) { return x * UINT64_C(6364136223846793005) + UINT64_C(1442695040888963407); }

void fill_numbers(buffer *b, size_t count, uint64_t x) {
  lend(b, 4 * count);
  for (size_t i = 0; i < count; i++) {
    x = filling(x);
    numbers(b->got)[i] = numbers(b->want)[i] = (int32_t)(x >> 32);
  }
}

void fill_bytes(buffer *b, size_t count, uint64_t x) {
  lend(b, count);
  for (size_t i = 0; i < count; i++) {
    x = filling(x);
    b->got[i] = b->want[i] = (uint8_t)(x >> 56);
  }
}

void *lend_result(size_t count) {
  fill_bytes(&result, count, 1);
  return result.got;
}

/* ---- comparing */

/* Tells the first byte that differs; of rows the number that it is in. */
static void tell_content(const buffer *b) {
  static const char *const row_names[] = {"system", "satellite", "signal place", "v1", "v2", "v3", "v4", "v5"};
  size_t at = 0;
  while (b->got[at] == b->want[at]) at++;
  if (b == &rows) {
    size_t i = at / 4;
    differ("%s: row %zu, %s %" PRId32 ", expected %" PRId32, b->name, i / HUNDURZEK_ROW, row_names[i % HUNDURZEK_ROW],
           numbers(b->got)[i], numbers(b->want)[i]);
  } else {
    differ("%s: byte %zu is %u, expected %u", b->name, at, b->got[at], b->want[at]);
  }
}

static void compare_buffer(buffer *b) {
  bool same = memcmp(b->got, b->want, b->count) == 0, safe = guarded(before(b)), safe_behind = guarded(behind(b));
  if (!same) tell_content(b);
  if (!safe) differ("%s: a byte before it is changed", b->name);
  if (!safe_behind) differ("%s: a byte behind it is changed", b->name);
  if (same && safe && safe_behind) return;
  memcpy(b->got, b->want, b->count);
  guard(before(b));
  guard(behind(b));
}

/* Of the result only what is around it. */
void compare_buffers(void) {
  if (result.got) memcpy(result.want, result.got, result.count);
  for (size_t i = 0; i < BUFFERS; i++)
    if (all[i]->got) compare_buffer(all[i]);
}

/* The first characters of a line, those that are no text as numbers. */
static void tell_line(const uint8_t *text, size_t count) {
  printf("  ");
  for (size_t i = 0; i < count && i < SHOWN; i++)
    printf(text[i] > ' ' && text[i] < 127 && text[i] != '\\' ? "%c" : "\\%02X", text[i]);
  printf(count > SHOWN ? "..\n" : "\n");
}

void tell_lent(void) {
  printf("; lent:");
  for (size_t i = 0; i < BUFFERS; i++)
    if (all[i]->got) printf(" %s of %zu bytes", all[i]->name, all[i]->count);
  printf("\n");
  if (line.got) tell_line(line.got, line.count);
}
