#include "readings.h"

#include <inttypes.h>
#include <string.h>

#include "changed.h"
#include "missing.h"

hundurzek_reading take_reading(void) {
  hundurzek_reading want;
  want.answer = number(1);
  want.place = number(8);
  want.missing = number(8);
  get(&want.head, sizeof want.head);
  want.rows = number(4);
  want.raw_offset = number(8);
  want.raw_count = number(8);
  if (want.answer >= STOPS && want.answer != HUNDURZEK_MESSAGE) broken("no such answer");
  if (want.rows * ROW_BYTES > rows.count) broken("too many rows");
  get(rows.want, want.rows * ROW_BYTES);
  get(holding.want, holding.count);
  return want;
}

static void compare_head(const hundurzek_head *got, const hundurzek_head *want) {
  static const char *const names[] = {"sub type", "epoch", "interval", "indicator", "IOD SSR", "a", "b", "c"};
  int32_t g[HUNDURZEK_ROW], w[HUNDURZEK_ROW];
  memcpy(g, got, sizeof g);
  memcpy(w, want, sizeof w);
  for (int i = 0; i < HUNDURZEK_ROW; i++)
    if (g[i] != w[i]) differ("head: %s %" PRId32 ", expected %" PRId32, names[i], g[i], w[i]);
}

void compare_reading(const buffer *bytes, const hundurzek_reading *want) {
  hundurzek_reading *got = lend_result(sizeof *got);
  const void *out = hundurzek_read(got, holding.got, holding.count, bytes->got, bytes->count, now.end,
                                   now.place, numbers(rows.got), rows.count / 4);
  if (out != got) differ("another pointer is returned");
  compare("answer", got->answer, want->answer);
  compare("place", got->place, want->place);
  compare_missing(got->answer, got->missing, want->missing);
  compare("row count", got->rows, want->rows);
  compare("raw part's offset", got->raw_offset, want->raw_offset);
  compare("raw part's count", got->raw_count, want->raw_count);
  compare_head(&got->head, &want->head);
  compare_dropped(want->answer);
  compare_lent();
}
