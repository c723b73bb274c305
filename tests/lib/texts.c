#include "texts.h"

void take_text(buffer *written) {
  take_lent(&holding, number(2));
  take_lent(&line, number(4));
  size_t room = number(4);
  uint64_t seed = number(8);
  if (written == &line && line.count > 0) broken("a line where one is written");
  fill_bytes(written, room, seed);
}

hundurzek_done take_done(buffer *written) {
  hundurzek_done want = {.place = 0};
  want.answer = number(1);
  want.count = number(8);
  size_t count = number(4);
  if (count > written->count) broken("more is written than there is room for");
  get(written->want, count);
  return want;
}
