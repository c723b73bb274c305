/* Document 01's writer, and of document 02 Ask 1, bit by bit. Titles in comments are document 01's. */
#include "bitwise_write.h"

#include "bitwise_fields.h"

/* "Answer numbers" that a writer gives, and the one of docs/HOST.md for a message written. */
enum {
  ROOM = 1, PLACE = 2, SUBTYPE = 5, NO_MASK = 6, OTHER_ISSUE = 7, NETWORK = 11, VALUE = 12,
  DONE = HUNDURZEK_DONE
};

/* The columns of a head, and of a row from v1 on. */
enum { KIND, EPOCH, INTERVAL, INDICATOR, IOD, A, B, C };
enum { V1 = 3, CLOCK = 7 };

enum { GALILEO = 2, LONGEST = 50850 };

/* What is to be written, and of which satellites, the first one highest. */
struct sent {
  const bitwise_holding *held;
  int32_t head[HUNDURZEK_ROW];
  const int32_t *rows;
  uint64_t count;
  uint64_t selected;
};

static int opening_fits(const struct sent *s, int epoch) {
  return fits(s->head[EPOCH], epoch) && fits(s->head[INTERVAL], 4) && fits(s->head[INDICATOR], 1);
}

static void put_opening(struct cursor *c, const struct sent *s, int epoch) {
  put(c, 12, 4073);
  put(c, 4, s->head[KIND]);
  put(c, epoch, s->head[EPOCH]);
  put(c, 4, s->head[INTERVAL]);
  put(c, 1, s->head[INDICATOR]);
  put(c, 4, s->head[IOD]);
}

/* ---- sub type 1. Each sub type has its length, which is 0 where no message reads back to head and rows. */

static int mask_length(const struct sent *s) {
  int length = 49 + 61 * s->held->systems;
  if (!opening_fits(s, 20) || s->head[A] != s->held->systems || !absent(s->head, B, HUNDURZEK_ROW)) return 0;
  if (s->count != 0) return 0;
  for (int k = 0; k < s->held->satellites; k++) {
    int system = s->held->satellite[k].system;
    if (s->held->flag[system]) length += s->held->system[system].signals;
  }
  return length;
}

static uint64_t satellite_places(const bitwise_holding *held, int system) {
  uint64_t places = 0;
  for (int k = 0; k < held->satellites; k++)
    if (held->satellite[k].system == system) places |= UINT64_C(1) << (40 - held->satellite[k].number);
  return places;
}

static int32_t signal_places(const bitwise_system *system) {
  int32_t places = 0;
  for (int j = 0; j < system->signals; j++) places |= 1 << (15 - system->signal[j]);
  return places;
}

static void put_systems(struct cursor *c, const struct sent *s) {
  const bitwise_holding *held = s->held;
  put_opening(c, s, 20);
  put(c, 4, held->systems);
  for (int system = 0; system < held->systems; system++) {
    put(c, 4, held->system[system].id);
    put_mask(c, 40, satellite_places(held, system));
    put(c, 16, signal_places(&held->system[system]));
    put(c, 1, held->flag[system]);
    for (int k = 0; held->flag[system] && k < held->satellites; k++)
      if (held->satellite[k].system == system)
        put(c, held->system[system].signals, (int32_t)held->satellite[k].cells);
  }
}

/* ---- rows of satellites. Rows have their bits, which are -1 where they are not those of the satellites selected. */

static int is_selected(const struct sent *s, int k) { return s->selected >> (s->held->satellites - 1 - k) & 1; }

static int system_of(const bitwise_holding *held, int k) { return held->system[held->satellite[k].system].id; }

static int iode_width(const bitwise_holding *held, int k) { return system_of(held, k) == GALILEO ? 10 : 8; }

/* What a message has for each of its satellites: the orbit's four fields or not, and a value of so many bits, a clock
   or an accuracy, in a column of the row or, with column 0, none. */
struct parts {
  int orbit;
  int column;
  int width;
};

static struct parts parts_of(const int32_t *head) {
  switch (head[KIND]) {
    case 2: return (struct parts){1, 0, 0};
    case 3: return (struct parts){0, V1, 15};
    case 7: return (struct parts){0, V1, 6};
    default: return (struct parts){head[A], head[B] ? CLOCK : 0, 15};
  }
}

/* An accuracy, of sub type 7, is unsigned, a clock is not. */
static int value_fits(int32_t value, int width) { return width == 6 ? fits(value, width) : fits_signed(value, width); }

static int values_fit(const int32_t *row, const struct parts *parts, int iode) {
  int k = V1;
  if (parts->orbit) {
    if (!fits(row[3], iode) || !fits_signed(row[4], 15) || !fits_signed(row[5], 13) || !fits_signed(row[6], 13))
      return 0;
    k = CLOCK;
  }
  for (; k < HUNDURZEK_ROW; k++)
    if (k == parts->column ? !value_fits(row[k], parts->width) : row[k] != ABSENT) return 0;
  return 1;
}

static int satellites_length(const struct sent *s, const struct parts *parts) {
  const bitwise_holding *held = s->held;
  uint64_t count = 0;
  int length = 0;
  for (int k = 0; k < held->satellites; k++) {
    if (!is_selected(s, k)) continue;
    const int32_t *row = s->rows + HUNDURZEK_ROW * count;
    if (count++ == s->count) return -1;
    if (!names(row, system_of(held, k), held->satellite[k].number, ABSENT)) return -1;
    if (!values_fit(row, parts, iode_width(held, k))) return -1;
    if (parts->orbit) length += iode_width(held, k) + 15 + 13 + 13;
    if (parts->column) length += parts->width;
  }
  return count == s->count ? length : -1;
}

static void put_satellites(struct cursor *c, const struct sent *s, const struct parts *parts) {
  const int32_t *row = s->rows;
  for (int k = 0; k < s->held->satellites; k++) {
    if (!is_selected(s, k)) continue;
    if (parts->orbit) {
      put(c, iode_width(s->held, k), row[3]);
      put_signed(c, 15, row[4]);
      put_signed(c, 13, row[5]);
      put_signed(c, 13, row[6]);
    }
    if (parts->column) put_signed(c, parts->width, row[parts->column]);
    row += HUNDURZEK_ROW;
  }
}

/* ---- rows of cells */

/* What a message has for each cell of its satellites: a code bias in v1 or not, and a phase bias in a column of the
   row, with its discontinuity in the next, or, with column 0, not. */
struct biases {
  int code;
  int phase_column;
};

static struct biases biases_of(const int32_t *head) {
  switch (head[KIND]) {
    case 4: return (struct biases){1, 0};
    case 5: return (struct biases){0, V1};
    default: return (struct biases){head[A], head[B] ? V1 + 1 : 0};
  }
}

static int biases_fit(const int32_t *row, const struct biases *biases) {
  int k = V1;
  if (biases->code && !fits_signed(row[k++], 11)) return 0;
  if (biases->phase_column) {
    if (!absent(row, k, biases->phase_column)) return 0;
    k = biases->phase_column;
    if (!fits_signed(row[k], 15) || !fits(row[k + 1], 2)) return 0;
    k += 2;
  }
  return absent(row, k, HUNDURZEK_ROW);
}

/* A satellite's rows, one for each of its cells; they are there. */
static int strip_fits(const struct sent *s, int k, const int32_t *row, const struct biases *biases) {
  const bitwise_satellite *satellite = &s->held->satellite[k];
  const bitwise_system *system = &s->held->system[satellite->system];
  for (int j = 0; j < system->signals; j++) {
    if (!(satellite->cells >> (system->signals - 1 - j) & 1)) continue;
    if (!names(row, system->id, satellite->number, system->signal[j]) || !biases_fit(row, biases)) return 0;
    row += HUNDURZEK_ROW;
  }
  return 1;
}

static int cells_length(const struct sent *s, const struct biases *biases) {
  uint64_t count = 0;
  for (int k = 0; k < s->held->satellites; k++) {
    if (!is_selected(s, k)) continue;
    const int32_t *row = s->rows + HUNDURZEK_ROW * count;
    count += (uint64_t)s->held->satellite[k].cell_count;
    if (count > s->count || !strip_fits(s, k, row, biases)) return -1;
  }
  if (count != s->count) return -1;
  return (int)count * ((biases->code ? 11 : 0) + (biases->phase_column ? 15 + 2 : 0));
}

static void put_cells(struct cursor *c, const struct sent *s, const struct biases *biases) {
  for (uint64_t k = 0; k < s->count; k++) {
    const int32_t *row = s->rows + HUNDURZEK_ROW * k;
    if (biases->code) put_signed(c, 11, row[V1]);
    if (biases->phase_column) {
      put_signed(c, 15, row[biases->phase_column]);
      put(c, 2, row[biases->phase_column + 1]);
    }
  }
}

/* ---- sub types 2 to 7 and 11 */

static int has_cells(const struct sent *s) { return s->head[KIND] >= 4 && s->head[KIND] <= 6; }

static int has_flags(const struct sent *s) { return s->head[KIND] == 6 || s->head[KIND] == 11; }

/* With a network the rows say which satellites: of each whether the next row is of it, and so are as many as it has. */
static uint64_t selection(const struct sent *s) {
  uint64_t selected = 0, count = 0;
  for (int k = 0; k < s->held->satellites; k++) {
    const int32_t *row = s->rows + HUNDURZEK_ROW * count;
    int own = has_cells(s) ? s->held->satellite[k].cell_count : 1;
    int next = own > 0 && count < s->count && row[0] == system_of(s->held, k) && row[1] == s->held->satellite[k].number;
    selected = selected << 1 | (uint64_t)next;
    if (next) count += (uint64_t)own;
  }
  return selected;
}

static int flags_fit(const struct sent *s) {
  if (!has_flags(s)) return absent(s->head, A, HUNDURZEK_ROW);
  return fits(s->head[A], 1) && fits(s->head[B], 1) && (s->head[C] == ABSENT || fits(s->head[C], 5));
}

static int under_mask_length(const struct sent *s) {
  int length = 37, rows;
  struct parts parts = parts_of(s->head);
  struct biases biases = biases_of(s->head);
  if (!opening_fits(s, 12) || !flags_fit(s)) return 0;
  if (has_flags(s)) length += s->head[C] == ABSENT ? 3 : 8 + s->held->satellites;
  rows = has_cells(s) ? cells_length(s, &biases) : satellites_length(s, &parts);
  return rows < 0 ? 0 : length + rows;
}

static void put_flags(struct cursor *c, const struct sent *s) {
  put(c, 1, s->head[A]);
  put(c, 1, s->head[B]);
  put(c, 1, s->head[C] != ABSENT);
  if (s->head[C] == ABSENT) return;
  put(c, 5, s->head[C]);
  put_mask(c, s->held->satellites, s->selected);
}

static void put_under_mask(struct cursor *c, const struct sent *s) {
  struct parts parts = parts_of(s->head);
  struct biases biases = biases_of(s->head);
  put_opening(c, s, 12);
  if (has_flags(s)) put_flags(c, s);
  if (has_cells(s)) put_cells(c, s, &biases);
  else put_satellites(c, s, &parts);
}

/* ---- sub type 10 */

static int service_length(const struct sent *s) {
  if (!absent(s->head, EPOCH, INDICATOR) || !absent(s->head, IOD, A) || !absent(s->head, C, HUNDURZEK_ROW)) return 0;
  if (!fits(s->head[INDICATOR], 1) || !fits(s->head[A], 3) || !fits(s->head[B], 2)) return 0;
  if (s->count != (uint64_t)s->head[B] + 1) return 0;
  for (int k = 0; k <= s->head[B]; k++) {
    const int32_t *row = s->rows + HUNDURZEK_ROW * k;
    if (!names(row, ABSENT, ABSENT, k + 1)) return 0;
    for (int j = V1; j < HUNDURZEK_ROW; j++)
      if (!fits(row[j], 8)) return 0;
  }
  return 22 + 40 * (s->head[B] + 1);
}

static void put_service(struct cursor *c, const struct sent *s) {
  put(c, 12, 4073);
  put(c, 4, 10);
  put(c, 1, s->head[INDICATOR]);
  put(c, 3, s->head[A]);
  put(c, 2, s->head[B]);
  for (int k = 0; k <= s->head[B]; k++)
    for (int j = V1; j < HUNDURZEK_ROW; j++) put(c, 8, s->rows[HUNDURZEK_ROW * k + j]);
}

/* ---- one message */

static int message_length(const struct sent *s) {
  switch (s->head[KIND]) {
    case 1: return mask_length(s);
    case 10: return service_length(s);
    default: return under_mask_length(s);
  }
}

static void put_message(struct cursor *c, const struct sent *s) {
  switch (s->head[KIND]) {
    case 1: put_systems(c, s); break;
    case 10: put_service(c, s); break;
    default: put_under_mask(c, s);
  }
}

/* 5, 6, 7 and 11, which come before the rest of 12. */
static int test_head(const struct sent *s) {
  int32_t kind = s->head[KIND];
  if (kind == 10) return DONE;
  if (kind < 1 || (kind > 7 && kind != 11)) return SUBTYPE;
  if (!s->held->held) return NO_MASK;
  if (s->head[IOD] != s->held->iod) return OTHER_ISSUE;
  return has_flags(s) && s->head[C] == 0 ? NETWORK : DONE;
}

/* Writes at the cursor, up to before the limit, and leaves the cursor after the message. */
static int write_message(struct cursor *c, struct sent *s, uint64_t lent, int limit) {
  int answer = test_head(s);
  if (answer != DONE) return answer;
  if (lent / HUNDURZEK_ROW < s->count) return VALUE;
  if (has_flags(s) && s->head[C] != ABSENT) s->selected = selection(s);
  int length = message_length(s);
  if (length == 0) return VALUE;
  if (length > limit - c->place) return ROOM;
  put_message(c, s);
  return DONE;
}

hundurzek_done *bitwise_write(hundurzek_done *out, const uint8_t *holding, uint64_t holding_count, const int32_t *head,
                              uint64_t head_count, const int32_t *numbers, uint64_t number_count, uint64_t rows,
                              uint8_t *bytes, uint64_t count, uint64_t start) {
  uint64_t limit = 8 * count < LONGEST ? 8 * count : LONGEST;
  bitwise_holding held;
  struct sent s = {&held, {0}, numbers, rows, UINT64_MAX};
  struct cursor c = {bytes, (int)start};
  for (uint64_t k = 0; k < HUNDURZEK_ROW; k++) s.head[k] = k < head_count ? head[k] : ABSENT;
  int answer = start > limit ? PLACE : DONE;
  if (answer == DONE && (holding_count < HUNDURZEK_HOLDING || !bitwise_hold(&held, holding))) answer = VALUE;
  if (answer == DONE) answer = write_message(&c, &s, number_count, (int)limit);
  *out = (hundurzek_done){(uint64_t)answer, start, 0};
  if (answer == DONE) *out = (hundurzek_done){DONE, (uint64_t)c.place, (uint64_t)c.place - start};
  return out;
}
