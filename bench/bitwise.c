/* Document 01's reader, and of document 02 Asks 1, 2 and 7, bit by bit. Titles in comments are document 01's. */
#include "bitwise.h"

#include <string.h>

#include "getbit.h"
#include "places.h"

/* "Answer numbers", and the one of docs/HOST.md for a message. */
enum {
  IDLE, ROOM, PLACE, SHORT, NUMBER, SUBTYPE, NO_MASK, OTHER_ISSUE, SYSTEM, RESERVED, SIZE, NETWORK, VALUE, CHANGED,
  MESSAGE = HUNDURZEK_MESSAGE
};

/* "Held mask and assigned places": the house limits. */
enum { GALILEO = 2, SYSTEMS = 5, SATELLITES = 64, CELLS = 256, LONGEST = 50850 };

static const hundurzek_head nothing = {HUNDURZEK_ABSENT, HUNDURZEK_ABSENT, HUNDURZEK_ABSENT, HUNDURZEK_ABSENT,
                                       HUNDURZEK_ABSENT, HUNDURZEK_ABSENT, HUNDURZEK_ABSENT, HUNDURZEK_ABSENT};

/* ---- fields one after another */

struct cursor {
  const uint8_t *bytes;
  int place;
  int end;
  int missing; /* bits of the field, or of the body, that is short (document 02, Ask 7); 0 where none is */
};

static int has(struct cursor *c, int width) {
  int missing = c->place + width - c->end;
  if (missing <= 0) return 1;
  c->missing = missing;
  return 0;
}

static int32_t unsigned_field(struct cursor *c, int width) {
  int32_t value = (int32_t)getbitu(c->bytes, c->place, width);
  c->place += width;
  return value;
}

static int32_t signed_field(struct cursor *c, int width) {
  int32_t value = getbits(c->bytes, c->place, width);
  c->place += width;
  return value;
}

/* A field of the head: 0 where it is short. */
static int take(struct cursor *c, int width, int32_t *value) {
  if (!has(c, width)) return 0;
  *value = unsigned_field(c, width);
  return 1;
}

/* A mask of up to 64 bits, in two pieces where one call of getbitu does not do. */
static int take_mask(struct cursor *c, int width, uint64_t *mask) {
  if (!has(c, width)) return 0;
  *mask = 0;
  if (width > 32) {
    *mask = (uint64_t)unsigned_field(c, width - 32) << 32;
    width = 32;
  }
  *mask |= (uint32_t)unsigned_field(c, width);
  return 1;
}

static int all_zero(const struct cursor *c) {
  for (int place = c->place; place < c->end; place += 8) {
    int left = c->end - place;
    if (getbitu(c->bytes, place, left < 8 ? left : 8)) return 0;
  }
  return 1;
}

/* ---- sub type 1 */

static int names(const bitwise_holding *mask, int id) {
  for (int k = 0; k < mask->systems; k++)
    if (mask->system[k].id == id) return 1;
  return 0;
}

/* Whether a mask of width bits has a place set that is not one of the first assigned ones. */
static int reserved(uint64_t mask, int width, int assigned) {
  return (mask & ((UINT64_C(1) << (width - assigned)) - 1)) != 0;
}

static int read_satellites(struct cursor *c, bitwise_holding *mask, int system) {
  uint64_t places;
  int id = mask->system[system].id;
  if (!take_mask(c, 40, &places)) return SHORT;
  if (reserved(places, 40, satellite_places[id])) return RESERVED;
  for (int place = 0; place < 40; place++) {
    if (!(places >> (39 - place) & 1)) continue;
    if (mask->satellites == SATELLITES) return SIZE;
    mask->satellite[mask->satellites++] = (bitwise_satellite){system, place + 1, 0, 0};
  }
  return MESSAGE;
}

static int read_signals(struct cursor *c, bitwise_system *system) {
  uint64_t places;
  if (!take_mask(c, 16, &places)) return SHORT;
  if (reserved(places, 16, signal_places[system->id])) return RESERVED;
  for (int place = 0; place < 16; place++)
    if (places >> (15 - place) & 1) system->signal[system->signals++] = place;
  return MESSAGE;
}

/* The cells of the satellites from first on, in a cell mask, which is one field. "With flag 0 every signal counts for
   every satellite." */
static int read_cells(struct cursor *c, bitwise_holding *mask, int index, int first) {
  int signals = mask->system[index].signals;
  int32_t flag, cells = (1 << signals) - 1;
  if (!take(c, 1, &flag)) return SHORT;
  if (flag && !has(c, signals * (mask->satellites - first))) return SHORT;
  mask->flag[index] = flag;
  for (int k = first; k < mask->satellites; k++) {
    if (flag) cells = unsigned_field(c, signals);
    mask->satellite[k].cells = (uint32_t)cells;
    for (int j = 0; j < signals; j++) mask->satellite[k].cell_count += cells >> j & 1;
    mask->cells += mask->satellite[k].cell_count;
  }
  return mask->cells > CELLS ? SIZE : MESSAGE;
}

static int read_system(struct cursor *c, bitwise_holding *mask) {
  int32_t id;
  if (!take(c, 4, &id)) return SHORT;
  if (id >= SYSTEMS || names(mask, id)) return SYSTEM;
  int index = mask->systems++, first = mask->satellites;
  bitwise_system *system = &mask->system[index];
  system->id = id;
  int answer = read_satellites(c, mask, index);
  if (answer == MESSAGE) answer = read_signals(c, system);
  if (answer == MESSAGE) answer = read_cells(c, mask, index, first);
  return answer;
}

/* Whether another mask is held under the same number (document 02, Ask 2). What a mask does not use is zero. */
static int is_changed(const bitwise_holding *held, const bitwise_holding *mask) {
  return held->held && held->iod == mask->iod && memcmp(held, mask, sizeof *held);
}

/* "Each good mask message is adopted as the new holding and replaces the old one whole": till then apart. */
static int read_mask(struct cursor *c, bitwise_holding *holding, hundurzek_head *head) {
  bitwise_holding mask = {.held = 1};
  if (!take(c, 20, &head->epoch) || !take(c, 4, &head->interval) || !take(c, 1, &head->indicator) ||
      !take(c, 4, &head->iod) || !take(c, 4, &head->a))
    return SHORT;
  mask.iod = head->iod;
  for (int k = 0; k < head->a; k++) {
    int answer = read_system(c, &mask);
    if (answer != MESSAGE) return answer;
  }
  if (is_changed(holding, &mask)) {
    *holding = (bitwise_holding){0};
    return CHANGED;
  }
  *holding = mask;
  return MESSAGE;
}

/* ---- rows */

struct rows {
  int32_t *numbers;
  uint64_t count;
};

static int32_t *open_row(struct rows *rows, int system, int satellite, int signal) {
  int32_t *row = rows->numbers + HUNDURZEK_ROW * rows->count++;
  row[0] = system;
  row[1] = satellite;
  row[2] = signal;
  for (int k = 3; k < HUNDURZEK_ROW; k++) row[k] = HUNDURZEK_ABSENT;
  return row;
}

/* Which satellites a message has rows of, the first one highest. */
static int is_selected(uint64_t selected, const bitwise_holding *holding, int k) {
  return selected >> (holding->satellites - 1 - k) & 1;
}

/* What a message has for each of its satellites: the orbit's four fields or not, and a value of so many bits, a clock
   or an accuracy, in a column of the row or, with column 0, none. */
struct parts {
  int orbit;
  int column;
  int width;
};

static int iode_width(const bitwise_holding *holding, int k) {
  return holding->system[holding->satellite[k].system].id == GALILEO ? 10 : 8;
}

static int satellites_width(const bitwise_holding *holding, const struct parts *parts, uint64_t selected) {
  int width = 0;
  for (int k = 0; k < holding->satellites; k++) {
    if (!is_selected(selected, holding, k)) continue;
    if (parts->orbit) width += iode_width(holding, k) + 15 + 13 + 13;
    if (parts->column) width += parts->width;
  }
  return width;
}

/* An accuracy, of sub type 7, is unsigned, a clock is not. */
static int32_t value_field(struct cursor *c, int width) {
  return width == 6 ? unsigned_field(c, width) : signed_field(c, width);
}

static int read_satellite_rows(struct cursor *c, const bitwise_holding *holding, const struct parts *parts,
                               uint64_t selected, struct rows *rows) {
  if (!has(c, satellites_width(holding, parts, selected))) return SHORT;
  for (int k = 0; k < holding->satellites; k++) {
    if (!is_selected(selected, holding, k)) continue;
    const bitwise_satellite *satellite = &holding->satellite[k];
    int32_t *row = open_row(rows, holding->system[satellite->system].id, satellite->number, HUNDURZEK_ABSENT);
    if (parts->orbit) {
      row[3] = unsigned_field(c, iode_width(holding, k));
      row[4] = signed_field(c, 15);
      row[5] = signed_field(c, 13);
      row[6] = signed_field(c, 13);
    }
    if (parts->column) row[parts->column] = value_field(c, parts->width);
  }
  return MESSAGE;
}

/* What a message has for each cell of its satellites: a code bias in v1 or not, and a phase bias in a column of the
   row, with its discontinuity in the next, or, with column 0, not. */
struct biases {
  int code;
  int phase_column;
};

static int cells_width(const bitwise_holding *holding, const struct biases *biases, uint64_t selected) {
  int cells = 0;
  for (int k = 0; k < holding->satellites; k++)
    if (is_selected(selected, holding, k)) cells += holding->satellite[k].cell_count;
  return cells * ((biases->code ? 11 : 0) + (biases->phase_column ? 15 + 2 : 0));
}

static int read_cell_rows(struct cursor *c, const bitwise_holding *holding, const struct biases *biases,
                          uint64_t selected, struct rows *rows) {
  if (!has(c, cells_width(holding, biases, selected))) return SHORT;
  for (int k = 0; k < holding->satellites; k++) {
    if (!is_selected(selected, holding, k)) continue;
    const bitwise_satellite *satellite = &holding->satellite[k];
    const bitwise_system *system = &holding->system[satellite->system];
    for (int j = 0; j < system->signals; j++) {
      if (!(satellite->cells >> (system->signals - 1 - j) & 1)) continue;
      int32_t *row = open_row(rows, system->id, satellite->number, system->signal[j]);
      if (biases->code) row[3] = signed_field(c, 11);
      if (biases->phase_column) {
        row[biases->phase_column] = signed_field(c, 15);
        row[biases->phase_column + 1] = unsigned_field(c, 2);
      }
    }
  }
  return MESSAGE;
}

/* ---- sub types 2 to 7 and 11 */

static int names_bare(const bitwise_holding *holding, uint64_t selected) {
  for (int k = 0; k < holding->satellites; k++)
    if (is_selected(selected, holding, k) && holding->satellite[k].cell_count == 0) return 1;
  return 0;
}

/* Sub types 6 and 11 after their head, up to their body. In sub type 6 a network has no satellite without a cell. */
static int read_selection(struct cursor *c, const bitwise_holding *holding, hundurzek_head *head, uint64_t *selected) {
  int32_t network;
  if (!take(c, 1, &head->a) || !take(c, 1, &head->b) || !take(c, 1, &network)) return SHORT;
  if (!network) return MESSAGE;
  if (!take(c, 5, &head->c)) return SHORT;
  if (head->c == 0) return NETWORK;
  if (!take_mask(c, holding->satellites, selected)) return SHORT;
  return head->subtype == 6 && names_bare(holding, *selected) ? NETWORK : MESSAGE;
}

static int read_body(struct cursor *c, const bitwise_holding *holding, const hundurzek_head *head, uint64_t selected,
                     struct rows *rows) {
  switch (head->subtype) {
    case 2: return read_satellite_rows(c, holding, &(struct parts){1, 0, 0}, selected, rows);
    case 3: return read_satellite_rows(c, holding, &(struct parts){0, 3, 15}, selected, rows);
    case 4: return read_cell_rows(c, holding, &(struct biases){1, 0}, selected, rows);
    case 5: return read_cell_rows(c, holding, &(struct biases){0, 3}, selected, rows);
    case 6: return read_cell_rows(c, holding, &(struct biases){head->a, head->b ? 4 : 0}, selected, rows);
    case 7: return read_satellite_rows(c, holding, &(struct parts){0, 3, 6}, selected, rows);
    default: return read_satellite_rows(c, holding, &(struct parts){head->a, head->b ? 7 : 0, 15}, selected, rows);
  }
}

static int read_under_mask(struct cursor *c, const bitwise_holding *holding, hundurzek_head *head, struct rows *rows) {
  uint64_t selected = UINT64_MAX;
  if (!take(c, 12, &head->epoch) || !take(c, 4, &head->interval) || !take(c, 1, &head->indicator) ||
      !take(c, 4, &head->iod))
    return SHORT;
  if (!holding->held) return NO_MASK;
  if (head->iod != holding->iod) return OTHER_ISSUE;
  if (head->subtype == 6 || head->subtype == 11) {
    int answer = read_selection(c, holding, head, &selected);
    if (answer != MESSAGE) return answer;
  }
  return read_body(c, holding, head, selected, rows);
}

/* ---- sub type 10 */

static int read_service(struct cursor *c, hundurzek_head *head, struct rows *rows) {
  if (!take(c, 1, &head->indicator) || !take(c, 3, &head->a) || !take(c, 2, &head->b)) return SHORT;
  if (!has(c, 40 * (head->b + 1))) return SHORT;
  for (int k = 0; k <= head->b; k++) {
    int32_t *row = open_row(rows, HUNDURZEK_ABSENT, HUNDURZEK_ABSENT, k + 1);
    for (int j = 3; j < HUNDURZEK_ROW; j++) row[j] = unsigned_field(c, 8);
  }
  return MESSAGE;
}

/* ---- one message */

static int read_message(struct cursor *c, bitwise_holding *holding, hundurzek_head *head, struct rows *rows) {
  int32_t number;
  if (!take(c, 12, &number)) return SHORT;
  if (number != 4073) return NUMBER;
  if (!take(c, 4, &head->subtype)) return SHORT;
  switch (head->subtype) {
    case 1: return read_mask(c, holding, head);
    case 2:
    case 3:
    case 4:
    case 5:
    case 6:
    case 7:
    case 11: return read_under_mask(c, holding, head, rows);
    case 10: return read_service(c, head, rows);
    default: return SUBTYPE;
  }
}

/* "Reader's order: 1, 2, 12", before a bit is looked at. */
static int test_lent(uint64_t holding_count, uint64_t count, uint64_t end, uint64_t start, uint64_t row_count) {
  if (row_count < HUNDURZEK_ROOM) return ROOM;
  if (end > LONGEST || (end + 7) / 8 > count || start > end) return PLACE;
  if (holding_count < sizeof(bitwise_holding)) return VALUE;
  return MESSAGE;
}

/* Leaves the cursor after the message; on idle or a refusal where it was. */
static int read_next(struct cursor *c, bitwise_holding *holding, hundurzek_head *head, struct rows *rows) {
  int start = c->place;
  int answer = all_zero(c) ? IDLE : read_message(c, holding, head, rows);
  if (answer != MESSAGE) c->place = start;
  return answer;
}

hundurzek_reading *bitwise_read(hundurzek_reading *out, uint8_t *holding, uint64_t holding_count, const uint8_t *bytes,
                                uint64_t count, uint64_t end, uint64_t start, int32_t *rows, uint64_t row_count) {
  struct cursor c = {bytes, (int)start, (int)end, 0};
  struct rows table = {rows, 0};
  *out = (hundurzek_reading){.place = start, .head = nothing};
  int answer = test_lent(holding_count, count, end, start, row_count);
  if (answer == MESSAGE) answer = read_next(&c, (bitwise_holding *)(void *)holding, &out->head, &table);
  out->answer = (uint64_t)answer;
  if (answer == MESSAGE) {
    out->place = (uint64_t)c.place;
    out->rows = table.count;
    out->raw_offset = start / 8;
    out->raw_count = (out->place + 7) / 8 - start / 8;
  } else {
    out->missing = (uint64_t)c.missing;
    out->head = nothing; /* the fields before the one that was refused are in it */
  }
  return out;
}

hundurzek_walked *bitwise_walk(hundurzek_walked *out, uint8_t *holding, uint64_t holding_count, const uint8_t *bytes,
                               uint64_t count, uint64_t end, int32_t *rows, uint64_t row_count) {
  struct cursor c = {bytes, 0, (int)end, 0};
  hundurzek_walked walked = {0};
  hundurzek_head head; /* not handed out */
  int answer = test_lent(holding_count, count, end, 0, row_count);
  while (answer == MESSAGE) {
    struct rows table = {rows, 0};
    answer = read_next(&c, (bitwise_holding *)(void *)holding, &head, &table);
    walked.messages += answer == MESSAGE;
    walked.rows += table.count;
  }
  walked.answer = (uint64_t)answer;
  walked.place = (uint64_t)c.place;
  walked.missing = (uint64_t)c.missing;
  *out = walked;
  return out;
}
