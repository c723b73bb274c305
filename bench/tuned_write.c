/* Document 01's writer, and of document 02 Ask 1, tuned. Titles in comments are document 01's. */
#include "tuned_write.h"

#include "tuned_pack.h"

/* What is to be written. */
typedef struct {
  const tuned_sent_mask *mask;
  const int32_t *head;
  const int32_t *rows;
  uint64_t count;
} sent;

/* Epoch, interval and indicator are tested; the IOD SSR was. */
ALWAYS uint64_t opening(packer *p, const int32_t *head, unsigned epoch) {
  uint64_t bits = NUMBER << 4 | (uint32_t)head[KIND];
  p->bad |= over(head[EPOCH], epoch) | over(head[INTERVAL], 4) | over(head[INDICATOR], 1);
  bits = bits << epoch | (uint32_t)head[EPOCH];
  return ((bits << 4 | (uint32_t)head[INTERVAL]) << 1 | (uint32_t)head[INDICATOR]) << 4 | (uint32_t)head[IOD];
}

/* The head of sub types 2 to 5 and 7. */
ALWAYS packer push_head(packer p, const int32_t *head) {
  p.bad |= not_absents(head + A) | not_absent(head[C]);
  uint64_t bits = opening(&p, head, 12);
  return push(p, bits, 37);
}

/* ---- sub type 1 */

ALWAYS packer push_systems(packer p, const sent *s) {
  const tuned_sent_mask *m = s->mask;
  const uint8_t *from = m->systems_sent;
  uint32_t left = m->systems_bits;
  p.bad |= ((uint32_t)s->head[A] ^ m->systems) | not_absents(s->head + B) | s->count;
  uint64_t bits = opening(&p, s->head, 20) << 4 | m->systems;
  p = push(p, bits, 49);
  for (; left > 0; from += MOST / 8) {
    unsigned width = left < MOST ? left : MOST;
    memcpy(&bits, from, sizeof bits);
    p = push(p, __builtin_bswap64(bits) >> (64 - width), width);
    left -= width;
  }
  return p;
}

/* ---- sub types 3, 4, 5 and 7 */

/* A row for each satellite, or for each cell. */
ALWAYS packer push_satellite_rows(packer p, const sent *s, field v1) {
  p.bad |= s->count ^ s->mask->satellites;
  return p.bad ? p : push_rows(p, (row_list){s->rows, s->mask->satellite, NULL, s->count}, (shape){v1, 0, 0, false});
}

ALWAYS packer push_cell_rows(packer p, const sent *s, shape has) {
  p.bad |= s->count ^ s->mask->cells;
  return p.bad ? p : push_rows(p, (row_list){s->rows, s->mask->cell, s->mask->cell_signal, s->count}, has);
}

ALWAYS packer push_clocks(packer p, const sent *s) { return push_satellite_rows(p, s, (field){CLOCK, true}); }

ALWAYS packer push_accuracies(packer p, const sent *s) { return push_satellite_rows(p, s, (field){ACCURACY, false}); }

ALWAYS packer push_code_biases(packer p, const sent *s) {
  return push_cell_rows(p, s, (shape){{CODE, true}, 0, 0, true});
}

ALWAYS packer push_phase_biases(packer p, const sent *s) {
  return push_cell_rows(p, s, (shape){{PHASE, true}, DISCONTINUITY, 0, true});
}

/* ---- flags and selections of sub types 6 and 11 */

/* The head, the flags, and with a network its ID. */
ALWAYS packer push_flags(packer p, const int32_t *head) {
  p.bad |= over(head[A], 1) | over(head[B], 1);
  uint64_t bits = (opening(&p, head, 12) << 1 | (uint32_t)head[A]) << 1 | (uint32_t)head[B];
  if (!not_absent(head[C])) return push(p, bits << 1, 40);
  p.bad |= over(head[C], 5);
  return push(p, (bits << 1 | 1) << 5 | (uint32_t)head[C], 45);
}

/* The two flags as a number, where they are good. */
ALWAYS int parts_of(const int32_t *head) { return (int)((uint32_t)head[A] << 1 | (uint32_t)head[B]); }

/* Which satellite of the mask a row names, from 1 on: 0 where it names none. */
ALWAYS uint32_t index_of(const tuned_sent_mask *m, const int32_t *row) {
  uint32_t id = (uint32_t)row[0], number = (uint32_t)row[1];
  return id < TUNED_IDS && number < TUNED_NUMBERS ? m->index[id][number] : 0;
}

/* Its bit in a selection. */
ALWAYS uint64_t bit_of(const tuned_sent_mask *m, uint32_t index) {
  return UINT64_C(1) << ((m->satellites - index) & 63);
}

/* ---- sub type 6 */

/* The satellites whose cells the rows name, the first one highest; bad where they are none of the mask's, not in its
   order or have another number of cells than there are rows. */
ALWAYS uint64_t cell_selection(packer *p, const sent *s) {
  const tuned_sent_mask *m = s->mask;
  uint64_t selected = 0, own;
  uint32_t last = 0;
  for (uint64_t k = 0; k < s->count; k += own) {
    uint32_t index = index_of(m, s->rows + HUNDURZEK_ROW * k);
    own = index > last ? m->first_cell[index] - m->first_cell[index - 1] : 0;
    if (own == 0 || own > s->count - k) {
      p->bad = 1;
      return 0;
    }
    selected |= bit_of(m, index);
    last = index;
  }
  return selected;
}

/* Cells of satellites that stand together stand together. */
ALWAYS packer push_cells(packer p, const sent *s, uint64_t selected, shape has) {
  const tuned_sent_mask *m = s->mask;
  row_list l = {.row = s->rows};
  while (selected) {
    unsigned past = 64 - (unsigned)__builtin_clzll(selected);
    uint64_t others = ~selected & UINT64_MAX >> (64 - past);
    unsigned last = others == 0 ? 0 : 64 - (unsigned)__builtin_clzll(others);
    uint32_t first = m->first_cell[m->satellites - past];
    l = (row_list){l.row, m->cell + first, m->cell_signal + first, m->first_cell[m->satellites - last] - first};
    p = push_rows(p, l, has);
    l.row += HUNDURZEK_ROW * l.count;
    selected &= (UINT64_C(1) << last) - 1;
  }
  return p;
}

/* Without a network the cells of all satellites are those of all satellites with a cell. */
ALWAYS packer push_both_biases(packer p, const sent *s) {
  const tuned_sent_mask *m = s->mask;
  uint64_t selected = m->celled;
  p = push_flags(p, s->head);
  if (not_absent(s->head[C])) {
    selected = cell_selection(&p, s);
    p = push_mask(p, selected, m->satellites);
  } else {
    p.bad |= s->count ^ m->cells;
  }
  if (p.bad) return p;
  switch (parts_of(s->head)) {
    case 0: return push_cells(p, s, selected, (shape){{0, false}, 0, 0, true});
    case 1: return push_cells(p, s, selected, (shape){{0, false}, PHASE, DISCONTINUITY, true});
    case 2: return push_cells(p, s, selected, (shape){{CODE, true}, 0, 0, true});
    default: return push_cells(p, s, selected, (shape){{CODE, true}, PHASE, DISCONTINUITY, true});
  }
}

/* ---- rows of satellites */

/* What a message has for each satellite, as the two flags of sub type 11 say it. */
enum { KEYS, CLOCKS, ORBITS, ORBITS_CLOCKS };

ALWAYS packer push_orbit(packer p, const int32_t *row, unsigned iode) {
  uint64_t bits = (uint64_t)(uint32_t)row[3] << RADIAL | low(row[4], RADIAL);
  p.bad |= over(row[3], iode) | over_signed(row[4], RADIAL) | over_signed(row[5], TRACK) | over_signed(row[6], TRACK);
  bits = (bits << TRACK | low(row[5], TRACK)) << TRACK | low(row[6], TRACK);
  return push(p, bits, iode + RADIAL + TRACK + TRACK);
}

/* A satellite's row after its key. What it has, parts and iode, is known when this is compiled. */
ALWAYS packer push_satellite(packer p, const int32_t *row, int parts, unsigned iode) {
  p.bad |= not_absent(row[2]);
  if (parts & ORBITS)
    p = push_orbit(p, row, iode);
  else
    p.bad |= not_absents(row + 3) | not_absents(row + 5);
  if (!(parts & CLOCKS)) {
    p.bad |= not_absent(row[7]);
    return p;
  }
  p.bad |= over_signed(row[7], CLOCK);
  return push(p, (uint32_t)row[7], CLOCK);
}

/* Satellites and how many: those before Galileo's, these, and those after them. Without keys they were tested. */
typedef struct {
  const uint64_t *key;
  uint32_t runs[3];
} run_list;

ALWAYS packer push_run(packer p, const int32_t **row, run_list *list, int run, int parts, unsigned iode) {
  for (uint32_t left = list->runs[run]; left > 0; left--, *row += HUNDURZEK_ROW) {
    if (list->key) p.bad |= two_at(*row) ^ *list->key++;
    p = push_satellite(p, *row, parts, iode);
  }
  return p;
}

ALWAYS packer push_runs(packer p, const int32_t *row, run_list list, int parts) {
  p = push_run(p, &row, &list, 0, parts, IODE);
  p = push_run(p, &row, &list, 1, parts, LONG_IODE);
  return push_run(p, &row, &list, 2, parts, IODE);
}

ALWAYS packer push_parts(packer p, const int32_t *row, run_list list, int parts) {
  switch (parts) {
    case KEYS: return push_runs(p, row, list, KEYS);
    case CLOCKS: return push_runs(p, row, list, CLOCKS);
    case ORBITS: return push_runs(p, row, list, ORBITS);
    default: return push_runs(p, row, list, ORBITS_CLOCKS);
  }
}

ALWAYS run_list all_of(const tuned_sent_mask *m) {
  uint32_t after = m->satellites - m->first_galileo - m->galileo;
  return (run_list){m->satellite, {m->first_galileo, m->galileo, after}};
}

ALWAYS packer push_orbits(packer p, const sent *s) {
  p.bad |= s->count ^ s->mask->satellites;
  return p.bad ? p : push_runs(p, s->rows, all_of(s->mask), ORBITS);
}

ALWAYS packer push_all(packer p, const sent *s, int parts) {
  p.bad |= s->count ^ s->mask->satellites;
  return p.bad ? p : push_parts(p, s->rows, all_of(s->mask), parts);
}

/* The satellites that the rows name, the first one highest; bad where they are none of the mask's or not in its
   order. */
ALWAYS uint64_t selection(packer *p, const sent *s) {
  uint64_t selected = 0;
  uint32_t last = 0;
  const int32_t *row = s->rows, *end = row + HUNDURZEK_ROW * s->count;
  for (; row < end; row += HUNDURZEK_ROW) {
    uint32_t index = index_of(s->mask, row);
    p->bad |= index <= last;
    selected |= bit_of(s->mask, index);
    last = index;
  }
  return selected;
}

ALWAYS packer push_network(packer p, const sent *s, int parts) {
  const tuned_sent_mask *m = s->mask;
  run_list list = {NULL, {(uint32_t)s->count, 0, 0}};
  p.bad |= s->count > m->satellites;
  if (p.bad) return p;
  uint64_t selected = selection(&p, s);
  p = push_mask(p, selected, m->satellites);
  if (parts & ORBITS && m->galileo > 0) {
    uint32_t after = m->satellites - m->first_galileo - m->galileo;
    list.runs[2] = ones(selected & ((UINT64_C(1) << after) - 1));
    list.runs[1] = ones(selected >> after & ((UINT64_C(1) << m->galileo) - 1));
    list.runs[0] -= list.runs[1] + list.runs[2];
  }
  return p.bad ? p : push_parts(p, s->rows, list, parts);
}

ALWAYS packer push_combined(packer p, const sent *s) {
  int parts = parts_of(s->head);
  p = push_flags(p, s->head);
  return not_absent(s->head[C]) ? push_network(p, s, parts) : push_all(p, s, parts);
}

/* ---- sub type 10 */

ALWAYS packer push_part(packer p, const int32_t *row, uint32_t k) {
  uint64_t bits = 0;
  p.bad |= not_absents(row) | ((uint32_t)row[2] ^ k);
#pragma GCC unroll 5
  for (int j = 3; j < HUNDURZEK_ROW; j++) {
    p.bad |= over(row[j], 8);
    bits = bits << 8 | (uint32_t)row[j];
  }
  return push(p, bits, 40);
}

ALWAYS packer push_service(packer p, const sent *s) {
  const int32_t *head = s->head, *row = s->rows;
  p.bad |= not_absents(head + EPOCH) | not_absent(head[IOD]) | not_absent(head[C]);
  p.bad |= over(head[INDICATOR], 1) | over(head[A], 3) | over(head[B], 2) | (s->count ^ ((uint64_t)head[B] + 1));
  if (p.bad) return p;
  p = push(p, ((NUMBER << 4 | 10u) << 1 | (uint32_t)head[INDICATOR]) << 5 | (uint32_t)(head[A] << 2 | head[B]), 22);
  for (uint32_t k = 1; k <= s->count; k++, row += HUNDURZEK_ROW) p = push_part(p, row, k);
  return p;
}

/* ---- one message */

/* 6, 7 and 11, which come before the rest of 12. */
ALWAYS uint64_t test_mask(const sent *s) {
  uint32_t gate = s->mask->gate;
  if ((HELD ^ gate) != (uint32_t)s->head[IOD] || !gate) return gate ? OTHER_ISSUE : NO_MASK;
  return s->head[C] == 0 && (s->head[KIND] == 6 || s->head[KIND] == 11) ? NETWORK : DONE;
}

ALWAYS packer push_message(packer p, const sent *s) {
  switch (s->head[KIND]) {
    case 1: return push_systems(p, s);
    case 2: return push_orbits(push_head(p, s->head), s);
    case 3: return push_clocks(push_head(p, s->head), s);
    case 4: return push_code_biases(push_head(p, s->head), s);
    case 5: return push_phase_biases(push_head(p, s->head), s);
    case 6: return push_both_biases(p, s);
    case 7: return push_accuracies(push_head(p, s->head), s);
    case 10: return push_service(p, s);
    default: return push_combined(p, s);
  }
}

/* "Bits outside the message keep their values": what is packed goes between those of its first and last byte. */
ALWAYS void copy(uint8_t *to, uint8_t *packed, unsigned skip, uint64_t bits) {
  uint64_t last = (skip + bits) / 8;
  unsigned past = (skip + bits) % 8;
  packed[0] |= to[0] & (uint8_t)~(0xFF >> skip);
  if (past > 0) packed[last] |= to[last] & 0xFF >> past;
  memcpy(to, packed, last + (past > 0));
}

/* The message's length, or a refusal in its order. */
ALWAYS uint64_t write_message(const sent *s, uint64_t lent, uint8_t *bytes, uint64_t start, uint64_t limit,
                              uint64_t *length) {
  static const uint32_t kinds = 0xFEu | 1u << 10 | 1u << 11; /* 1 to 7, 10 and 11 */
  uint8_t packed[PACKED + WINDOW];
  unsigned skip = start % 8;
  uint32_t kind = (uint32_t)s->head[KIND];
  if (kind > 11 || !(kinds >> kind & 1)) return SUBTYPE;
  uint64_t answer = kind == 10 ? DONE : test_mask(s);
  if (answer != DONE) return answer;
  if (lent / HUNDURZEK_ROW < s->count) return VALUE;
  packer p = push_message((packer){packed, 0, skip, 0}, s);
  if (p.bad) return VALUE;
  *length = 8 * (uint64_t)(p.at - packed) + p.filled - skip;
  if (*length > limit - start) return ROOM;
  copy(bytes + start / 8, packed, skip, *length);
  return DONE;
}

hundurzek_done *tuned_write(hundurzek_done *out, const uint8_t *holding, uint64_t holding_count, const int32_t *head,
                            uint64_t head_count, const int32_t *numbers, uint64_t number_count, uint64_t rows,
                            uint8_t *bytes, uint64_t count, uint64_t start) {
  int32_t whole[HUNDURZEK_ROW];
  uint64_t limit = 8 * count < LONGEST ? 8 * count : LONGEST, length = 0, answer;
  if (head_count < HUNDURZEK_ROW) {
    for (uint64_t k = 0; k < HUNDURZEK_ROW; k++) whole[k] = k < head_count ? head[k] : HUNDURZEK_ABSENT;
    head = whole;
  }
  sent s = {(const void *)holding, head, numbers, rows};
  if (start > limit)
    answer = PLACE;
  else if (holding_count < sizeof *s.mask || tuned_stray(s.mask->holding))
    answer = VALUE;
  else
    answer = write_message(&s, number_count, bytes, start, limit, &length);
  *out = answer == DONE ? (hundurzek_done){DONE, start + length, length} : (hundurzek_done){answer, start, 0};
  return out;
}
