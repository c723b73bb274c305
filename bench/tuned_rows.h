/* The tuned reader's rows, a loop for each combination of what a row has: a part of tuned.c, so that all of it can be
   inlined there. */
#ifndef BENCH_TUNED_ROWS_H
#define BENCH_TUNED_ROWS_H

#include "tuned_windows.h"

ALWAYS const tuned_half *last_satellite(const tuned_mask *m) { return m->satellite + TUNED_SATELLITES - m->satellites; }

/* A field of a row, absent where it has no bits; what a row has; and where the next row's key is. All of it is known
   when this is compiled. */
typedef struct {
  unsigned width;
  bool sign;
} field;

typedef struct {
  field v1, v2, v3;
  int next;
} shape;

ALWAYS unsigned row_bits(shape has) { return has.v1.width + has.v2.width + has.v3.width; }

ALWAYS int32_t cut_field(uint64_t bits, unsigned from, field f) {
  return f.sign ? cut_signed(bits, from, f.width) : cut(bits, from, f.width);
}

/* A row's values begin with bit 'from' of a window. */
ALWAYS void put_values(int32_t *row, const tuned_half *key, uint64_t bits, unsigned from, shape has) {
  memcpy(row, key, sizeof *key);
  memcpy(row + 4, &absent, sizeof absent);
  if (has.v1.width) row[3] = cut_field(bits, from, has.v1);
  if (has.v2.width) row[4] = cut_field(bits, from + has.v1.width, has.v2);
  if (has.v3.width) row[5] = cut_field(bits, from + has.v1.width + has.v2.width, has.v3);
}

/* As many rows from one window as have their bits in 57; of rows without bits four at a turn. */
ALWAYS void put_rows(const tuned_half *key, uint32_t count, source b, int32_t *row, shape has) {
  const unsigned step = row_bits(has), batch = step == 0 ? 4 : 57 / step;
  for (; count >= batch; count -= batch) {
    uint64_t bits = window(b.bytes, b.place);
#pragma GCC unroll 9
    for (unsigned k = 0; k < batch; k++)
      put_values(row + HUNDURZEK_ROW * k, key + has.next * (int)k, bits, k * step, has);
    key += has.next * (int)batch;
    row += HUNDURZEK_ROW * batch;
    b.place += batch * step;
  }
  for (; count > 0; count--, key += has.next, row += HUNDURZEK_ROW, b.place += step)
    put_values(row, key, window(b.bytes, b.place), 0, has);
}

#define NOTHING {0, false}
static const shape clocks = {{CLOCK, true}, NOTHING, NOTHING, -1};
static const shape accuracies = {{ACCURACY, false}, NOTHING, NOTHING, -1};
static const shape codes = {{CODE, true}, NOTHING, NOTHING, 1};
static const shape phases = {{PHASE, true}, {DISCONTINUITY, false}, NOTHING, 1};
static const shape second_phases = {NOTHING, {PHASE, true}, {DISCONTINUITY, false}, 1};
static const shape codes_phases = {{CODE, true}, {PHASE, true}, {DISCONTINUITY, false}, 1};
static const shape cell_keys = {NOTHING, NOTHING, NOTHING, 1};

__attribute__((noinline)) static void put_clocks(const tuned_mask *m, source b, int32_t *rows) {
  put_rows(m->satellite + TUNED_SATELLITES - 1, m->satellites, b, rows, clocks);
}

__attribute__((noinline)) static void put_accuracies(const tuned_mask *m, source b, int32_t *rows) {
  put_rows(m->satellite + TUNED_SATELLITES - 1, m->satellites, b, rows, accuracies);
}

__attribute__((noinline)) static void put_code_biases(const tuned_mask *m, source b, int32_t *rows) {
  put_rows(m->cell, m->cells, b, rows, codes);
}

__attribute__((noinline)) static void put_phase_biases(const tuned_mask *m, source b, int32_t *rows) {
  put_rows(m->cell, m->cells, b, rows, phases);
}

/* ---- cells of selected satellites: those of satellites that stand together stand together */

/* So many cells from one on. */
typedef struct {
  uint32_t first;
  uint32_t count;
} run;

/* The cells of the first selected satellites that stand together, and those taken from the selection; each has some. */
ALWAYS run next_run(const tuned_mask *m, uint64_t *selected) {
  const tuned_strip *of_last = m->strip + TUNED_SATELLITES - m->satellites;
  unsigned first = 63 - (unsigned)__builtin_clzll(*selected);
  uint64_t others = ~*selected & ((UINT64_C(1) << first) - 1);
  unsigned last = others == 0 ? 0 : 64 - (unsigned)__builtin_clzll(others);
  *selected &= (UINT64_C(1) << last) - 1;
  return (run){of_last[first].first, (uint32_t)of_last[last].past - of_last[first].first};
}

ALWAYS uint32_t count_selected(const tuned_mask *m, uint64_t selected) {
  uint32_t count = 0;
  while (selected) count += next_run(m, &selected).count;
  return count;
}

ALWAYS void put_selected_cells(const tuned_mask *m, uint64_t selected, source b, int32_t *rows, shape has) {
  while (selected) {
    run r = next_run(m, &selected);
    put_rows(m->cell + r.first, r.count, b, rows, has);
    rows += HUNDURZEK_ROW * r.count;
    b.place += row_bits(has) * r.count;
  }
}

/* What a message has for each cell, as the two flags of sub type 6 say it. */
enum { NEITHER, SECOND_PHASES, CODES, CODES_PHASES };

ALWAYS uint64_t cell_bits(int parts) {
  return (parts & CODES ? CODE : 0) + (parts & SECOND_PHASES ? PHASE + DISCONTINUITY : 0);
}

__attribute__((noinline)) static void put_cells(const tuned_mask *m, uint64_t selected, source b, int32_t *rows,
                                                int parts) {
  switch (parts) {
    case NEITHER: put_selected_cells(m, selected, b, rows, cell_keys); break;
    case SECOND_PHASES: put_selected_cells(m, selected, b, rows, second_phases); break;
    case CODES: put_selected_cells(m, selected, b, rows, codes); break;
    default: put_selected_cells(m, selected, b, rows, codes_phases);
  }
}

/* ---- satellites, all or selected */

/* What a message has for each satellite, as the two flags of sub type 11 say it; the bits of an IODE. */
enum { KEYS, CLOCKS, ORBITS, ORBITS_CLOCKS };
enum { IODE = 8, LONG_IODE = 10 };

ALWAYS uint64_t satellite_bits(int parts, unsigned iode) {
  return (parts & ORBITS ? iode + 41 : 0) + (parts & CLOCKS ? CLOCK : 0);
}

/* A satellite's row. What it has, parts and iode, is known when this is compiled. */
ALWAYS void put_satellite(const tuned_half *key, source b, int32_t *row, int parts, unsigned iode) {
  memcpy(row, key, sizeof *key);
  memcpy(row + 4, &absent, sizeof absent);
  if (parts & ORBITS) {
    uint64_t bits = window(b.bytes, b.place);
    row[3] = cut(bits, 0, iode);
    row[4] = cut_signed(bits, iode, 15);
    row[5] = cut_signed(bits, iode + 15, 13);
    row[6] = cut_signed(bits, iode + 28, 13);
  }
  if (parts & CLOCKS) row[7] = cut_signed(window(b.bytes, b.place + satellite_bits(parts & ORBITS, iode)), 0, CLOCK);
}

/* What is left to do, from the last row to the first: where the last row and its bits end. */
typedef struct {
  source past;
  int32_t *row_past;
} progress;

ALWAYS progress put_run(const tuned_half *key, const tuned_half *end, progress p, int parts, unsigned iode) {
  for (; key < end; key++) {
    p.past.place -= satellite_bits(parts, iode);
    p.row_past -= HUNDURZEK_ROW;
    put_satellite(key, p.past, p.row_past, parts, iode);
  }
  return p;
}

/* Galileo's satellites have loops of their own. */
ALWAYS void put_all(const tuned_mask *m, progress p, int parts) {
  const tuned_half *key = last_satellite(m), *end = m->satellite + TUNED_SATELLITES;
  if (parts & ORBITS && m->galileo > 0) {
    const tuned_half *galileo = key + m->after_galileo, *past = galileo + m->galileo;
    p = put_run(key, galileo, p, parts, IODE);
    p = put_run(galileo, past, p, parts, LONG_IODE);
    key = past;
  }
  put_run(key, end, p, parts, IODE);
}

ALWAYS progress put_chosen(const tuned_half *last, uint64_t chosen, progress p, int parts, unsigned iode) {
  for (; chosen; chosen &= chosen - 1) {
    p.past.place -= satellite_bits(parts, iode);
    p.row_past -= HUNDURZEK_ROW;
    put_satellite(last + __builtin_ctzll(chosen), p.past, p.row_past, parts, iode);
  }
  return p;
}

/* Galileo's satellites as a selection has them. */
ALWAYS uint64_t galileo_bits(const tuned_mask *m) {
  return m->galileo == 0 ? 0 : UINT64_MAX >> (64 - m->galileo) << m->after_galileo;
}

ALWAYS void put_selected(const tuned_mask *m, uint64_t selected, progress p, int parts) {
  const tuned_half *last = last_satellite(m);
  uint64_t galileo = parts & ORBITS ? galileo_bits(m) : 0;
  if (galileo) {
    uint64_t after = (galileo & -galileo) - 1;
    p = put_chosen(last, selected & after, p, parts, IODE);
    p = put_chosen(last, selected & galileo, p, parts, LONG_IODE);
    selected &= ~(galileo | after);
  }
  put_chosen(last, selected, p, parts, IODE);
}

/* Rows of keys alone, four at a turn. */
ALWAYS void put_keys(const tuned_mask *m, int32_t *row) {
  const tuned_half *key = m->satellite + TUNED_SATELLITES, *last = last_satellite(m);
#pragma GCC unroll 4
  for (; key > last; row += HUNDURZEK_ROW) {
    memcpy(row, --key, sizeof *key);
    memcpy(row + 4, &absent, sizeof absent);
  }
}

__attribute__((noinline)) static void put_orbits(const tuned_mask *m, source b, int32_t *rows) {
  source past = {b.bytes, b.place + m->orbit_bits};
  put_all(m, (progress){past, rows + HUNDURZEK_ROW * m->satellites}, ORBITS);
}

__attribute__((noinline)) static void put_combined(const tuned_mask *m, source past, int32_t *rows, int parts) {
  progress p = {past, rows + HUNDURZEK_ROW * m->satellites};
  switch (parts) {
    case KEYS: put_keys(m, rows); break;
    case CLOCKS: put_all(m, p, CLOCKS); break;
    case ORBITS: put_all(m, p, ORBITS); break;
    default: put_all(m, p, ORBITS_CLOCKS);
  }
}

__attribute__((noinline)) static void put_network(const tuned_mask *m, uint64_t selected, source past,
                                                  int32_t *row_past, int parts) {
  progress p = {past, row_past};
  switch (parts) {
    case KEYS: put_selected(m, selected, p, KEYS); break;
    case CLOCKS: put_selected(m, selected, p, CLOCKS); break;
    case ORBITS: put_selected(m, selected, p, ORBITS); break;
    default: put_selected(m, selected, p, ORBITS_CLOCKS);
  }
}

#endif
