/* Document 01's reader, and of document 02 Asks 1, 2 and 7, tuned. Titles in comments are document 01's. */
#include "tuned.h"

#include "tuned_masks.h"
#include "tuned_rows.h"
#include "tuned_windows.h"

/* ---- sub types 2 to 7 and 11 */

typedef void body(const tuned_mask *m, source b, int32_t *rows);

ALWAYS uint64_t read_body(stretch *s, uint64_t place, uint64_t bits, body *put) {
  place += HEAD;
  if (s->end - place < bits) return stop_in_body(s, bits, s->end - place);
  put(s->held, source_of(s, place, bits), s->rows);
  return place + bits;
}

ALWAYS uint64_t selection(source b, uint32_t count) {
  if (count == 0) return 0;
  if (count <= 57) return window(b.bytes, b.place) >> (64 - count);
  return window(b.bytes, b.place) >> 32 << (count - 32) | window(b.bytes, b.place + 32) >> (96 - count);
}

/* The bits at a place, and the place after them. */
ALWAYS source past_of(stretch *s, uint64_t place, uint64_t bits) {
  source b = source_of(s, place, bits);
  return (source){b.bytes, b.place + bits};
}

/* What the flags of sub types 6 and 11 say, and of a network which satellites. */
typedef struct {
  int parts;
  bool network;
  uint64_t selected;
} choice;

/* After the network ID: answers where the body begins. */
ALWAYS uint64_t read_selection(stretch *s, uint64_t place, choice *c) {
  const uint32_t satellites = s->held->satellites;
  place += NETWORK_END;
  if (s->end - place < satellites) return stop_in_body(s, satellites, s->end - place);
  c->selected = selection(source_of(s, place, satellites), satellites);
  return place + satellites;
}

/* After the head: answers where the body begins. */
ALWAYS uint64_t read_choice(stretch *s, uint64_t place, uint64_t first, hundurzek_head *head, choice *c) {
  uint64_t left = s->end - place;
  if (left < FLAGS) return stop_in_body(s, left + 1, left); /* of the next flag its one bit */
  c->parts = cut(first, 37, 2);
  c->network = cut(first, 39, 1);
  head->a = c->parts >> 1;
  head->b = c->parts & 1;
  if (!c->network) return place + FLAGS;
  if (left < NETWORK_END) return stop_in_body(s, NETWORK_END, left);
  head->c = cut(first, 40, 5);
  return head->c == 0 ? stop(s, NETWORK) : read_selection(s, place, c);
}

ALWAYS uint64_t read_combined(stretch *s, uint64_t place, uint64_t first, hundurzek_head *head, uint64_t *rows) {
  const tuned_mask *m = s->held;
  choice c = {0, false, 0};
  uint64_t bits;
  place = read_choice(s, place, first, head, &c);
  if (place == STOPPED) return STOPPED;
  if (c.network) {
    *rows = ones(c.selected);
    bits = *rows * satellite_bits(c.parts, IODE);
    if (c.parts & ORBITS) bits += (LONG_IODE - IODE) * ones(c.selected & galileo_bits(m));
  } else {
    *rows = m->satellites;
    bits = (c.parts & CLOCKS ? CLOCK * m->satellites : 0) + (c.parts & ORBITS ? m->orbit_bits : 0);
  }
  if (s->end - place < bits) return stop_in_body(s, bits, s->end - place);
  if (c.network) put_network(m, c.selected, past_of(s, place, bits), s->rows + HUNDURZEK_ROW * *rows, c.parts);
  else put_combined(m, past_of(s, place, bits), s->rows, c.parts);
  return place + bits;
}

/* Without a network the cells of all satellites are those of all satellites with a cell. */
ALWAYS uint64_t read_both_biases(stretch *s, uint64_t place, uint64_t first, hundurzek_head *head, uint64_t *rows) {
  const tuned_mask *m = s->held;
  choice c = {0, false, 0};
  place = read_choice(s, place, first, head, &c);
  if (place == STOPPED) return STOPPED;
  if (c.network && c.selected & ~m->celled) return stop(s, NETWORK);
  *rows = c.network ? count_selected(m, c.selected) : m->cells;
  uint64_t bits = *rows * cell_bits(c.parts);
  if (s->end - place < bits) return stop_in_body(s, bits, s->end - place);
  put_cells(m, c.network ? c.selected : m->celled, source_of(s, place, bits), s->rows, c.parts);
  return place + bits;
}

/* The head of 37 bits: whether the held mask is the message's. */
ALWAYS bool pass_head(stretch *s, uint64_t first, hundurzek_head *head) {
  const uint32_t iod = (uint32_t)cut(first, 33, 4), gate = s->held->gate;
  head->epoch = cut(first, 16, 12);
  head->interval = cut(first, 28, 4);
  head->indicator = cut(first, 32, 1);
  head->iod = (int32_t)iod;
  if ((HELD | iod) == gate) return true;
  stop(s, gate ? OTHER_ISSUE : NO_MASK);
  return false;
}

/* ---- sub type 10 */

ALWAYS void put_service(int32_t *row, int32_t k, uint64_t bits) {
  row[0] = row[1] = HUNDURZEK_ABSENT;
  row[2] = k + 1;
#pragma GCC unroll 5
  for (unsigned j = 0; j < 5; j++) row[3 + j] = cut(bits, 8 * j, 8);
}

ALWAYS uint64_t read_service(stretch *s, uint64_t place, uint64_t first, hundurzek_head *head, uint64_t *rows) {
  const int32_t size = cut(first, 20, 2);
  head->indicator = cut(first, 16, 1);
  head->a = cut(first, 17, 3);
  head->b = size;
  *rows = (uint64_t)size + 1;
  uint64_t bits = SERVICE * *rows;
  place += SERVICE_HEAD;
  if (s->end - place < bits) return stop_in_body(s, bits, s->end - place);
  source b = source_of(s, place, bits);
  int32_t *row = s->rows;
  for (int32_t k = 0; k <= size; k++, b.place += SERVICE, row += HUNDURZEK_ROW)
    put_service(row, k, window(b.bytes, b.place));
  return place + bits;
}

/* ---- one message */

static bool all_zero(const uint8_t *bytes, uint64_t place, uint64_t end) {
  uint64_t byte = place / 8, last = end / 8;
  unsigned own = 0xFF >> place % 8, of_last = 0xFF & ~(0xFFu >> end % 8);
  if (byte == last) return place == end || !(bytes[byte] & own & of_last);
  if (bytes[byte++] & own) return false;
  for (; byte + WINDOW <= last; byte += WINDOW)
    if (load(bytes + byte)) return false;
  for (; byte < last; byte++)
    if (bytes[byte]) return false;
  return of_last == 0 || !(bytes[byte] & of_last);
}

/* Where there is no opening of a message, or not 37 bits: the shortest message has these. */
__attribute__((noinline)) static uint64_t refuse(stretch *s, uint64_t place, uint64_t first) {
  uint64_t left = s->end - place;
  if (all_zero(s->bytes, place, s->end)) return stop(s, IDLE);
  if (left < 12) return stop_short(s, 12, left);
  if (first >> 52 != 4073) return stop(s, NUMBER);
  if (left < 16) return stop_short(s, 16, left);
  switch (cut(first, 12, 4)) {
    case 1: return stop_in_head(s, mask_ends, left);
    case 2:
    case 3:
    case 4:
    case 5:
    case 6:
    case 7:
    case 11: return stop_in_head(s, head_ends, left);
    case 10:
      if (left < SERVICE_HEAD) return stop_in_head(s, service_ends, left);
      return stop_short(s, SERVICE_HEAD + SERVICE * (1 + (uint64_t)cut(first, 20, 2)), left);
    default: return stop(s, SUBTYPE);
  }
}

ALWAYS uint64_t read_adopting(stretch *s, uint64_t place, uint64_t first, hundurzek_head *head) {
  head->epoch = cut(first, 16, 20);
  head->interval = cut(first, 36, 4);
  head->indicator = cut(first, 40, 1);
  head->iod = cut(first, 41, 4);
  head->a = cut(first, 45, 4);
  return read_mask(s, place, first);
}

/* Answers the place after the message, and how many rows it has. One switch, which is one jump. */
ALWAYS uint64_t read_next(stretch *s, uint64_t place, hundurzek_head *head, uint64_t *rows) {
  uint64_t first = first_window(s, place);
  if (s->end - place < HEAD || first >> 52 != 4073) return refuse(s, place, first);
  head->subtype = cut(first, 12, 4);
  *rows = 0;
  switch (head->subtype) {
    case 1: return read_adopting(s, place, first, head);
    case 2:
      if (!pass_head(s, first, head)) return STOPPED;
      *rows = s->held->satellites;
      return read_body(s, place, s->held->orbit_bits, put_orbits);
    case 3:
      if (!pass_head(s, first, head)) return STOPPED;
      *rows = s->held->satellites;
      return read_body(s, place, CLOCK * *rows, put_clocks);
    case 4:
      if (!pass_head(s, first, head)) return STOPPED;
      *rows = s->held->cells;
      return read_body(s, place, CODE * *rows, put_code_biases);
    case 5:
      if (!pass_head(s, first, head)) return STOPPED;
      *rows = s->held->cells;
      return read_body(s, place, (PHASE + DISCONTINUITY) * *rows, put_phase_biases);
    case 6:
      if (!pass_head(s, first, head)) return STOPPED;
      return read_both_biases(s, place, first, head, rows);
    case 7:
      if (!pass_head(s, first, head)) return STOPPED;
      *rows = s->held->satellites;
      return read_body(s, place, ACCURACY * *rows, put_accuracies);
    case 10: return read_service(s, place, first, head, rows);
    case 11:
      if (!pass_head(s, first, head)) return STOPPED;
      return read_combined(s, place, first, head, rows);
    default: return stop(s, SUBTYPE);
  }
}

/* "Reader's order: 1, 2, 12", before a bit is looked at. */
ALWAYS uint64_t test_lent(uint64_t holding_count, uint64_t count, uint64_t end, uint64_t start, uint64_t row_count) {
  if (row_count < HUNDURZEK_ROOM) return ROOM;
  if (end > LONGEST || (end + 7) / 8 > count || start > end) return PLACE;
  if (holding_count < sizeof(tuned_holding)) return VALUE;
  return MESSAGE;
}

ALWAYS void lend(stretch *s, const uint8_t *bytes, uint64_t count, uint64_t end, int32_t *rows) {
  s->bytes = bytes;
  s->count = count;
  s->end = end;
  s->rows = rows;
}

ALWAYS void hold(stretch *s, uint8_t *holding) {
  s->holding = (tuned_holding *)(void *)holding;
  s->held = &s->holding->masks[s->holding->current];
}

hundurzek_reading *tuned_read(hundurzek_reading *out, uint8_t *holding, uint64_t holding_count, const uint8_t *bytes,
                              uint64_t count, uint64_t end, uint64_t start, int32_t *rows, uint64_t row_count) {
  stretch s;
  uint64_t place = STOPPED, made = 0;
  out->head = nothing;
  s.answer = test_lent(holding_count, count, end, start, row_count);
  if (s.answer == MESSAGE) {
    lend(&s, bytes, count, end, rows);
    hold(&s, holding);
    place = read_next(&s, start, &out->head, &made);
  }
  if (place == STOPPED) {
    *out = (hundurzek_reading){.answer = s.answer, .place = start, .missing = missing(&s), .head = nothing};
    return out;
  }
  out->answer = MESSAGE;
  out->place = place;
  out->missing = 0;
  out->rows = made;
  out->raw_offset = start / 8;
  out->raw_count = (place + 7) / 8 - start / 8;
  return out;
}

hundurzek_walked *tuned_walk(hundurzek_walked *out, uint8_t *holding, uint64_t holding_count, const uint8_t *bytes,
                             uint64_t count, uint64_t end, int32_t *rows, uint64_t row_count) {
  stretch s;
  hundurzek_head head; /* not handed out */
  uint64_t place = 0, messages = 0, all = 0, made = 0, next;
  s.answer = test_lent(holding_count, count, end, 0, row_count);
  if (s.answer == MESSAGE) {
    lend(&s, bytes, count, end, rows);
    hold(&s, holding);
    while ((next = read_next(&s, place, &head, &made)) != STOPPED) {
      place = next;
      messages++;
      all += made;
    }
  }
  *out = (hundurzek_walked){s.answer, place, missing(&s), messages, all};
  return out;
}
