/* The inputs, made with the encoder. */
#include "stretches.h"

#include <assert.h>
#include <stdlib.h>
#include <string.h>

/* ---- (a) */

/* L2C and L5 are sent by the newer GPS satellites only: rows of cells for L1 C/A, L2C, L2 Z-tracking, L5. */
static const unsigned gps_cells[] = {0xA, 0xE, 0xF, 0xF};

/* 18 satellites in view: 8 of GPS, 6 of Galileo, QZSS's four. A network of stations misses two to four of them. */
static mask draw_mask(unsigned iod) {
  mask m = {.iod = iod, .systems = 3};
  m.system[0] = (constellation){.id = GPS, .satellites = choose(8, 32) << 8, .signals = 0x80A4, .flag = 1};
  m.system[1] = (constellation){.id = GALILEO, .satellites = choose(6, 36) << 4, .signals = 0x2400, .flag = 1};
  m.system[2] = (constellation){.id = QZSS, .satellites = UINT64_C(0xE2) << 32, .signals = 0x8240, .flag = 1};
  for (unsigned k = 0; k < 8; k++) m.system[0].cells[k] = gps_cells[below(4)];
  for (unsigned k = 0; k < 6; k++) m.system[1].cells[k] = 0x3;
  for (unsigned k = 0; k < 4; k++) m.system[2].cells[k] = 0x7;
  for (unsigned k = 0; k < NETWORKS; k++) m.selections[k] = choose(14 + below(3), 18);
  return m;
}

/* The k-th subframe of the hour; a frame is six. Sub types in the order of the source's Table 4.1.2-41, which has two
   networks for each subframe: these have orbits and biases in it, and with six others clocks. Clocks of all satellites
   stand in each, what else comes every 30 s is spread over the frame, and a second mask stands in its middle, for late
   joiners. */
static void make_subframe(stretch *s, const mask *m, unsigned k) {
  unsigned epoch = 5 * k, part = k % 6;
  *s = (stretch){0};
  if (part % 3 == 0) put_mask(s, m, epoch);
  if (part == 0) put_orbits(s, m, epoch);
  put_clocks(s, m, epoch);
  for (unsigned network = 0; network < NETWORKS; network++)
    if (network % 3 != (part + 1) % 3) put_combined(s, m, epoch, &(combination){network % 6 == part, 1, network});
  if (part == 1) put_code_biases(s, m, epoch);
  if (part == 2) put_phase_biases(s, m, epoch);
  if (part == 4) put_combined_biases(s, m, epoch, &(combination){1, 1, NO_NETWORK});
  for (unsigned network = part; network < NETWORKS; network += 6)
    put_combined_biases(s, m, epoch, &(combination){1, 1, network});
  if (part == 0) put_accuracy(s, m, epoch);
  if (part == 3 || part == 5) put_service(s, k / 6 * 2 % 8 + part / 5, below(4));
  assert(s->end <= SUBFRAME);
  s->end = SUBFRAME;
}

/* Satellites rise and set: another mask, under another IOD SSR, every ten minutes. */
static size_t make_hour(stretch *stretches) {
  mask m = {0};
  for (unsigned k = 0; k < HOUR; k++) {
    if (k % 120 == 0) m = draw_mask(k / 120);
    make_subframe(&stretches[k], &m, k);
  }
  return HOUR;
}

/* ---- one message again and again: (b) to (h) */

typedef void putter(stretch *s, const mask *m, unsigned epoch);

/* Each stretch has the mask, unless there is none, then as many of the one message as the longest stretch has room for;
   it ends with the last of them. */
static size_t repeat(stretch *stretches, unsigned count, const mask *m, putter *put_one) {
  for (unsigned k = 0; k < count; k++) {
    stretch *s = &stretches[k];
    *s = (stretch){0};
    if (m) put_mask(s, m, 5 * k);
    uint64_t first = s->end, length;
    do {
      put_one(s, m, 5 * k);
      length = s->end - first;
      first = s->end;
    } while (s->end + length <= LONGEST);
  }
  return count;
}

/* Stretches of (b) and (c); the later inputs do with fewer. */
enum { COUNT = 20, FEW = 4 };

/* 40 satellites of GPS and 24 of BeiDou, the fewest systems that have as many. */
static mask mask_of_two(unsigned first_signals, unsigned second_signals, unsigned flag) {
  mask m = {.systems = 2};
  m.system[0] = (constellation){.id = GPS, .satellites = choose(40, 40), .signals = first_signals, .flag = flag};
  m.system[1] = (constellation){.id = BEIDOU, .satellites = choose(24, 40), .signals = second_signals, .flag = flag};
  return m;
}

/* (b) and (d) have four signals for each satellite and no cell mask. */
static size_t repeat_biases(stretch *stretches, unsigned count, putter *put_one) {
  mask m = mask_of_two(0x80A4, 0xA480, 0);
  for (unsigned k = 0; k < 40; k++) m.system[0].cells[k] = m.system[1].cells[k] = 0xF;
  return repeat(stretches, count, &m, put_one);
}

static size_t make_biases(stretch *stretches) { return repeat_biases(stretches, COUNT, put_phase_biases); }

static void put_all_biases(stretch *s, const mask *m, unsigned epoch) {
  put_combined_biases(s, m, epoch, &(combination){1, 1, NO_NETWORK});
}

static size_t make_combined_biases(stretch *stretches) { return repeat_biases(stretches, FEW, put_all_biases); }

/* (c) has a mask of no systems. */
static size_t make_heads(stretch *stretches) { return repeat(stretches, COUNT, &(mask){.iod = 7}, put_clocks); }

/* 64 satellites of five systems, on assigned places. With four signals all cells count: 256, the most there may be. */
static mask full_mask(unsigned signals) {
  static const unsigned places[SYSTEMS] = {40, 24, 37, 40, 10}, satellites[SYSTEMS] = {20, 14, 14, 10, 6};
  mask m = {.iod = 7, .systems = SYSTEMS};
  for (unsigned k = 0; k < SYSTEMS; k++) {
    uint64_t chosen = choose(satellites[k], places[k]) << (PLACES - places[k]);
    m.system[k] = (constellation){.id = k, .satellites = chosen, .signals = signals, .flag = 1};
    for (unsigned j = 0; j < satellites[k]; j++) m.system[k].cells[j] = (1u << ones(signals)) - 1;
  }
  return m;
}

enum { FOUR_SIGNALS = 0xA480, ONE_SIGNAL = 0x8000, NO_SIGNALS = 0 };

/* (e) is nothing but masks. */
static size_t repeat_mask(stretch *stretches, const mask *m) { return repeat(stretches, FEW, m, put_mask); }

static size_t make_masks(stretch *stretches) {
  mask m = full_mask(FOUR_SIGNALS);
  return repeat_mask(stretches, &m);
}

static size_t make_no_systems(stretch *stretches) { return repeat_mask(stretches, &(mask){.iod = 7}); }

static size_t make_no_signals(stretch *stretches) {
  mask m = full_mask(NO_SIGNALS);
  return repeat_mask(stretches, &m);
}

static size_t make_no_signals_of_two(stretch *stretches) {
  mask m = mask_of_two(NO_SIGNALS, NO_SIGNALS, 1);
  return repeat_mask(stretches, &m);
}

/* (f) has no mask. */
static void put_one_service(stretch *s, const mask *m, unsigned epoch) {
  (void)m;
  put_service(s, epoch % 8, 0);
}

static size_t make_services(stretch *stretches) { return repeat(stretches, FEW, NULL, put_one_service); }

static void put_one_combined(stretch *s, const mask *m, unsigned epoch) {
  put_combined(s, m, epoch, &(combination){1, 1, 0});
}

static void put_network_biases(stretch *s, const mask *m, unsigned epoch) {
  put_combined_biases(s, m, epoch, &(combination){1, 1, 0});
}

/* (g) has messages of one satellite, with one signal; sub types 6 and 11 have all that they can have, and a network. */
static size_t repeat_single(stretch *stretches, putter *put_one) {
  mask m = {.iod = 7, .systems = 1, .selections = {1}};
  m.system[0] = (constellation){.id = GPS, .satellites = choose(1, 40), .signals = 0x8000, .flag = 1, .cells = {1}};
  return repeat(stretches, FEW, &m, put_one);
}

static size_t make_an_orbit(stretch *stretches) { return repeat_single(stretches, put_orbits); }
static size_t make_a_clock(stretch *stretches) { return repeat_single(stretches, put_clocks); }
static size_t make_a_code_bias(stretch *stretches) { return repeat_single(stretches, put_code_biases); }
static size_t make_a_phase_bias(stretch *stretches) { return repeat_single(stretches, put_phase_biases); }
static size_t make_both_biases(stretch *stretches) { return repeat_single(stretches, put_network_biases); }
static size_t make_an_accuracy(stretch *stretches) { return repeat_single(stretches, put_accuracy); }
static size_t make_a_combination(stretch *stretches) { return repeat_single(stretches, put_one_combined); }

static void put_keys(stretch *s, const mask *m, unsigned epoch) {
  put_combined(s, m, epoch, &(combination){0, 0, NO_NETWORK});
}

/* (h) has rows with keys and no values. */
static size_t make_keys(stretch *stretches) {
  mask m = full_mask(FOUR_SIGNALS);
  return repeat(stretches, FEW, &m, put_keys);
}

/* The network has the satellites with a cell, the second, the fourth and so on: each system has an even number of them.
   Damage makes selections that name another. */
static size_t make_bare(stretch *stretches) {
  mask m = full_mask(ONE_SIGNAL);
  m.selections[0] = UINT64_C(0x5555555555555555);
  for (unsigned k = 0; k < SYSTEMS; k++)
    for (unsigned j = 0; j < PLACES; j += 2) m.system[k].cells[j] = 0;
  return repeat(stretches, FEW, &m, put_network_biases);
}

/* ---- growth */

/* (a)'s masks, but each network misses just a satellite of GPS and one of QZSS, so that all parts are of one length. */
static mask draw_even_mask(unsigned iod) {
  mask m = draw_mask(iod);
  for (unsigned k = 0; k < NETWORKS; k++) m.selections[k] = choose(7, 8) << 10 | 0x3F << 4 | choose(3, 4);
  return m;
}

/* 288 bits of mask, 307 of clocks, 1,099 of a network's orbits and clocks: a part but for one bit. */
static void put_part(stretch *s, const mask *m, unsigned k) {
  put_mask(s, m, 5 * k);
  put_clocks(s, m, 5 * k);
  put_combined(s, m, 5 * k, &(combination){1, 1, k % NETWORKS});
}

static size_t make_parts(stretch *stretches, unsigned parts) {
  mask m = {0};
  for (unsigned k = 0; k < HOUR; k++) {
    stretch *s = &stretches[k / parts];
    if (k % 120 == 0) m = draw_even_mask(k / 120);
    if (k % parts == 0) *s = (stretch){0};
    put_part(s, &m, k);
    if ((k + 1) % parts > 0) continue;
    assert(s->end == parts * (PART - 1));
    s->end = parts * PART;
  }
  return HOUR / parts;
}

/* ---- damaged stretches */

enum { BEGINNING = 800, NEAR = 64, LONG = 2000 };

/* Turns up to three bits around, half of them near the beginning, where a mask and heads stand; cuts a third of the
   stretches, and another third shortly after such a bit. The bits of the last byte that are not the stretch's are turned
   around too. Of long stretches only the beginning is taken. */
static void damage(stretch *s) {
  unsigned end = s->end > SUBFRAME ? LONG : (unsigned)s->end, place = 0;
  for (unsigned flips = below(4); flips > 0; flips--) {
    place = below(below(2) ? BEGINNING : end);
    s->bytes[place / 8] ^= (uint8_t)(0x80 >> place % 8);
  }
  unsigned near = place + below(NEAR), cuts[] = {end, below(end + 1), near < end ? near : end};
  s->end = cuts[below(3)];
  if (s->end % 8 > 0) s->bytes[s->end / 8] ^= (uint8_t)(0xFF >> s->end % 8);
}

/* Begins with (a), and there with a stretch without a mask. */
static size_t make_damaged(stretch *stretches) {
  static const struct {
    const char *input;
    unsigned share;
  } sources[] = {{"a", 2400}, {"d", 240},  {"e1", 840}, {"e2", 120}, {"e3", 840},
                 {"f", 120},  {"g2", 120}, {"g3", 120}, {"g4", 120}, {"g5", 120},
                 {"g6", 120}, {"g7", 120}, {"g11", 120}, {"h", 120}, {"bare", 240}};
  static stretch whole[HOUR];
  size_t made = 0;
  for (size_t k = 0; k < sizeof sources / sizeof *sources; k++) {
    size_t count = make_input(whole, sources[k].input);
    for (unsigned j = 1; j <= sources[k].share; j++) {
      stretches[made] = whole[j % count];
      damage(&stretches[made++]);
    }
  }
  assert(made == MOST);
  return made;
}

/* ---- inputs by name */

static const struct {
  const char *name;
  size_t (*make)(stretch *stretches);
} inputs[] = {
    {"a", make_hour},          {"b", make_biases},       {"c", make_heads},
    {"d", make_combined_biases}, {"e1", make_masks},     {"e2", make_no_systems},
    {"e3", make_no_signals},   {"e4", make_no_signals_of_two}, {"f", make_services},
    {"g2", make_an_orbit},     {"g3", make_a_clock},     {"g4", make_a_code_bias},
    {"g5", make_a_phase_bias}, {"g6", make_both_biases}, {"g7", make_an_accuracy},
    {"g11", make_a_combination}, {"h", make_keys},       {"bare", make_bare},
    {DAMAGED, make_damaged},
};

size_t make_input(stretch *stretches, const char *name) {
  int parts = atoi(name);
  for (size_t k = 0; k < sizeof inputs / sizeof *inputs; k++)
    if (!strcmp(inputs[k].name, name)) return inputs[k].make(stretches);
  return parts > 0 && HOUR % parts == 0 ? make_parts(stretches, (unsigned)parts) : 0;
}
