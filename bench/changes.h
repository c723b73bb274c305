/* Masks that follow one another, one thing of them changed, and what reading stops with (document 02, Ask 2): a part of
   read.c. */
#ifndef BENCH_CHANGES_H
#define BENCH_CHANGES_H

#include "encode.h"

/* A cell mask of more bits than a window has; a system without satellites; one whose flag says that all cells count. */
static mask first_mask(void) {
  mask m = {.iod = 3, .systems = 3};
  m.system[0] = (constellation){.id = GPS, .satellites = UINT64_MAX >> 24, .signals = 0x80A4, .flag = 1};
  m.system[0].cells[0] = 0xC;
  m.system[1] = (constellation){.id = GALILEO, .signals = 0x2400, .flag = 1};
  m.system[2] = (constellation){.id = QZSS, .satellites = UINT64_C(0xA000000000), .signals = 0x8240, .cells = {7, 7}};
  return m;
}

static void change_nothing(mask *m) { (void)m; }
static void change_number(mask *m) { m->iod = 4; }
static void change_number_and_cells(mask *m) {
  m->iod = 4;
  m->system[0].cells[0] = 0x3;
}
static void take_a_system(mask *m) { m->systems = 2; }
static void take_all_systems(mask *m) { m->systems = 0; }
static void change_id(mask *m) { m->system[1].id = GLONASS; }
static void change_order(mask *m) {
  constellation second = m->system[1];
  m->system[1] = m->system[2];
  m->system[2] = second;
}
static void take_a_satellite(mask *m) { m->system[2].satellites = UINT64_C(0x8000000000); }
static void change_a_satellite(mask *m) { m->system[2].satellites = UINT64_C(0x9000000000); }
static void change_a_signal(mask *m) { m->system[2].signals = 0x8280; }
static void change_no_cells(mask *m) { m->system[1].signals = 0x2200; }
static void set_flag(mask *m) { m->system[2].flag = 1; }
static void clear_flag_of_none(mask *m) { m->system[1].flag = 0; }
static void change_first_cells(mask *m) { m->system[0].cells[0] = 0x3; }
static void add_last_cell(mask *m) { m->system[0].cells[39] = 0x1; }

/* What reading stops with at the other mask. */
enum { IDLE = 0, NO_MASK = 6, CHANGED = 13 };
static const struct {
  void (*change)(mask *m);
  uint64_t stop;
} changes[] = {
    {change_nothing, IDLE},        {change_number, IDLE},         {change_number_and_cells, IDLE},
    {take_a_system, CHANGED},      {take_all_systems, CHANGED},   {change_id, CHANGED},
    {change_order, CHANGED},       {take_a_satellite, CHANGED},   {change_a_satellite, CHANGED},
    {change_a_signal, CHANGED},    {change_no_cells, CHANGED},    {set_flag, CHANGED},
    {clear_flag_of_none, CHANGED}, {change_first_cells, CHANGED}, {add_last_cell, CHANGED},
};
enum { CHANGES = sizeof changes / sizeof *changes };

/* One mask after the other, forth or back; clocks under what is held then; the other mask again, and clocks. */
enum { BOTH, CLOCKS, AGAIN, STEPS };

static void make_change(stretch *s, size_t which, int back) {
  mask masks[2] = {first_mask(), first_mask()};
  changes[which].change(&masks[!back]);
  for (size_t step = BOTH; step < STEPS; step++) s[step] = (stretch){0};
  put_mask(&s[BOTH], &masks[0], 0);
  put_mask(&s[BOTH], &masks[1], 0);
  put_clocks(&s[CLOCKS], &masks[1], 0);
  put_mask(&s[AGAIN], &masks[1], 0);
  put_clocks(&s[AGAIN], &masks[1], 0);
}

#endif
