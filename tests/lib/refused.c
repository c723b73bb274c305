#include "refused.h"

#include <stdio.h>

enum { SHORT = 3, NETWORK = 11 };

/* The fields after the sub type, and where each ends in its message; a selection so much later as there are satellites.
   The body ends after all others. A selection at whose end the stretch ends is counted apart. */
enum { EPOCH, INTERVAL, INDICATOR, IOD, BODY, CODE_FLAG, PHASE_FLAG, NETWORK_FLAG, ID, SELECTION, LAST, FIELDS };
static const char *const names[FIELDS] = {"epoch",      "interval",  "indicator",           "IOD SSR",
                                          "body",       "code flag", "phase flag",          "network flag",
                                          "network ID", "selection", "selection at the end"};
static const uint64_t ends[FIELDS] = {28, 32, 33, 37, 0, 38, 39, 40, 45, 45};

/* Which of them, from one to another, a sub type can be refused for so, and how often it was. */
static struct {
  unsigned answer, subtype;
  size_t from, to;
  unsigned long often[FIELDS];
} refusals[] = {
    {SHORT, 6, EPOCH, SELECTION, {0}},
    {SHORT, 7, EPOCH, BODY, {0}},
    {NETWORK, 6, ID, LAST, {0}},
};
enum { REFUSALS = sizeof refusals / sizeof *refusals };

static uint64_t end_of(size_t field) {
  return ends[field] + (field == SELECTION ? holding.want[SATELLITES] : 0);
}

/* The first field that ends behind so many bits, all that are left from the place on; else the body. */
static size_t short_field(unsigned subtype, uint64_t place, uint64_t left) {
  bool network = left >= ends[NETWORK_FLAG] && bits(place + ends[PHASE_FLAG], 1);
  size_t past = subtype == 7 ? BODY : network ? LAST : ID;
  for (size_t field = EPOCH; field < past; field++)
    if (left < end_of(field)) return field;
  return BODY;
}

/* The network ID where that is 0; else it is a selected satellite without a cell. */
static size_t network_field(uint64_t place, uint64_t left) {
  if (bits(place + ends[NETWORK_FLAG], 5) == 0) return ID;
  return left > end_of(SELECTION) ? SELECTION : LAST;
}

void count_refused(uint64_t answer, uint64_t place) {
  uint64_t left = now.end - place;
  if ((answer != SHORT && answer != NETWORK) || left < 16) return;
  unsigned subtype = (unsigned)bits(place + 12, 4);
  for (size_t i = 0; i < REFUSALS; i++)
    if (refusals[i].answer == answer && refusals[i].subtype == subtype)
      refusals[i].often[answer == SHORT ? short_field(subtype, place, left) : network_field(place, left)]++;
}

void judge_refused(unsigned long least) {
  for (size_t i = 0; i < REFUSALS; i++)
    for (size_t field = refusals[i].from; field <= refusals[i].to; field++) {
      unsigned long often = refusals[i].often[field];
      printf("%2u at %u: %-20s %6lu\n", refusals[i].answer, refusals[i].subtype, names[field], often);
      need(often, least, names[field], refusals[i].subtype);
    }
}
