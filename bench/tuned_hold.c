/* What a tuned writer needs of a mask, made once: nothing here is counted. */
#include <string.h>

#include "hold.h"
#include "hundurzek.h"
#include "tuned_write.h"

/* Two numbers of a row, as they lie in it. */
static uint64_t two(uint32_t first, uint32_t second) { return first | (uint64_t)second << 32; }

/* Appends a field to the systems as they are sent; they are zero where nothing was put yet. */
static void put(tuned_sent_mask *to, uint64_t value, int width) {
  while (width-- > 0) {
    uint32_t place = to->systems_bits++;
    to->systems_sent[place / 8] |= (uint8_t)((value >> width & 1) << (7 - place % 8));
  }
}

static int ones(uint64_t bits) { return __builtin_popcountll(bits); }

/* A satellite's cells: their keys, and the bits of the cell mask where it is sent. */
static void hold_cells(tuned_sent_mask *to, uint64_t key, uint64_t signals, uint64_t strip, int flag) {
  for (uint32_t place = 0; place < 16; place++) {
    uint64_t bit = UINT64_C(1) << (15 - place);
    if (!(signals & bit)) continue;
    if (flag) put(to, (strip & bit) != 0, 1);
    if (!(strip & bit)) continue;
    to->cell[to->cells] = key;
    to->cell_signal[to->cells++] = place;
  }
}

static void hold_system(tuned_sent_mask *to, const uint8_t *holding, int k) {
  uint32_t id = holding[HOLD_ID + k], first = to->satellites;
  uint64_t places = hold_number(holding, HOLD_PLACES, 8, k), signals = hold_number(holding, HOLD_SIGNALS, 2, k);
  put(to, id, 4);
  put(to, places, 40);
  put(to, signals, 16);
  put(to, holding[HOLD_FLAG + k], 1);
  for (uint32_t number = 1; number <= 40; number++) {
    if (!(places >> (40 - number) & 1)) continue;
    uint64_t key = two(id, number), strip = hold_number(holding, HOLD_STRIPS, 2, (int)to->satellites);
    to->satellite[to->satellites++] = key;
    to->index[id][number] = (uint8_t)to->satellites;
    hold_cells(to, key, signals, strip, holding[HOLD_FLAG + k]);
    to->first_cell[to->satellites] = to->cells;
    to->celled = to->celled << 1 | (strip != 0);
  }
  if (id != 2) return;
  to->first_galileo = first;
  to->galileo = (uint32_t)ones(places);
}

void tuned_hold(tuned_sent_mask *to, const uint8_t *holding) {
  memset(to, 0, sizeof *to);
  memcpy(to->holding, holding, HUNDURZEK_HOLDING);
  if (!holding[HOLD_HELD] || tuned_stray(to->holding)) return;
  to->gate = 16 | holding[HOLD_IOD];
  to->systems = holding[HOLD_SYSTEMS];
  for (int k = 0; k < (int)to->systems; k++) hold_system(to, holding, k);
}
