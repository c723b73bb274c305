/* A holding of lent bytes: field by field, place by place, each tested as it is decoded. */
#include "bitwise_write.h"
#include "hold.h"
#include "places.h"

/* "Held mask and assigned places": the house limits; bits of masks. */
enum { SYSTEMS = 5, SATELLITES = 64, CELLS = 256, ISSUES = 16, PLACES = 40, SIGNALS = 16 };

static int is_zero(const uint8_t *holding, int from, int to) {
  for (int k = from; k < to; k++)
    if (holding[k] != 0) return 0;
  return 1;
}

/* The signals that count for a satellite are its system's, with flag 0 all of them. */
static int hold_cells(bitwise_holding *held, bitwise_satellite *satellite, uint64_t strip) {
  const bitwise_system *own = &held->system[satellite->system];
  int j = 0;
  for (int place = 0; place < SIGNALS; place++) {
    int counts = strip >> (SIGNALS - 1 - place) & 1;
    if (j == own->signals || own->signal[j] != place) {
      if (counts) return 0;
      continue;
    }
    if (!counts && !held->flag[satellite->system]) return 0;
    satellite->cells = satellite->cells << 1 | (uint32_t)counts;
    satellite->cell_count += counts;
    held->cells += counts;
    j++;
  }
  return 1;
}

static int hold_satellites(bitwise_holding *held, const uint8_t *holding, int system) {
  uint64_t places = hold_number(holding, HOLD_PLACES, 8, system);
  if (places >> PLACES) return 0;
  for (int place = 0; place < PLACES; place++) {
    if (!(places >> (PLACES - 1 - place) & 1)) continue;
    if (place >= satellite_places[held->system[system].id] || held->satellites == SATELLITES) return 0;
    bitwise_satellite *satellite = &held->satellite[held->satellites];
    *satellite = (bitwise_satellite){system, place + 1, 0, 0};
    if (!hold_cells(held, satellite, hold_number(holding, HOLD_STRIPS, 2, held->satellites))) return 0;
    held->satellites++;
  }
  return 1;
}

static int hold_signals(bitwise_system *system, uint64_t signals) {
  for (int place = 0; place < SIGNALS; place++) {
    if (!(signals >> (SIGNALS - 1 - place) & 1)) continue;
    if (place >= signal_places[system->id]) return 0;
    system->signal[system->signals++] = place;
  }
  return 1;
}

static int hold_system(bitwise_holding *held, const uint8_t *holding, int k) {
  bitwise_system *system = &held->system[k];
  system->id = holding[HOLD_ID + k];
  system->signals = 0;
  held->flag[k] = holding[HOLD_FLAG + k];
  if (system->id >= SYSTEMS || held->flag[k] > 1) return 0;
  for (int j = 0; j < k; j++)
    if (held->system[j].id == system->id) return 0;
  return hold_signals(system, hold_number(holding, HOLD_SIGNALS, 2, k)) && hold_satellites(held, holding, k);
}

/* What the mask does not use. */
static int rest_is_zero(const bitwise_holding *held, const uint8_t *holding) {
  int systems = held->systems;
  return is_zero(holding, HOLD_ID + systems, HOLD_FLAG) && is_zero(holding, HOLD_FLAG + systems, HOLD_SIGNALS) &&
         is_zero(holding, HOLD_SIGNALS + 2 * systems, HOLD_PLACES) &&
         is_zero(holding, HOLD_PLACES + 8 * systems, HOLD_STRIPS) &&
         is_zero(holding, HOLD_STRIPS + 2 * held->satellites, HUNDURZEK_HOLDING);
}

int bitwise_hold(bitwise_holding *held, const uint8_t *holding) {
  held->held = holding[HOLD_HELD];
  held->iod = holding[HOLD_IOD];
  held->systems = holding[HOLD_SYSTEMS];
  held->satellites = held->cells = 0;
  if (!held->held) return is_zero(holding, 0, HUNDURZEK_HOLDING);
  if (held->held > 1 || held->iod >= ISSUES || held->systems > SYSTEMS) return 0;
  for (int k = 0; k < held->systems; k++)
    if (!hold_system(held, holding, k)) return 0;
  return held->satellites == holding[HOLD_SATELLITES] && held->cells <= CELLS &&
         (uint64_t)held->cells == hold_number(holding, HOLD_CELLS, 2, 0) && rest_is_zero(held, holding);
}
