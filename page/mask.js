/* The mask that the 194 bytes of a holding say (docs/HOST.md, "A holding as bytes"), and names of what it has. */

export const SYSTEM_NAMES = ["GPS", "GLONASS", "Galileo", "BeiDou", "QZSS"];
export const GALILEO = 2;
const QZSS = 4, QZSS_PRN = 192;
const SATELLITE_PLACES = 40, SIGNAL_PLACES = 16;
const AT = { held: 0, iod: 1, count: 2, ids: 6, flags: 11, signals: 16, satellites: 26, strips: 66 };

/* A satellite by its number: QZSS also by its PRN. */
export function satelliteName(id, number) {
  return `${SYSTEM_NAMES[id]} ${number}` + (id === QZSS ? ` (PRN ${QZSS_PRN + number})` : "");
}

export function ordinal(k) {
  const tens = Math.floor(k / 10) % 10;
  return k + (tens === 1 ? "th" : (["th", "st", "nd", "rd"][k % 10] ?? "th"));
}

/* The places that are set in a number whose place 0 is the uppermost of so many bits. */
export function placesOf(value, width) {
  const all = [];
  for (let place = 0; place < width; place++)
    if (Math.floor(value / 2 ** (width - 1 - place)) % 2 === 1) all.push(place);
  return all;
}

function least(bytes, at, count) {
  let value = 0;
  for (let k = count - 1; k >= 0; k--) value = 256 * value + bytes[at + k];
  return value;
}

function systemOf(holding, k) {
  return {
    id: holding[AT.ids + k],
    flag: holding[AT.flags + k],
    signals: placesOf(least(holding, AT.signals + 2 * k, 2), SIGNAL_PLACES),
    satellites: placesOf(least(holding, AT.satellites + 8 * k, 8), SATELLITE_PLACES).map((place) => place + 1),
  };
}

/* Nothing where no mask is held. Satellites and cells stand in the order in which a body has them, over all systems:
   those are "the k-th". A cell has the index of its satellite. */
export function maskOf(holding) {
  if (holding[AT.held] === 0) return null;
  const mask = { iod: holding[AT.iod], systems: [], satellites: [], cells: [] };
  for (let k = 0; k < holding[AT.count]; k++) {
    const system = systemOf(holding, k);
    mask.systems.push(system);
    for (const satellite of system.satellites) {
      const index = mask.satellites.length;
      const signals = placesOf(least(holding, AT.strips + 2 * index, 2), SIGNAL_PLACES);
      mask.satellites.push({ system: system.id, satellite, signals });
      for (const signal of signals) mask.cells.push({ system: system.id, satellite, signal, index });
    }
  }
  return mask;
}
