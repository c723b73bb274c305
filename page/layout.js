/* The fields of a message: place, width and name of each, and whose it is. It is the page's own (document 01, "Message
   layouts" and "Reader's order"; document 02, Asks 1 and 2), for drawing alone: what was answered comes from the
   module, and agreement.js holds the two against each other. */
import { SYSTEM_NAMES, GALILEO, placesOf, ordinal, satelliteName } from "./mask.js";
import { ABSENT, MESSAGE } from "../library/hundurzek.js";

const NUMBER = 4073;
const SATELLITES_ASSIGNED = [40, 24, 37, 40, 10], SIGNALS_ASSIGNED = [14, 13, 15, 9, 10];
const MOST_SATELLITES = 64, MOST_CELLS = 256;
const SHORT = 3, OTHER_NUMBER = 4, SUB_TYPE = 5, NO_MASK = 6, OTHER_ISSUE = 7, SYSTEM = 8, RESERVED = 9, SIZE = 10;
const NETWORK = 11, CHANGED_MASK = 13;

/* The fields of a row: name, width, the number of the row in which it is handed out, and the colour that it has. */
const COLUMNS = {
  clock: [["clock C0", 15, 0, "clock"]],
  code: [["code bias", 11, 0, "code"]],
  phase: [["phase bias", 15, 0, "phase"], ["discontinuity indicator", 2, 1, "phase"]],
  accuracy: [["SSR URA", 6, 0, "accuracy"]],
  service: [0, 1, 2, 3, 4].map((k) => ["data byte", 8, k, "service"]),
};
const UNSIGNED = new Set(["IODE", "discontinuity indicator", "SSR URA", "data byte"]);

function orbit(id) {
  return [["IODE", id === GALILEO ? 10 : 8, 0, "orbit"], ["radial", 15, 1, "orbit"], ["along-track", 13, 2, "orbit"],
    ["cross-track", 13, 3, "orbit"]];
}

const moved = (columns, by) => columns.map(([name, width, number, kind]) => [name, width, number + by, kind]);

/* Why a message is refused, at the field that was laid last. */
class Refusal extends Error {
  constructor(answer, missing = 0) {
    super(`refused with ${answer}`);
    this.answer = answer;
    this.missing = missing;
  }
}

class Laying {
  constructor(stretch, place, mask) {
    Object.assign(this, { stretch, place, mask, fields: [], rows: [] });
  }

  /* A field of so many bits; where they are not all there it is short. A value is a number up to 40 bits. */
  take(name, width, kind, more = {}) {
    const { stretch, place } = this;
    const missing = Math.max(0, place + width - stretch.end);
    const field = { name, place, width, kind, missing, value: null, ...more };
    this.fields.push(field);
    if (missing > 0) throw new Refusal(SHORT, missing);
    if (width <= 40) field.value = stretch.number(place, width);
    this.place += width;
    return field;
  }

  refuse(answer, when) {
    if (when) throw new Refusal(answer);
  }

  message() {
    this.refuse(OTHER_NUMBER, this.take("message number", 12, "number").value !== NUMBER);
    const subType = this.take("sub type", 4, "number").value;
    if (subType === 1) this.maskMessage();
    else if (subType === 10) this.service();
    else this.correction(subType);
  }

  common(name, width) {
    this.take(name, width, "head");
    this.take("update interval", 4, "head");
    this.take("multiple message indicator", 1, "head");
    return this.take("IOD SSR", 4, "issue").value;
  }

  // ---- sub type 1

  maskMessage() {
    const iod = this.common("epoch", 20);
    const count = this.take("number of systems", 4, "head").value;
    const sent = { iod, systems: [], satellites: 0, cells: 0 };
    for (let k = 0; k < count; k++) this.system(sent);
    this.refuse(CHANGED_MASK, this.mask !== null && this.mask.iod === iod && !sameMask(this.mask, sent));
  }

  system(sent) {
    const whose = `of the ${ordinal(sent.systems.length + 1)} system`;
    const id = this.take("GNSS ID", 4, "system", { whose }).value;
    this.fields.at(-1).whose += id < SYSTEM_NAMES.length ? `: ${SYSTEM_NAMES[id]}` : "";
    this.refuse(SYSTEM, id >= SYSTEM_NAMES.length || sent.systems.some((system) => system.id === id));
    const satellites = this.places("satellite mask", 40, "satellites", id, SATELLITES_ASSIGNED[id], 1);
    sent.satellites += satellites.length;
    this.refuse(SIZE, sent.satellites > MOST_SATELLITES);
    const signals = this.places("signal mask", 16, "signals", id, SIGNALS_ASSIGNED[id], 0);
    const flag = this.take("cell flag", 1, "cells", { whose: `of ${SYSTEM_NAMES[id]}` }).value;
    const width = satellites.length * signals.length;
    let cells = "1".repeat(width);
    if (flag === 1 && width > 0) cells = this.cellMask(id, satellites, signals);
    sent.systems.push({ id, satellites, signals, flag, cells });
    sent.cells += cells.replaceAll("0", "").length;
    this.refuse(SIZE, sent.cells > MOST_CELLS);
  }

  places(name, width, kind, id, assigned, first) {
    const field = this.take(name, width, kind);
    const set = placesOf(field.value, width);
    const named = set.map((k) => k + first).join(", ") || "none";
    field.whose = `of ${SYSTEM_NAMES[id]}: ${first ? "satellites" : "signal places"} ${named}`;
    this.refuse(RESERVED, set.some((place) => place >= assigned));
    return set;
  }

  cellMask(id, satellites, signals) {
    const field = this.take("cell mask", satellites.length * signals.length, "cells");
    const size = `${satellites.length} satellites by ${signals.length} signals`;
    field.whose = `of ${SYSTEM_NAMES[id]}, satellite by satellite: ${size}`;
    return this.stretch.text(field.place, field.width);
  }

  // ---- sub type 10

  service() {
    this.take("multiple message indicator", 1, "head");
    this.take("message counter", 3, "head");
    const size = this.take("data size", 2, "head").value;
    const bytes = (_, k) => ({ keys: [ABSENT, ABSENT, k + 1], whose: `of the ${ordinal(k + 1)} 40 bits` });
    this.body(Array.from({ length: size + 1 }, bytes), () => COLUMNS.service);
  }

  // ---- sub types under the mask

  correction(subType) {
    this.refuse(SUB_TYPE, ![2, 3, 4, 5, 6, 7, 11].includes(subType));
    const iod = this.common("hourly epoch", 12);
    this.fields.at(-1).note = this.mask === null ? "nothing is held" : `the mask held has ${this.mask.iod}`;
    this.refuse(NO_MASK, this.mask === null);
    this.refuse(OTHER_ISSUE, iod !== this.mask.iod);
    const all = this.mask.satellites.map((_, k) => k);
    if (subType === 2) this.body(this.satellites(all), orbit);
    else if (subType === 3) this.body(this.satellites(all), () => COLUMNS.clock);
    else if (subType === 7) this.body(this.satellites(all), () => COLUMNS.accuracy);
    else if (subType === 4) this.body(this.cells(all), () => COLUMNS.code);
    else if (subType === 5) this.body(this.cells(all), () => COLUMNS.phase);
    else if (subType === 6) this.biases();
    else this.combined();
  }

  /* A row for each of these satellites of the mask. */
  satellites(chosen) {
    return chosen.map((k) => {
      const { system, satellite } = this.mask.satellites[k];
      const whose = `of the ${ordinal(k + 1)} satellite that the mask names: ${satelliteName(system, satellite)}`;
      return { keys: [system, satellite, ABSENT], whose };
    });
  }

  /* A row for each cell of these satellites. */
  cells(chosen) {
    const row = ({ system, satellite, signal }, k) => {
      const cell = `${satelliteName(system, satellite)}, signal place ${signal}`;
      return { keys: [system, satellite, signal], whose: `of the ${ordinal(k + 1)} cell that the mask has: ${cell}` };
    };
    return this.mask.cells.flatMap((cell, k) => (chosen.includes(cell.index) ? [row(cell, k)] : []));
  }

  /* The network's satellites, or all: their indexes in the mask. */
  selected(withoutCells) {
    const all = this.mask.satellites.map((_, k) => k);
    if (this.take("network flag", 1, "flag").value === 0) return all;
    this.refuse(NETWORK, this.take("network ID", 5, "flag").value === 0);
    const field = this.take("satellite selection", all.length, "flag");
    const chosen = all.filter((k) => this.stretch.bit(field.place + k) === 1);
    const satellites = chosen.map((k) => this.mask.satellites[k]);
    const names = satellites.map(({ system, satellite }) => satelliteName(system, satellite)).join(", ");
    field.whose = `one bit for each satellite that the mask names; selected: ${names || "none"}`;
    this.refuse(NETWORK, withoutCells && satellites.some(({ signals }) => signals.length === 0));
    return chosen;
  }

  biases() {
    const codes = this.take("code bias flag", 1, "flag").value, phases = this.take("phase bias flag", 1, "flag").value;
    const columns = [...(codes ? COLUMNS.code : []), ...(phases ? moved(COLUMNS.phase, 1) : [])];
    this.body(this.cells(this.selected(true)), () => columns);
  }

  combined() {
    const orbits = this.take("orbit flag", 1, "flag").value, clocks = this.take("clock flag", 1, "flag").value;
    const columns = (system) => [...(orbits ? orbit(system) : []), ...(clocks ? moved(COLUMNS.clock, 4) : [])];
    this.body(this.satellites(this.selected(false)), columns);
  }

  /* Rows, each with its keys and whose it is; their columns by system. Where they are not all there the body is short
     as one. */
  body(rows, columnsOf) {
    const fields = rows.flatMap(({ keys, whose }, row) => columnsOf(keys[0]).map(([name, width, column, kind]) =>
      ({ name, width, kind, more: { whose, row, column } })));
    const width = fields.reduce((sum, field) => sum + field.width, 0);
    if (this.place + width > this.stretch.end) this.take("body", width, "body");
    for (const field of fields) this.take(field.name, field.width, field.kind, field.more);
    this.rows = rows.map(({ keys }) => keys);
  }
}

/* The held mask and one as it was sent: their saved lines are the same. */
function sameMask(held, sent) {
  const line = ({ id, flag, satellites, signals }) => [id, flag, satellites, signals].join(" ");
  const heldLines = held.systems.map((system) => line({ ...system, satellites: system.satellites.map((n) => n - 1) }));
  const bits = sent.systems.flatMap(({ satellites, signals, cells }) =>
    satellites.map((_, k) => signals.filter((_, j) => cells[k * signals.length + j] === "1").join(",")));
  return heldLines.join(";") === sent.systems.map(line).join(";") &&
    held.satellites.map(({ signals }) => signals.join(",")).join(";") === bits.join(";");
}

/* The two's complement of a field of a row that has a sign. */
function signed({ name, width, value }) {
  return UNSIGNED.has(name) || value < 2 ** (width - 1) ? value : value - 2 ** width;
}

/* The message at a place of a stretch under a mask: its fields, each with the row and the number of it that it becomes;
   the keys of its rows; the answer, and how many bits are missing. A refused one ends with the field at which it is
   refused, but for 13, which is the whole message's. */
export function layOut(stretch, place, mask) {
  const laying = new Laying(stretch, place, mask);
  let answer = MESSAGE, missing = 0;
  try {
    laying.message();
  } catch (refusal) {
    if (!(refusal instanceof Refusal)) throw refusal;
    ({ answer, missing } = refusal);
  }
  for (const field of laying.fields) if (field.row !== undefined && field.value !== null) field.value = signed(field);
  const refused = answer === MESSAGE || answer === CHANGED_MASK ? null : laying.fields.at(-1);
  return { fields: laying.fields, rows: laying.rows, answer, missing, refused };
}
