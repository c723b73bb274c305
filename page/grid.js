/* The mask as a grid: a table for each system, satellites by signal places, cells marked with the k of "the k-th". */
import { element } from "./elements.js";
import { SYSTEM_NAMES, satelliteName } from "./mask.js";

function headRow(signals) {
  const row = element("tr", "");
  row.append(element("th", "satellite", { scope: "col" }));
  for (const signal of signals)
    row.append(element("th", signal, { scope: "col", "aria-label": `signal place ${signal}` }));
  return row;
}

/* A satellite's row: which one it is, and at each signal place which cell. */
function satelliteRow(mask, index, signals) {
  const row = element("tr", "", { "data-satellite": index }), { system, satellite } = mask.satellites[index];
  row.append(element("th", `${index + 1}. ${satelliteName(system, satellite)}`, { scope: "row" }));
  for (const signal of signals) {
    const k = mask.cells.findIndex((cell) => cell.index === index && cell.signal === signal);
    const name = k < 0 ? "no cell" : `cell ${k + 1}`;
    row.append(element("td", k < 0 ? "·" : k + 1, { class: k < 0 ? "" : "cell", "aria-label": name, "data-cell": k }));
  }
  return row;
}

function systemTable(mask, { id, flag, satellites, signals }, first) {
  const table = element("table", ""), size = `${satellites.length} satellites, ${signals.length} signals`;
  table.append(element("caption", `${SYSTEM_NAMES[id]}: ${size}, cell flag ${flag}`), headRow(signals));
  satellites.forEach((_, k) => table.append(satelliteRow(mask, first + k, signals)));
  return table;
}

export function drawGrid(place, mask) {
  if (mask === null) return place.replaceChildren("No mask is held.");
  const tables = [];
  let first = 0;
  for (const system of mask.systems) {
    tables.push(systemTable(mask, system, first));
    first += system.satellites.length;
  }
  const size = `IOD SSR ${mask.iod}: ${mask.satellites.length} satellites, ${mask.cells.length} cells. `;
  const head = element("p", `${size}The number before a satellite, and in a cell, is the k of “the k-th”.`);
  place.replaceChildren(head, ...tables);
}

/* Marks a satellite's row, or one of its cells, by the system, satellite and signal of a row that was handed out. */
export function markInGrid(place, mask, cell) {
  for (const old of place.querySelectorAll(".marked")) old.classList.remove("marked");
  if (mask === null || cell === null) return;
  const [system, satellite, signal] = cell;
  const index = mask.satellites.findIndex((one) => one.system === system && one.satellite === satellite);
  if (index < 0) return;
  place.querySelector(`[data-satellite="${index}"] th`).classList.add("marked");
  const k = mask.cells.findIndex((one) => one.index === index && one.signal === signal);
  if (k >= 0) place.querySelector(`[data-cell="${k}"]`).classList.add("marked");
}
