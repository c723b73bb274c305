/* The stretch as a band of bits, 64 to a row: pieces, each a field, idle padding or what was not read. */

import { element } from "./elements.js";

export const ROW_BITS = 64;

/* One after another they are the stretch. A piece has its place and how many bits of it are there, a name and a kind
   (its colour); a field's has the field, and one of an accepted message the message's index. Of a refused message the
   field at which it is refused is marked, or the whole. */
export function piecesOf({ stretch, stop }, laidMessages, laidStop) {
  const pieces = laidMessages.flatMap((laid, message) => laid.fields.map((field) => fieldPiece(field, message)));
  if (laidStop !== null) {
    const { fields, refused } = laidStop;
    const whole = refused === null;
    for (const field of fields) pieces.push({ ...fieldPiece(field), refused: field === refused, whole });
    rest("not read", "unread");
  }
  if (stop.answer === 0) rest("idle padding", "idle");
  return pieces.filter(({ width }) => width > 0);

  function rest(name, kind) {
    const last = pieces.at(-1), place = last ? last.place + last.width : 0;
    pieces.push({ place, width: stretch.end - place, name, kind });
  }
}

function fieldPiece(field, message) {
  const { place, width, missing, name, kind } = field;
  return { place, width: width - missing, name, kind, field, message };
}

/* What a piece says of itself. */
export function pieceLabel({ place, width, name, field }) {
  if (!field) return `${name}, place ${place}, ${width} bits`;
  const value = field.value === null ? "" : `, value ${field.value}`;
  const missing = field.missing > 0 ? `, ${field.missing} bits missing` : "";
  return `${name}, place ${place}, ${field.width} bits${value}${missing}${field.whose ? `, ${field.whose}` : ""}`;
}

/* The part of a piece that lies in one row of the band. */
function segment(stretch, piece, index, from, to) {
  const span = document.createElement("span");
  const { field, message, refused, whole, kind, place, width } = piece;
  const row = field?.row, is = { refused, whole, first: from === place, m0: message % 2 === 0, m1: message % 2 === 1 };
  span.className = ["piece", kind, ...Object.keys(is).filter((name) => is[name])].join(" ");
  Object.assign(span.dataset, { piece: index, place, width: field?.width ?? width, name: piece.name });
  if (message !== undefined) span.dataset.message = message;
  if (message !== undefined && row !== undefined) span.dataset.row = row;
  span.textContent = stretch.text(from, to - from);
  if (from === place) {
    span.id = `piece-${index}`;
    span.tabIndex = -1;
    span.setAttribute("role", "img");
    span.setAttribute("aria-label", pieceLabel(piece));
  } else {
    span.setAttribute("aria-hidden", "true");
  }
  return span;
}

function newRow(place) {
  const row = element("div", "", { class: "bits" });
  row.append(element("span", place, { class: "at" }));
  return row;
}

export function drawBand(band, stretch, pieces) {
  const all = document.createDocumentFragment();
  let row = null;
  pieces.forEach((piece, index) => {
    for (let at = piece.place; at < piece.place + piece.width; ) {
      if (at % ROW_BITS === 0) all.append((row = newRow(at)));
      const to = Math.min(piece.place + piece.width, at - (at % ROW_BITS) + ROW_BITS);
      row.append(segment(stretch, piece, index, at, to));
      at = to;
    }
  });
  band.replaceChildren(all);
  const first = band.querySelector(".piece");
  if (first) first.tabIndex = 0;
}

/* The piece that a key leads to from another: the one before or after, the one a row above or below, the ends. */
export function pieceFrom(pieces, index, key) {
  const { place } = pieces[index];
  const at = (bit) => pieces.findIndex((piece) => bit < piece.place + piece.width);
  const last = pieces.length - 1;
  switch (key) {
    case "ArrowLeft": return Math.max(index - 1, 0);
    case "ArrowRight": return Math.min(index + 1, last);
    case "ArrowUp": return place < ROW_BITS ? index : at(place - ROW_BITS);
    case "ArrowDown": return at(place + ROW_BITS) < 0 ? last : at(place + ROW_BITS);
    case "Home": return 0;
    case "End": return last;
    default: return -1;
  }
}
